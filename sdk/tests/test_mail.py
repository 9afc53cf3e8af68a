"""Mailboxes: in descriptions and images, in sentences, by the schedule, in pictures."""

from __future__ import annotations

import json
import random
import re
import tomllib
from pathlib import Path
from types import SimpleNamespace
from typing import Any

import pytest
from conftest import REPOSITORY, SDK, run_tool

from tp_sdk.bounds import bounds_of, parts_of
from tp_sdk.build import build_text
from tp_sdk.calls import EVERY_CALL, calls_where
from tp_sdk.counts import count_events
from tp_sdk.description import read_description
from tp_sdk.explain import explain_all
from tp_sdk.faults import Fault
from tp_sdk.images import is_described
from tp_sdk.known import known_of
from tp_sdk.mail import (
    Box,
    Mail,
    OpenOrders,
    boxes_in_use,
    boxes_of,
    close_switches,
    deliveries,
    longest_events,
)
from tp_sdk.program import Program
from tp_sdk.refusals import Refusal
from tp_sdk.replay import replay
from tp_sdk.report import Reply, parse_report
from tp_sdk.rules import Rules
from tp_sdk.schedule import Entry, slots_of
from tp_sdk.telling import DomainTold

TWO_DOMAINS = (REPOSITORY / "examples" / "two-domains.toml").read_text()
RED_TO_BLUE = "\n[[mail]]\nfrom = {}\nto = {}\n"
MAIL = TWO_DOMAINS + RED_TO_BLUE.format(0, 1)


def write(folder: Path, text: str) -> Path:
    file = folder / "mine.toml"
    file.write_text(text)
    return file


# ---- descriptions


@pytest.mark.parametrize(
    ("ends", "mail"),
    [
        (('"red"', '"blue"'), [{"from": 0, "to": 1}]),
        (("1", '"red"'), [{"from": 1, "to": 0}]),
        (("1", "0"), [{"from": 1, "to": 0}]),
    ],
)
def test_a_box_is_between_domains_by_their_names(tmp_path: Path, ends: Any, mail: Any) -> None:
    text = TWO_DOMAINS + RED_TO_BLUE.format(*ends)
    assert tomllib.loads(build_text(read_description(write(tmp_path, text)), None))["mail"] == mail
    assert is_described(tomllib.loads(text)) == any('"' in end for end in ends)


def test_no_box_at_all(tmp_path: Path) -> None:
    for text in (TWO_DOMAINS, "mail = []\n" + TWO_DOMAINS):
        assert "mail" not in tomllib.loads(build_text(read_description(write(tmp_path, text)), None))


@pytest.mark.parametrize(
    ("mail", "fault"),
    [
        (RED_TO_BLUE.format('"rde"', '"blue"'), "3:8: there is no domain 'rde': did you mean 'red'?"),
        (RED_TO_BLUE.format('"red"', '"blu"'), "4:6: there is no domain 'blu': did you mean 'blue'?"),
        (RED_TO_BLUE.format('"red"', '"x"'), "4:6: there is no domain 'x': red, blue"),
        (RED_TO_BLUE.format('"red"', "true"), "4:6: 'to' must be the name of a domain, or its place"),
        ("\n[[mail]]\nfrom = 0\n", "2:1: 'to' is missing: the name of a domain, or its place"),
        ("\n[[mail]]\nform = 0\nto = 1\n", "3:1: there is no key 'form' here: did you mean 'from'?"),
    ],
)
def test_a_box_that_is_at_fault(tmp_path: Path, mail: str, fault: str) -> None:
    file = write(tmp_path, TWO_DOMAINS + mail)
    line, _, rest = fault.partition(":")
    with pytest.raises(Fault) as raised:
        build_text(read_description(file), None)
    assert str(raised.value) == f"{file}:{TWO_DOMAINS.count(chr(10)) + int(line)}:{rest}"


def test_mail_that_is_no_array_of_tables(tmp_path: Path) -> None:
    for mail in ("mail = 1\n", "mail = [1]\n"):
        with pytest.raises(Fault, match=r"'mail' must be tables \[\[mail\]\], one for each box"):
            read_description(write(tmp_path, mail + TWO_DOMAINS))


def test_the_calls_have_names(tmp_path: Path) -> None:
    text = MAIL.replace("colours = [1]", 'colours = [1]\ncalls = ["recv", "send", "exit"]', 1)
    image = tomllib.loads(build_text(read_description(write(tmp_path, "version = 2\n" + text)), None))
    assert image["domain"][0]["calls"] == [0, 19, 20]


@pytest.mark.parametrize(
    ("mail", "told"),
    [
        (
            RED_TO_BLUE.format('"blue"', '"blue"'),
            '4:6: the image is refused: K20, case 3: `to` of box 0 (blue to blue) is `"blue"`: `from` and `to` are '
            "one domain; wanted: a box from domain 1 (blue) to another domain; the other is `from` of box 0 (blue "
            'to blue): `"blue"`, 3:8',
        ),
        (
            RED_TO_BLUE.format(0, '"blue"') + RED_TO_BLUE.format('"red"', 1),
            "8:6: the image is refused: K20, case 4: `to` of box 1 (red to blue) is `1`: an earlier box is from and "
            "to the same; wanted: one box at most from a domain to another; the other is `to` of box 0 (red to "
            'blue): `"blue"`, 4:6',
        ),
        (
            RED_TO_BLUE.format('"red"', 2),
            "4:6: the image is refused: K20, case 2: `to` of box 0 (from red) is `2`: there is no such domain; "
            "wanted: the place of a domain, from 0",
        ),
        (
            RED_TO_BLUE.format('"red"', '"blue"') * 65,
            "2:1: the image is refused: K20, case 1: `mail`: there are more than 64; wanted: 64 boxes or fewer (here "
            "65 stand)",
        ),
    ],
)
def test_a_refused_box_is_told_in_the_description(
    tmp_path: Path, mail: str, told: str, program: Program
) -> None:
    file = write(tmp_path, TWO_DOMAINS + mail)
    with pytest.raises(Fault) as raised:
        build_text(read_description(file), program)
    before = TWO_DOMAINS.count("\n")

    def place(match: re.Match[str]) -> str:
        return f"{match[1]}{file}:{before + int(match[2])}:{match[3]}"

    assert str(raised.value) == re.sub(r"(^|, )(\d+):(\d+)", place, told)


def test_an_entry_that_clashes_is_told_by_its_domains_name(tmp_path: Path, program: Program) -> None:
    entry = '\n[[schedule]]\ndomain = "red"\nlength = 10000\npad = 6150\nhart = {}\n'
    text = TWO_DOMAINS.replace("[[schedule]]\ndomain = 0", '[[schedule]]\ndomain = "red"')
    file = write(tmp_path, text + entry.format(1))
    with pytest.raises(Fault) as raised:
        build_text(read_description(file), program)
    own = r"`hart` of entry 2 \(red\) is `1`: an earlier entry gives the domain to another hart"
    other = r'the other is `domain` of entry 0 \(red\): `"red"`, '
    assert re.search(rf"K19, case 3: {own}; .*; {other}", str(raised.value))


# ---- in sentences


@pytest.mark.parametrize(
    ("mail", "refusal", "reason"),
    [
        (
            RED_TO_BLUE.format(0, 1) * 65,
            "0 found 65 wanted 1",
            "case 1: `mail`: there are more than 64; wanted: 64 boxes or fewer (here 65 stand)",
        ),
        (
            RED_TO_BLUE.format(0, 2),
            "0 found 2 wanted 2",
            "case 2: `to` of box 0 (from red) is `2`: there is no such domain; "
            "wanted: the place of a domain, from 0",
        ),
        (
            RED_TO_BLUE.format(1, 1),
            "0 found 1 wanted 3",
            "case 3: `to` of box 0 (blue to blue) is `1`: `from` and `to` are one domain; "
            "wanted: a box from domain 1 (blue) to another domain",
        ),
        (
            RED_TO_BLUE.format(0, 1) * 2,
            "1 found 0 wanted 4",
            "case 4: `to` of box 1 (red to blue) is `1`: an earlier box is from and to the same; "
            "wanted: one box at most from a domain to another",
        ),
    ],
)
def test_each_case_in_a_sentence(mail: str, refusal: str, reason: str) -> None:
    text = TWO_DOMAINS + mail
    told = explain_all(text.encode(), "mine.toml", Refusal.parse(f"refused K20 at {refusal}"))
    assert told[0].reason() == f"K20, {reason}"
    first, _ = next(Rules(tomllib.loads(text)).broken())
    assert str(first) == f"refused K20 at {refusal}"


def test_what_is_no_box_is_of_another_image() -> None:
    for line in ("0 found 0 wanted 3", "0 found 1 wanted 2", "0 found 0 wanted 4", "1 found 0 wanted 4"):
        with pytest.raises(Fault, match="another image"):
            explain_all(MAIL.encode(), "mine.toml", Refusal.parse(f"refused K20 at {line}"))


def test_arrays_with_what_is_no_table_are_told_alone() -> None:
    for key, row in (("mail", 32), ("schedule", 22), ("domain", 10)):
        image = tomllib.loads(MAIL) | {key: [1]}
        assert str(next(Rules(image).broken())[0]) == f"refused K2 at {row} found 0 wanted 0"


def told_of(replies: tuple[Reply, ...], calls: frozenset[int] = EVERY_CALL) -> list[str]:
    section: Any = SimpleNamespace(replies=replies, replies_count=len(replies), out=b"")
    return DomainTold(section, None, calls)._replies()[1:]


def test_errors_by_their_names() -> None:
    assert told_of((Reply(15, 0), Reply(14, 0), Reply(16, 0), Reply(16, 0))) == [
        "  1 by NoBox (14: no box of the number is from the caller (SEND), or to it (RECV)), as SEND or RECV "
        "can be: reply 1",
        "  1 by BoxFull (15: 16 words were put into the box since the caller's slot began), as SEND can be: "
        "reply 0",
        "  2 by NoMail (16: no word is left in the box), as RECV can be: replies 2, 3",
    ]
    assert "as RECV can be" in told_of((Reply(14, 0),), frozenset({0, 20}))[0]


@pytest.mark.parametrize(("text", "many"), [(TWO_DOMAINS, 15), (MAIL, 17)])
def test_every_call_is_every_one_that_there_is(tmp_path: Path, text: str, many: int) -> None:
    known = known_of(read_description(write(tmp_path, text)), [])
    assert known.there == known.calls_of(0) == calls_where(text == MAIL) and len(known.there) == many
    bounds = bounds_of(tomllib.loads("version = 2\n" + text))
    assert [(len(it.calls), it.left_out) for it in bounds] == [(many, 0)] * 2


def test_a_report_with_its_image_tells_of_boxes(tmp_path: Path, monkeypatch: pytest.MonkeyPatch) -> None:
    monkeypatch.setenv("TP", str(tmp_path / "none"))
    report = REPOSITORY / "examples" / "key-store.report"
    words = (report, "--image", report.with_suffix(".toml"))
    told = run_tool("tp-report", *words).stdout.splitlines()
    assert [it.strip() for it in told if it.startswith("  box ")] == [
        "box 0 to store, box 1 from store",
        "box 2 to store",
        "box 0 from friend, box 1 to friend, box 2 from stranger",
    ]
    domains = json.loads(run_tool("tp-report", *words, "--json").stdout)["domains"]
    assert [it["boxes"] for it in domains[1:]] == [
        [{"number": 2, "from": "stranger", "to": "store"}],
        [
            {"number": 0, "from": "friend", "to": "store"},
            {"number": 1, "from": "store", "to": "friend"},
            {"number": 2, "from": "stranger", "to": "store"},
        ],
        [],
    ]
    # a report alone tells of none
    assert "box " not in run_tool("tp-report", report).stdout.replace("no box ", "")


def test_the_key_store_tells_its_friend_alone(program: Program) -> None:
    text = (REPOSITORY / "examples" / "key-store.toml").read_text()
    told = {}
    for key in ("4c", "ff"):
        changed = text.replace('hex = "4c000000"', f'hex = "{key}000000"')
        told[key] = parse_report(program.run(["run", "--slots", "16"], changed).text, key)
    one, other = told.values()
    assert [it.section("friend").out for it in (one, other)] == [b"K", bytes([0xFF ^ 7])]
    for name in ("stranger", "spy"):
        assert one.section(name).text == other.section(name).text
    assert one.section("stranger").replies[-1] == one.section("store").replies[-1] == Reply(14, 0)


# ---- by the schedule


# On hart 0 red's slots end at 30,000 and each 30,000 later; on hart 1 blue's at 13,500, green's at 30,000.
ENTRIES = [Entry(0, 10000, 20000), Entry(1, 2000, 6500, hart=1), Entry(2, 10000, 11500, hart=1)]
BOXES = [Box(0, 0, 1), Box(1, 0, 2), Box(2, 1, 0), Box(3, 2, 0), Box(4, 1, 2), Box(5, 2, 1)]


def test_where_the_ends_lie_apart_the_schedule_tells() -> None:
    close = close_switches(ENTRIES, BOXES, [4583] * 3)
    assert [(it.box.number, it.sends, it.receives, it.slots, it.ends, it.apart) for it in close] == [
        (0, 0, 1, (0, 1), (30000, 30000), 0),
        (3, 2, 0, (1, 0), (30000, 30000), 0),
    ]
    # blue's ends are 13,500 after red's, and 16,500 before the next one
    assert len(close_switches(ENTRIES, BOXES, [13500] * 3)) == 2
    assert [it.box.number for it in close_switches(ENTRIES, BOXES, [13501] * 3)] == [0, 1, 2, 3]
    # the last slot of a run has no switch after it
    assert close_switches(ENTRIES, BOXES, [4583] * 3, slots=1) == []
    assert [it.box.number for it in close_switches(ENTRIES, BOXES, [4583] * 3, slots=2)] == []
    assert [it.box.number for it in close_switches(ENTRIES, BOXES, [4583] * 3, slots=3)] == [0, 3]


def test_the_first_close_ends_are_those_that_are_found_one_by_one() -> None:
    draw = random.Random(7)
    for _ in range(60):
        entries = [
            Entry(domain, draw.randint(1000, 4000), draw.randint(0, 3000), domain % 2) for domain in range(4)
        ]
        box, longest = Box(0, 0, 1), [draw.randint(1, 400) for _ in range(4)]
        found = {(it.sends, it.receives): it.ends for it in close_switches(entries, [box], longest, 40)}
        one, other = (list(slots_of(entries, 40, hart)) for hart in (0, 1))
        ends = [slot.end for slot in one[:-1] if slot.domain == 0]
        befores = [before for before, slot in zip(other, other[1:]) if slot.domain == 1]
        close = [
            (end, it.end)
            for end in ends
            for it in befores
            # (the domain of the slot that ends first passes its end)
            if abs(end - it.end) < longest[0 if end <= it.end else it.domain]
        ]
        assert found == ({(0, 1): close[0]} if close else {})


def test_deliveries_lead_to_the_next_slot_of_the_receiver() -> None:
    told = [
        (it.box.number, it.left, it.came, it.is_open)
        for it in deliveries(ENTRIES, Mail(BOXES, [4583] * 3), 4)
    ]
    assert told == [
        # of two ends in one cycle that of the lesser hart comes first
        (0, 0, 2, True),
        (1, 0, 3, False),
        (2, 0, 1, False),
        (2, 2, 2, False),
        (3, 1, 2, True),
        (3, 3, 3, True),
        # on one hart
        (4, 0, 1, False),
        (4, 2, 3, False),
        (5, 1, 2, False),
    ]


def test_a_longest_event_is_an_instruction_and_its_call() -> None:
    image = tomllib.loads(MAIL)
    assert longest_events(image, "image") == [306 + 4277] * 2
    image |= {"version": 2}
    image["domain"][0]["calls"] = [0, 20]
    assert longest_events(image, "image") == [306 + 501, 306 + 4277]
    image["domain"][1]["calls"] = [0, 20]
    assert longest_events(image, "image") == [306 + 501] * 2
    # (who may not SEND tells nothing)
    assert boxes_in_use(image, boxes_of(image, "image")) == []


@pytest.mark.parametrize("mail", ([{"from": 0}], [{"from": 0, "to": 2}], [{"from": "red", "to": 1}], [1], 1))
def test_boxes_that_are_none(mail: Any) -> None:
    with pytest.raises(Fault, match="no boxes with from and to"):
        boxes_of(tomllib.loads(TWO_DOMAINS) | {"mail": mail}, "image")


# ---- which boxes' words may come in by who passes an end


ON_TWO = MAIL.replace("domain = 1 ", "hart = 1\ndomain = 1 ")
NAMED = (
    "box 0 (red to blue): on hart 0 slot 0, of entry 0 (red), ends at 16,150, and on hart 1 slot 0, before "
    "entry 1 (blue), at 16,150: they lie apart by 0, and an event of red may take 4,583, so which words come in "
    "goes by who passes an end"
)


def test_only_boxes_between_harts_are_named() -> None:
    assert OpenOrders(tomllib.loads(MAIL), "image").sentences() == []
    assert OpenOrders(tomllib.loads(ON_TWO), "image").sentences() == [NAMED]
    assert OpenOrders(tomllib.loads(ON_TWO) | {"mail": []}, "image").sentences() == []


# Red, on hart 0, puts 77 into a box; on hart 1 blue takes what has come in, after a slot of green's.
SENDS, TAKES = "93083001130500009305d004730000006f000000", "130500009308400173000000930800001305000073000000"
WAITS, CALLS = "6f000000", "930890001305f003730000006ff05fff"
THREE = TWO_DOMAINS[: TWO_DOMAINS.index("[[domain]]")].replace("frames = 64 ", "frames = 80 ")


def of_three(length: int, green: str) -> str:
    """The image, in which red's slot ends at 40,000, and green's after so many cycles from 30,000 on; and each
    80,000 cycles later all is as it was."""
    text = THREE.replace("sets = 256", "sets = 512")
    for number, (name, program) in enumerate((("red", SENDS), ("blue", TAKES), ("green", green)), 1):
        segment = f'{{ page = 16, pages = 1, rights = "rx", hex = "{program}" }}'
        text += f'[[domain]]\nname = "{name}"\ncolours = [{number}]\nentry = 65536\nsegment = [{segment}]\n'
    for domain, cycles, pad, hart in (
        (0, 10000, 30000, 0),
        (2, length, 45000 - length, 1),
        (1, 5000, 30000, 1),
    ):
        text += f"[[schedule]]\ndomain = {domain}\nlength = {cycles}\npad = {pad}\nhart = {hart}\n"
    return text + RED_TO_BLUE.format(0, 1)


def test_a_third_domain_may_decide_what_comes_in_by_a_box_that_is_named(program: Program) -> None:
    came = {}
    for length in (9999, 5417, 5418):
        assert bool(OpenOrders(tomllib.loads(of_three(length, WAITS)), "image").close) == (length > 5417)
        texts = [of_three(length, green) for green in (WAITS, CALLS)]
        reports = [parse_report(program.run(["run", "--slots", "2"], it).text, "image") for it in texts]
        # what red sees is the same: no box leads to it
        assert len({it.section("red").text for it in reports}) == 1
        came[length] = [it.section("blue").replies for it in reports]
    nothing, word = (Reply(16, 0),), (Reply(0, 77),)
    # green's last call passes the end of red's slot, too, so red's switch comes before the one into blue
    assert came == {9999: [nothing, word], 5417: [nothing] * 2, 5418: [nothing] * 2}


def test_it_goes_by_the_events_of_the_domain_whose_slot_ends_first() -> None:
    # green's ends lie before red's by 1,000, and then after
    for length in (9000, 11000):
        image = tomllib.loads("version = 2\n" + of_three(length, WAITS))
        assert [it.passes for it in OpenOrders(image, "image").close] == [2 if length == 9000 else 0]
        for domain in (0, 1, 2):
            fewer = tomllib.loads("version = 2\n" + of_three(length, WAITS))
            fewer["domain"][domain]["calls"] = [0, 19, 20]
            # (with these an event takes 807 at most; red must be one that may SEND)
            assert bool(OpenOrders(fewer, "image").close) == (domain != (2 if length == 9000 else 0))


def test_tp_image_names_them(tmp_path: Path, monkeypatch: pytest.MonkeyPatch) -> None:
    monkeypatch.setenv("TP", str(tmp_path / "none"))
    file = write(tmp_path, ON_TWO)
    ended = run_tool("tp-image", file)
    assert (ended.returncode, ended.stderr.splitlines()[-1]) == (0, f"tp-image: {file}: {NAMED}")
    assert tomllib.loads(ended.stdout)["mail"] == [{"from": 0, "to": 1}]


def test_tp_explain_names_them(tmp_path: Path) -> None:
    file = write(tmp_path, ON_TWO)
    ended = run_tool("tp-explain", file, "accepted")
    assert ended.stdout == f"accepted: no rule is broken\n{file}: {NAMED}\n"
    parts = parts_of(tomllib.loads(ON_TWO)) | {"bound": 6150}
    bound = "".join(f"{part} {cycles}\n" for part, cycles in parts.items())
    assert run_tool("tp-explain", file, given=bound).stdout.splitlines()[-1] == f"  {NAMED}"
    (told,) = json.loads(run_tool("tp-explain", file, "--json", given=bound).stdout)["open_orders"]
    assert told == {
        **{"box": 0, "sends": 0, "receives": 1, "slots": [0, 0], "ends": [16150, 16150]},
        **{"passes": "red", "longest": 4583},
        "sentence": NAMED,
    }


# ---- pictures


def test_the_memory_picture_tells_who_may_tell_whom(tmp_path: Path) -> None:
    pytest.importorskip("matplotlib")
    picture = tmp_path / "a.svg"
    for text, is_told in ((MAIL, True), (TWO_DOMAINS, False)):
        ended = run_tool("tp-plot", "memory", write(tmp_path, text), "-o", picture)
        assert (ended.returncode, ended.stderr) == (0, "")
        assert ("red may tell blue" in picture.read_text()) == is_told
        assert "blue may tell red" not in picture.read_text()


def test_arrows_are_of_slots_in_which_calls_were_made() -> None:
    pytest.importorskip("matplotlib")
    from tp_sdk.plot_deliveries import Arrow, arrows_of
    from tp_sdk.replay import Did, Replay

    entries, mail = [Entry(0, 10000, 6150), Entry(1, 10000, 6150)], Mail([Box(0, 0, 1)], [4583] * 2)
    first, second = Arrow((0, 1), (0, 1), (16150, 22300), False), Arrow((0, 1), (2, 3), (48450, 54600), False)
    assert arrows_of(entries, mail, None, 4) == [first, second]
    assert arrows_of(entries, Mail(), None, 4) == []
    dids = [Did(9, calls, False, "running", None) for calls in (3, 1, 0, 1)]
    assert arrows_of(entries, mail, [Replay(tuple(dids), 0, ())], 4) == [first]
    # (of later slots nothing is known)
    assert arrows_of(entries, mail, [Replay(tuple(dids[:2]), 0, ())], 4) == [first, second]


def test_what_no_run_again_can_tell() -> None:
    accepts: Any = SimpleNamespace(run=lambda words, text: SimpleNamespace(code=0, text="accepted\n"))
    with pytest.raises(
        Fault, match="image: boxes lead to domain 1, and alone, as it is counted, no word comes"
    ):
        count_events(accepts, tomllib.loads(MAIL), "image", 1, 2)
    report = parse_report((REPOSITORY / "examples" / "two-harts.report").read_text(), "report")
    two_harts = (REPOSITORY / "examples" / "two-harts.toml").read_text() + RED_TO_BLUE.format(0, 1)
    # (no program is asked)
    assert replay(accepts, tomllib.loads(two_harts), "image", report, 2) is None


def test_a_timeline_has_an_arrow_for_each_delivery(tmp_path: Path, monkeypatch: pytest.MonkeyPatch) -> None:
    pytest.importorskip("matplotlib")
    monkeypatch.setenv("TP", str(tmp_path / "none"))
    picture = tmp_path / "a.svg"
    report = REPOSITORY / "examples" / "two-domains.report"
    drawn = {}
    for text in (TWO_DOMAINS, MAIL):
        ended = run_tool("tp-plot", "timeline", write(tmp_path, text), report, "-o", picture)
        assert ended.returncode == 0 and "totals alone" in ended.stderr
        drawn[text] = picture.read_text()
    told = "words of a box, if any were put in: where they came in"
    assert told in drawn[MAIL] and told not in drawn[TWO_DOMAINS]
    # (a line and a head each, of two)
    assert drawn[MAIL].count("<path") > drawn[TWO_DOMAINS].count("<path")


def test_a_timeline_of_harts_tells_what_the_schedule_does_not(
    tmp_path: Path, monkeypatch: pytest.MonkeyPatch
) -> None:
    pytest.importorskip("matplotlib")
    monkeypatch.setenv("TP", str(tmp_path / "none"))
    picture, image = tmp_path / "a.svg", REPOSITORY / "examples" / "two-harts.toml"
    mine = write(tmp_path, image.read_text() + RED_TO_BLUE.format(0, 1))
    ended = run_tool("tp-plot", "timeline", mine, image.with_suffix(".report"), "-o", picture)
    assert ended.returncode == 0
    assert "the same, or a slot earlier or later: by who passed an end" in picture.read_text()


def test_the_header_and_the_tables_say_the_same() -> None:
    text = (SDK / "c" / "tp.h").read_text()
    assert "#define TP_BOX_WORDS 16 " in text and "tp_send(" in text and "tp_recv(" in text
