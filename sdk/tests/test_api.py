"""What `import tp_sdk` gives: images that are checked and varied, runs, reports and their differences."""

from __future__ import annotations

import inspect
import pickle
import subprocess
import sys
from collections.abc import Callable
from pathlib import Path

import pytest
from conftest import REPOSITORY, SDK, stored_picture

import tp_sdk
from tp_sdk import Fault, Image, Missing, Refused, Report, capacity, entropy, picture, run
from tp_sdk.guards import GUARDS
from tp_sdk.program import Program
from tp_sdk.report import Difference

EXAMPLES = REPOSITORY / "examples"
LINES = EXAMPLES / "channels" / "lines"
SECRET_5 = LINES / "secret-5.toml"
NAMES = ["Fault", "Image", "Missing", "Refused", "Report", "__version__", "capacity", "entropy", "picture"]


@pytest.fixture(scope="module")
def image(program: Program) -> Image:
    """A sender that has the secret 5, and a spy."""
    return Image.read(SECRET_5)


def fault(call: Callable[[], object], kind: type[Fault] = Fault) -> str:
    """The one sentence of what a call raises."""
    with pytest.raises(kind) as raised:
        call()
    assert type(raised.value) is kind and "\n" not in str(raised.value)
    return str(raised.value)


# ---- the names


def test_the_package_gives_these_names_and_tells_what_each_is() -> None:
    assert tp_sdk.__all__ == [*NAMES, "run", "sweep"]
    assert set(tp_sdk.__all__) <= set(dir(tp_sdk))
    assert tp_sdk.__version__ == (REPOSITORY / "VERSION").read_text().strip()
    public = [it for name, it in vars(Image).items() if not name.startswith("_")]
    public += [it for name, it in vars(Report).items() if not name.startswith("_") and callable(it)]
    given = [getattr(tp_sdk, name) for name in tp_sdk.__all__ if name != "__version__"]
    assert all(inspect.getdoc(it) for it in (*given, *public))
    with pytest.raises(AttributeError, match="no attribute 'fly'"):
        getattr(tp_sdk, "fly")


def test_an_error_is_a_fault_and_goes_from_process_to_process() -> None:
    assert issubclass(Missing, Fault) and issubclass(Refused, Fault)
    again = pickle.loads(pickle.dumps(Refused("a.toml:1:1: refused", "refused K4 at 0 found 63 wanted 64")))
    assert (str(again), again.refusal) == ("a.toml:1:1: refused", "refused K4 at 0 found 63 wanted 64")


def test_the_package_by_itself_loads_no_library() -> None:
    told = "import sys, tp_sdk; tp_sdk.run; print({'matplotlib', 'elftools', 'numpy'} & set(sys.modules))"
    ended = subprocess.run([sys.executable, "-c", told], cwd=SDK, capture_output=True, text=True, check=True)
    assert ended.stdout == "set()\n"


# ---- images


def test_an_image_is_its_file(image: Image) -> None:
    assert image.text == str(image) == SECRET_5.read_text()
    assert (image.name, image.domains, image.harts) == (str(SECRET_5), ("sender", "spy"), 1)
    assert image.values["l2"]["ways"] == 4
    assert image == Image.parse(image.text) and hash(image) == hash(Image.parse(image.text))
    assert repr(image) == f"<Image {SECRET_5}: sender, spy>"
    assert Image.read(str(EXAMPLES / "two-harts.toml")).harts == 2


def test_a_description_makes_an_image_and_can_be_varied_at_its_symbols(program: Program, built: Path) -> None:
    victim = Image.read(built / "victim.toml")
    assert victim.domains == ("victim", "spy")
    other = victim.vary({"victim.key": 0x01230123})
    assert other != victim and victim == Image.read(built / "victim.toml")
    assert other.vary({"victim.key": 0x5A5A5A5A}).vary({"victim.key": 0x01230123}) == other
    again = Image.parse((built / "victim.toml").read_text(), built)
    assert again == victim and again.vary({}) == victim


def test_a_machine_that_is_varied_has_other_bounds(image: Image) -> None:
    wide = image.vary({"machine.l1d.ways": 4, "schedule.pad": "bound", "schedule.spy.length": 3000})
    assert wide.values["l1d"]["ways"] == 4
    assert [(it["length"], it["pad"]) for it in wide.values["schedule"]] == [(2000, 6470), (3000, 6470)]
    # (of an image the pads that are written stay)
    told = fault(lambda: image.vary({"machine.l1d.ways": 4}), Refused)
    assert told == (
        f"{SECRET_5} with machine.l1d.ways = 4: the image is refused: K17: `pad` of entry 0 (sender) is "
        "`6150`: the pad is below the bound on its switch; wanted: `pad = 6470` or more"
    )


def test_a_place_that_is_none(image: Image) -> None:
    for where, value, told in (
        ("machine.l3.ways", 4, "no machine has a key 'l3.ways': did you mean 'machine.l2.ways'?"),
        ("machine.wais", 4, "no machine has a key 'wais': did you mean 'machine.l2.ways'?"),
        ("machine.l2.ways", "x", "'x': an integer is wanted"),
        ("domain.spx.colours", [3], f"{SECRET_5} has no domain 'spx': did you mean 'spy'?"),
        ("spy.secret", 3, None),
    ):
        said = fault(lambda: image.vary({where: value}))
        assert said == (f"{where}: {told}" if told else f"{SECRET_5}: there is no symbol 'secret'")


def test_an_image_that_is_refused_tells_the_first_rule_that_it_breaks(program: Program) -> None:
    file = EXAMPLES / "refused-k9.toml"
    with pytest.raises(Refused) as raised:
        Image.read(file)
    assert raised.value.refusal == (EXAMPLES / "refused-k9.report").read_text().strip()
    assert str(raised.value) == (
        f"{file}:27:15: the image is refused: K9: `colours[1]` of domain 1 (blue) is `1`: the colour is one "
        "of domain 0 (red); wanted: a colour that no earlier domain has; the other is `colours[0]` of domain 0 "
        f"(red): `1`, {file}:21:12"
    )
    told = "<text>:1:1: the image is refused: K2: `frames` is missing: row 1 of the table of keys is broken"
    assert fault(lambda: Image.parse("a = 3"), Refused).startswith(told)


def test_each_refused_example_is_refused_so(program: Program) -> None:
    refused = sorted(EXAMPLES.glob("refused-*.toml"))
    for file in refused:
        with pytest.raises(Fault) as raised:
            Image.read(file)
        due = file.with_suffix(".report").read_text().strip()
        is_toml = due.split()[1] != "K1"
        assert not is_toml or isinstance(raised.value, Refused) and raised.value.refusal == due
        assert "\n" not in str(raised.value)


def test_what_is_no_image(program: Program, tmp_path: Path) -> None:
    assert (
        fault(lambda: Image.read(tmp_path / "no.toml"))
        == f"{tmp_path / 'no.toml'}: No such file or directory"
    )
    assert fault(lambda: Image.parse("a =")) == "<text>: no TOML: Invalid value (at end of document)"
    assert "'schedule' is missing" in fault(lambda: Image.parse('machine = "m.toml"\ndomain = [{}]'))


def test_a_program_that_is_missing(monkeypatch: pytest.MonkeyPatch, tmp_path: Path) -> None:
    monkeypatch.setenv("TP", str(tmp_path / "tp"))
    told = f"there is no program at TP={tmp_path / 'tp'}: './tp --prove' proves and builds it"
    assert fault(lambda: Image.read(SECRET_5), Missing) == told
    assert fault(lambda: run(SECRET_5, 4), Missing) == told


# ---- runs and reports


def test_a_run_is_the_report_that_the_program_writes(image: Image) -> None:
    report = run(image, 10)
    assert str(report) == report.text == (LINES / "run" / "secret-5.report").read_text()
    assert report == run(SECRET_5, 10) == Report.read(LINES / "run" / "secret-5.report")
    assert report == Report.parse(report.text)
    assert (report.slots, report.off) == (10, None)
    assert [(it.entry, it.used, it.pad, it.count) for it in report.switches] == [
        (0, 735, 6150, 5),
        (1, 755, 6150, 5),
    ]
    assert report.readings("spy") == report.section("spy").readings
    assert report.measurements("spy") == (22,) * 8
    assert len(report.measurements("spy", "steps")) == 15
    assert report.measurements("spy", "values") == report.readings("spy")
    assert repr(report) == "<Report of sender, spy: 10 slots>"


@pytest.mark.parametrize("guard", GUARDS)
def test_a_run_without_a_guard(guard: str, program: Program) -> None:
    (folder,) = (EXAMPLES / "channels").glob(f"*/{guard}")
    report = run(folder.parent / "secret-5.toml", 10, off=guard)
    assert report == Report.read(folder / "secret-5.report") and report.off == guard
    assert repr(report).endswith(f", {guard} off>")


def test_a_domain_alone_sees_the_same(image: Image) -> None:
    alone = run(image, 10, alone="spy")
    assert alone.section("spy").text == run(image, 10).section("spy").text
    assert (alone.switches, repr(alone)) == ([], "<Report of spy>")


def test_an_order_that_a_seed_draws(program: Program) -> None:
    harts = Image.read(EXAMPLES / "two-harts.toml")
    drawn = run(harts, 4, seed=7)
    assert {it.of for it in drawn.differences(run(harts, 4))} <= {"entry 0", "entry 1"}


def test_differences_are_told_line_by_line(image: Image) -> None:
    one, other = run(image, 10), run(image, 10, off="flush")
    assert one.differences(one) == []
    found = one.differences(other)
    assert [it.of for it in found] == ["sender", "sender", "spy", "spy", "entry 0", "entry 1"]
    assert str(found[-1]) == (
        "entry 1: 'switch 1 used 755 pad 6150 count 5' here, and 'switch 1 used 735 pad 6150 count 5' there"
    )
    lacks = one.differences(run(image, 10, alone="spy"))
    assert lacks[0] == Difference("sender", one.section("sender").text.splitlines()[0], "")
    assert str(lacks[-1]).endswith("' here, and nothing there")


def test_what_a_run_does_not_take(image: Image) -> None:
    for call, told in (
        (lambda: run(image, -1), "slots=-1: a number of slots is wanted, 0 to 65,536"),
        (lambda: run(image, True), "slots=True: a number of slots is wanted, 0 to 65,536"),
        (lambda: run(image, 4, seed=2**32), "seed=4294967296: a seed is wanted, 0 to 4,294,967,295"),
        (lambda: run(image, 4, off="flsh"), "off='flsh': there is no such guard: did you mean 'flush'?"),
        (lambda: run(image, 4, alone="red"), "alone='red': there is no such domain: sender, spy"),
        (
            lambda: run(image, 4, off="pad", alone="spy"),
            "off and alone: one of off, alone and seed at most is taken",
        ),
        (
            lambda: run(EXAMPLES / "two-harts.toml", 4, off="pad"),
            f"off='pad': {EXAMPLES / 'two-harts.toml'} has several harts, and all their guards stay",
        ),
        (lambda: run(image, 4).section("red"), "the report has no domain 'red': it has sender, spy"),
        (
            lambda: run(image, 4).measurements("spy", "x"),
            "measure='x': there is no such measure: pairs, steps, values",
        ),
    ):
        assert fault(call) == told
    assert fault(lambda: Report.parse("refused K4 at 0 found 63 wanted 64\n")).startswith(
        "the text: no report"
    )


# ---- bits and pictures


def test_the_bits_of_a_channel(program: Program) -> None:
    reports = [Report.read(it) for it in sorted((LINES / "flush").glob("*.report"))]
    readings = [it.readings("spy") for it in reports]
    assert entropy(readings) == capacity(readings) == 3
    assert entropy(["a", "a", "a", "b"]) < capacity(["a", "a", "a", "b"]) == 1
    assert entropy(["a"]) == capacity(["a"]) == 0


def test_a_picture_is_that_of_the_tool(tmp_path: Path) -> None:
    pytest.importorskip("matplotlib")
    sides = [
        {it.stem: Report.read(it) for it in sorted((LINES / folder).glob("*.report"))}
        for folder in ("run", "flush")
    ]
    drawn = picture("spy", *sides)
    bits = "entropy {0}, capacity {0} bits"
    told = f"all guards on: {bits.format('0.00')}, flush off: {bits.format('3.00')}"
    assert repr(drawn) == f"<Picture of spy: {told}>"
    drawn.save(tmp_path / "a.svg")
    shown = drawn._repr_png_()
    assert shown.startswith(b"\x89PNG") and shown == drawn._repr_png_()
    assert fault(lambda: drawn.save("a.pdf")) == "a.pdf: a picture is NAME.svg or NAME.png"
    for wrong, told in (
        ((), "a picture wants one side or more, and in each the report of one secret or more"),
        ((sides[0], {}), "one side of a picture has the secret 'secret-"),
        (({**sides[0], "secret-3": sides[1]["secret-3"]},), "one side of a picture has reports with "),
    ):
        assert fault(lambda: picture("spy", *wrong)).startswith(told)
    assert (tmp_path / "a.svg").read_text() == stored_picture("channel-flush")
