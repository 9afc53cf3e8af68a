"""Images from descriptions: what is made, and each fault, with its place."""

from __future__ import annotations

import re
import subprocess
import tomllib
from pathlib import Path
from typing import Any

import pytest
from conftest import COMPILER, REPOSITORY, SDK, examples, is_refused, run_tool
from elf_files import DYN, Elf, Load, R, W, X

pytest.importorskip("elftools")

from tp_sdk.build import build_text, set_moments, set_words  # noqa: E402
from tp_sdk.calls import NUMBERS  # noqa: E402
from tp_sdk.description import read_description  # noqa: E402
from tp_sdk.faults import Fault, Missing  # noqa: E402
from tp_sdk.instructions import lacking  # noqa: E402
from tp_sdk.program import Program  # noqa: E402

# addi x17, x0, 0 and ecall: EXIT with x10, which is zero
EXITS = bytes.fromhex("9308000073000000")
CODE = Load(0x10000, R | X, EXITS)
DESCRIPTION = """machine = "machine.toml"
[[domain]]
name = "red"
program = "red.elf"
colours = [1]
[[schedule]]
domain = "red"
length = 10000
pad = 6150
"""
# More digits than Python makes an integer of.
NINES = "9" * 5000
SIX_THOUSAND = [CODE, Load(0x11000, R | W, b"\1\2\3\4", zeros=6000)]


class Folder:
    """A folder with a description, the machine and the program that it names."""

    def __init__(self, path: Path) -> None:
        self.path = path
        (path / "machine.toml").write_text((SDK / "c" / "machine.toml").read_text())
        self.write()

    def write(self, description: str = DESCRIPTION, elf: bytes = Elf([CODE]).encode()) -> None:
        (self.path / "red.toml").write_text(description)
        (self.path / "red.elf").write_bytes(elf)

    def image(self, *settings: str, program: Program | None = None) -> dict[str, Any]:
        description = read_description(self.path / "red.toml")
        set_words(description, list(settings))
        return tomllib.loads(build_text(description, program))

    def fault(self, *settings: str, program: Program | None = None) -> str:
        with pytest.raises(Fault) as raised:
            self.image(*settings, program=program)
        return str(raised.value).removeprefix(f"{self.path}/")


@pytest.fixture
def folder(tmp_path: Path) -> Folder:
    return Folder(tmp_path)


def test_segments_are_the_program_headers(folder: Folder) -> None:
    loads = [*SIX_THOUSAND, Load(0x20010, R, b"\7"), Load(0x30000, R, kind=0x70000003)]
    folder.write(elf=Elf(loads, entry=0x10004).encode())
    (red,) = folder.image()["domain"]
    assert red == {
        "name": "red",
        "colours": [1],
        "entry": 0x10004,
        "segment": [
            {"page": 16, "pages": 1, "rights": "rx", "hex": EXITS.hex()},
            {"page": 17, "pages": 2, "rights": "rw", "hex": "01020304"},
            {"page": 32, "pages": 1, "rights": "r", "hex": "00" * 16 + "07"},
        ],
    }


def test_the_rest_is_the_description(folder: Folder) -> None:
    lists = 'colours = [1]\ncaps = ["load1", "load1+1", "none", "irq 3"]\nlines = [3]\nmoments = [[9000, 3]]'
    folder.write(DESCRIPTION.replace("colours = [1]", lists), Elf(SIX_THOUSAND).encode())
    image = folder.image()
    (red,) = image["domain"]
    assert red["caps"] == ["page 17", "page 18", "none", "irq 3"]
    assert (red["lines"], red["moments"]) == ([3], [[9000, 3]])
    assert image["schedule"] == [{"domain": 0, "length": 10000, "pad": 6150}]
    machine = tomllib.loads((folder.path / "machine.toml").read_text())
    assert {key: image[key] for key in machine} == machine


def test_an_entry_may_be_on_another_hart(folder: Folder) -> None:
    entry = {"domain": 0, "length": 10000, "pad": 6150}
    for hart, written in ((3, entry | {"hart": 3}), (0, entry)):
        folder.write(f"{DESCRIPTION}hart = {hart}\n")
        assert folder.image()["schedule"] == [written]
    for hart in ('"1"', "true", "1.0"):
        folder.write(f"{DESCRIPTION}hart = {hart}\n")
        assert folder.fault().startswith("red.toml:10:8: 'hart' must be an integer: the number of the hart")


def test_an_entry_on_a_hart_beside_none_is_explained(folder: Folder, program: Program) -> None:
    folder.write(f"{DESCRIPTION}hart = 1\n")
    assert folder.fault(program=program) == (
        "red.toml:10:8: the image is refused: K19, case 2: `hart` of entry 0 (red) is `1`: a hart below the "
        "greatest has no entry; wanted: an entry on hart 0, too, or lesser harts"
    )


def test_the_machine_may_have_more_keys(folder: Folder) -> None:
    machine = folder.path / "machine.toml"
    text = machine.read_text() + "history = 8\nmuldiv = { mul = 4, div = 2 }\ntargets = 16\n"
    machine.write_text(text)
    image = folder.image()
    assert (image["history"], image["muldiv"], image["targets"]) == (8, {"mul": 4, "div": 2}, 16)
    (folder.path / "red.toml").write_text(text + DESCRIPTION.replace('machine = "machine.toml"\n', ""))
    assert folder.image() == image
    machine.write_text(text.replace("targets = 16", 'targets = "16"'))
    folder.write()
    assert folder.fault().startswith("machine.toml:14:11: 'targets' must be as docs/IMAGE.md says: integer")


def test_the_second_level_may_have_one_more(folder: Folder) -> None:
    machine = folder.path / "machine.toml"
    plain = machine.read_text()
    for said, back in (("back = true", True), ("back = false", False)):
        machine.write_text(plain.replace("l2 = {", f"l2 = {{ {said},"))
        folder.write()
        assert folder.image()["l2"]["back"] is back
    machine.write_text(plain.replace("l2 = {", "l2 = { back = 1,"))
    assert "'back' must be as docs/IMAGE.md says: boolean" in folder.fault()
    machine.write_text(plain.replace("l1d = {", "l1d = { back = true,"))
    assert "there is no key 'back' of a machine" in folder.fault()


def test_a_pad_that_is_left_out_is_the_bound(folder: Folder, program: Program) -> None:
    folder.write(DESCRIPTION.replace("pad = 6150\n", ""))
    machine = folder.path / "machine.toml"
    machine.write_text(machine.read_text().replace("wb = 10", "wb = 11"))
    (entry,) = folder.image(program=program)["schedule"]
    text = build_text(read_description(folder.path / "red.toml"), program)
    assert program.run(["bound"], text).text.endswith(f"bound {entry['pad']}\n")
    with pytest.raises(Missing, match=r"red.toml:6:1: no pad"):
        folder.image()


def test_an_image_that_is_refused_is_explained(folder: Folder, program: Program) -> None:
    folder.write(DESCRIPTION.replace("6150", "6149"))
    assert folder.fault(program=program) == (
        "red.toml:9:7: the image is refused: K17: `pad` of entry 0 (red) is `6149`: the pad is below the "
        "bound on its switch; wanted: `pad = 6150` or more"
    )
    # (of what stands in another file, and in none)
    machine = folder.path / "machine.toml"
    machine.write_text(machine.read_text().replace("frames = 128", "frames = 63"))
    told = folder.fault(program=program)
    assert told.startswith(
        "machine.toml:3:10: the image is refused: K4: `frames` is `63`: there are too few "
    )
    assert told.endswith("; wanted: 64 to 4,096, or to 16,384 with `version = 2`")
    folder.write(DESCRIPTION, Elf([CODE], entry=2).encode())
    machine.write_text(machine.read_text().replace("frames = 63", "frames = 128"))
    assert folder.fault(program=program).startswith("red.toml:2:1: the image is refused: K12, case 6: ")


# ---- the second version, and the calls that a domain may make


def second(calls: str) -> str:
    """The description as one of version 2, where red has these calls."""
    text = "version = 2\n" + DESCRIPTION
    return text.replace("colours = [1]", f"colours = [1]\ncalls = {calls}" if calls else "colours = [1]")


@pytest.mark.parametrize(
    ("calls", "numbers"),
    [
        ('["put", "exit"]', [0, 1]),
        ('["endthread", 1, "alloc", 0]', [0, 1, 2, 14]),
        ("[8, 2]", [2, 8]),
        ("[]", []),
        ("", None),
    ],
)
def test_calls_by_name(folder: Folder, calls: str, numbers: list[int] | None) -> None:
    folder.write(second(calls))
    image = folder.image()
    assert image["version"] == 2 and image["domain"][0].get("calls") == numbers


def test_every_call_has_a_name(folder: Folder) -> None:
    folder.write(second(str(list(NUMBERS))))
    assert folder.image()["domain"][0]["calls"] == [*range(15), 19, 20]


@pytest.mark.parametrize(
    ("old", "new", "fault"),
    [
        ("version = 2\n", "", "red.toml:6:1: 'calls' wants version = 2"),
        ("version = 2", "version = 1", "red.toml:7:1: 'calls' wants version = 2"),
        ("version = 2", "version = 3", "red.toml:1:11: 'version' must be the version of the format, 1 or 2"),
        ('["exit"]', '"exit"', "red.toml:7:9: 'calls' must be an array of names or numbers of calls"),
        ('["exit"]', "[true]", "red.toml:7:10: 'calls' must be an array of names or numbers of calls"),
        ('["exit"]', '["exit", "puts"]', "red.toml:7:18: 'puts' is no call: did you mean 'put'?"),
        ('["exit"]', '["EXIT"]', "red.toml:7:10: 'EXIT' is no call: did you mean 'exit'?"),
        ('["exit"]', '["x"]', "red.toml:7:10: 'x' is no call: exit, put, alloc, table, map, unmap, copy, "),
        ('["exit"]', "[0, 15]", "red.toml:7:13: '15' is no call: exit, put, "),
        ('["exit"]', "[-1]", "red.toml:7:10: '-1' is no call: exit, put, "),
        ('["exit"]', '["exit", 0]', "red.toml:7:18: '0': the call stands twice"),
    ],
)
def test_calls_that_are_at_fault(folder: Folder, old: str, new: str, fault: str) -> None:
    text = second('["exit"]')
    assert old in text
    folder.write(text.replace(old, new, 1))
    assert folder.fault().startswith(fault)


def test_the_version_is_the_descriptions(folder: Folder) -> None:
    machine = folder.path / "machine.toml"
    text = machine.read_text()
    machine.write_text("version = 2\n" + text)
    assert folder.fault() == "machine.toml:1:1: there is no key 'version' of a machine"
    folder.write("version = 2\n" + text + DESCRIPTION.replace('machine = "machine.toml"\n', ""))
    image = folder.image()
    assert (image["version"], list(image)[0]) == (2, "version")


def test_a_pad_that_is_left_out_goes_by_the_calls(folder: Folder, program: Program) -> None:
    domain = DESCRIPTION[DESCRIPTION.index("[[domain]]") : DESCRIPTION.index("[[schedule]]")]
    entry = DESCRIPTION[DESCRIPTION.index("[[schedule]]") :].replace("pad = 6150\n", "")
    text = 'version = 2\nmachine = "machine.toml"\n'
    lists = {"red": '["exit", "put"]', "blue": '["exit", "map"]', "grey": "", "green": '["revoke"]'}
    for number, (name, calls) in enumerate(lists.items(), 1):
        listed = f"calls = {calls}\n" if calls else ""
        text += domain.replace('"red"', f'"{name}"').replace("[1]\n", f"[{number}]\n{listed}")
    for name in (*lists, "red"):
        text += entry.replace('"red"', f'"{name}"')
    folder.write(text)
    image = folder.image(program=program)
    assert [it["pad"] for it in image["schedule"]] == [2374, 2433, 6150, 6091, 2374]
    # (one that is there stays, and is no less than the bound)
    folder.write(text.replace('"blue"\nlength = 10000\n', '"blue"\nlength = 10000\npad = 2500\n'))
    image = folder.image(program=program)
    assert [it["pad"] for it in image["schedule"]] == [2374, 2500, 6150, 6091, 2374]
    folder.write(text.replace('"red"\nlength = 10000\n', '"red"\nlength = 10000\npad = 2373\n'))
    assert "K17: `pad` of entry 0 (red) is `2373`" in folder.fault(program=program)


FAULTS = [
    (Elf([CODE], machine=62), "red.elf: for another machine: e_machine is EM_X86_64, not EM_RISCV"),
    (Elf([CODE], flags=1), "red.elf: with compressed instructions: compile it with -march=rv32i -mabi=ilp32"),
    (
        Elf([CODE], flags=2),
        "red.elf: for a machine with floating point: compile it with -march=rv32i -mabi=ilp32",
    ),
    # mul x1, x1, x1; lr.w x1, (x1); fadd.s f0, f0, f0
    (
        Elf([Load(0x10000, R | X, EXITS + bytes.fromhex("b3801002"))]),
        "red.elf: 0x10008 is mul, of the extension M, which the machine lacks: "
        "compile it with -march=rv32i -mabi=ilp32, or give the machine `muldiv`",
    ),
    (
        Elf([Load(0x10000, R | X, EXITS + bytes.fromhex("afa00010"))]),
        "red.elf: 0x10008 is lr.w, of the extension A, which the machine lacks: "
        "compile it with -march=rv32i -mabi=ilp32",
    ),
    (
        Elf([Load(0x10000, R | X, EXITS + bytes.fromhex("53700000"))]),
        "red.elf: 0x10008 is a floating-point operation, of the extension F or D, which the machine lacks: "
        "compile it with -march=rv32i -mabi=ilp32",
    ),
    (
        Elf([CODE], kind=DYN),
        "red.elf: of type ET_DYN, not ET_EXEC: link it, and to fixed addresses (-static, not -pie)",
    ),
    (Elf(), "red.elf: nothing to load: it has no program header PT_LOAD with bytes"),
    (
        Elf([CODE, Load(0x400000, R | W, zeros=64 * 4096 + 1)]),
        "red.elf: program header 1 (no section, 0x400000 to 0x440001): "
        "it takes 65 pages, and a segment has 64 at most",
    ),
    (
        Elf([CODE, Load(0x20000, W, b"1")]),
        "red.elf: program header 1 (no section, 0x20000 to 0x20001): "
        "its rights are 'w', and must be one of r, rw, x, rx, rwx",
    ),
    (
        Elf([CODE, Load(0x10008, R | W, b"1")]),
        "red.toml:2:1: PATH/red.elf: the segments 'load0' and 'load1' clash: both have page 16 (0x10000)",
    ),
    (
        Elf([Load(0x10000 * number, R | X, EXITS) for number in range(1, 18)]),
        "red.toml:2:1: PATH/red.elf has 17 segments, and a domain 16 at most",
    ),
]


@pytest.mark.parametrize(("elf", "fault"), FAULTS, ids=lambda it: it if isinstance(it, str) else "")
def test_a_program_that_can_be_no_image(folder: Folder, elf: Elf, fault: str) -> None:
    folder.write(elf=elf.encode())
    assert folder.fault() == fault.replace("PATH", str(folder.path))


def test_a_file_that_is_no_program(folder: Folder) -> None:
    whole = Elf(SIX_THOUSAND).encode()
    folder.write(elf=b"hello")
    assert folder.fault().startswith("red.elf: no ELF file")
    folder.write(elf=whole[:-1])
    assert folder.fault().endswith("the file ends before its 4 bytes do")
    for length in range(0, len(whole), 3):
        folder.write(elf=whole[:length])
        assert folder.fault().startswith("red.elf: ")
    # (a section's header that is beyond the file's end)
    folder.write(elf=whole[:32] + b"\xff\xff\0\0" + whole[36:48] + b"\1\0" + whole[50:])
    assert folder.fault().startswith("red.elf: no ELF file")
    (folder.path / "red.elf").unlink()
    assert folder.fault() == f"red.toml:4:11: {folder.path}/red.elf: No such file or directory"


@pytest.mark.parametrize(
    ("old", "new", "fault"),
    [
        ("machine = ", "machine : ", "red.toml: no TOML: "),
        ('machine = "machine.toml"\n', "", "red.toml:1:1: 'machine' is missing: the name of a file with"),
        ('"machine.toml"', '"red.elf"', "red.elf: byte "),
        ('"machine.toml"', '"none.toml"', "red.toml:1:11: PATH/none.toml: No such file or directory"),
        ("colours = [1]", "colours = [1, true]", "red.toml:5:15: 'colours' must be an array of integers"),
        (
            "colours = [1]",
            "colors = [1]",
            "red.toml:5:1: there is no key 'colors' here: did you mean 'colours'?",
        ),
        ("colours = [1]\n", "", "red.toml:2:1: 'colours' is missing: an array of integers"),
        ("colours = [1]", "colours = [1]\nx = 1", "red.toml:6:1: there is no key 'x' here: name, program, "),
        (
            "colours = [1]",
            "colours = [1]\nstack = 65",
            "red.toml:6:9: 'stack' must be a number of pages, 1 to 64",
        ),
        ("colours = [1]", "colours = [1]\nstack = 1", "red.elf: there is no symbol '__stack_top'"),
        (
            "colours = [1]",
            'colours = [1]\ncaps = ["data"]',
            "red.toml:2:1: 'data' is no capability: none, irq N, ",
        ),
        ("colours = [1]", 'colours = [1]\ncaps = ["load0+1"]', "red.toml:2:1: 'load0+1' is no capability: "),
        ("colours = [1]", f'colours = [1]\ncaps = ["load0+{NINES}"]', "red.toml:2:1: 'load0+999"),
        ("10000", NINES, "red.toml: no TOML: an integer of too many digits"),
        ("[1]", "[" * 5000 + "]" * 5000, "red.toml: no TOML: arrays or tables in one another too deep"),
        ("red.elf", "\\u0000", "red.toml:4:11: 'PATH/\\x00': no file has such a name"),
        ("red.elf", "none.s", "red.toml:4:11: PATH/none.s: No such file or directory"),
        (
            "colours = [1]",
            "colours = [1]\nwords = { k = -1 }",
            "red.toml:6:15: 'k' must be a word, 0 to 0xffffffff",
        ),
        (
            "colours = [1]",
            'colours = [1]\nwords = { k = "@none" }',
            "red.toml:6:15: 'k': PATH/none: No such file or directory",
        ),
        ("colours = [1]", "colours = [1]\nwords = { k = 1 }", "red.elf: there is no symbol 'k'"),
        ('domain = "red"', "domain = []", "red.toml:7:10: 'domain' must be the name of a domain, or "),
        ('domain = "red"', 'domain = "blue"', "red.toml:6:1: there is no domain 'blue': red"),
        ('domain = "red"', 'domain = "rd"', "red.toml:6:1: there is no domain 'rd': did you mean 'red'?"),
    ],
)
def test_a_description_that_is_at_fault(folder: Folder, old: str, new: str, fault: str) -> None:
    assert old in DESCRIPTION
    folder.write(DESCRIPTION.replace(old, new))
    assert folder.fault().startswith(fault.replace("PATH", str(folder.path)))


def test_a_machine_that_is_at_fault(folder: Folder) -> None:
    machine = folder.path / "machine.toml"
    text = machine.read_text()
    machine.write_text(text.replace("sets = 512, ", ""))
    assert folder.fault() == ("machine.toml:8:6: 'l2' must be there, as docs/IMAGE.md says: table of a cache")
    machine.write_text(text + "domain = []\n")
    assert folder.fault() == "machine.toml:12:1: there is no key 'domain' of a machine"


def test_a_setting_that_is_at_fault(folder: Folder) -> None:
    for setting, fault in (
        ("key=1", "DOMAIN.SYMBOL[+OFFSET]=VALUE is wanted"),
        (f"red.key={NINES}", "DOMAIN.SYMBOL[+OFFSET]=VALUE is wanted"),
        ("red.key=010", "there is no symbol 'key'"),
        ("red.key=0x100000000", "the value must be a word, 0 to 0xffffffff, an array of words, a string"),
        ("red.key=[1, true]", "the value must be a word"),
        ("red.key=[", "DOMAIN.SYMBOL[+OFFSET]=VALUE is wanted"),
        ("red.key=text", "DOMAIN.SYMBOL[+OFFSET]=VALUE is wanted"),
        ("red.key=@none", "--set red.key=@none: the value: none: No such file or directory"),
        ("red.key+x=1", "DOMAIN.SYMBOL[+OFFSET]=VALUE is wanted"),
        ("blue.key=1", "has no domain 'blue'"),
        ("red.key=1", "there is no symbol 'key'"),
    ):
        assert fault in folder.fault(setting)


def test_moments_in_the_place_of_the_descriptions(folder: Folder) -> None:
    folder.write(DESCRIPTION.replace("[1]", "[1]\nlines = [3]\nmoments = [[9000, 3]]"))

    def moments(*settings: str) -> Any:
        description = read_description(folder.path / "red.toml")
        set_moments(description, list(settings))
        return tomllib.loads(build_text(description, None))["domain"][0].get("moments")

    assert moments() == [[9000, 3]]
    assert moments("red=[[1, 3], [2, 3]]") == [[1, 3], [2, 3]]
    assert moments("red=[[1, 3]]", "red=[]") is None
    for setting, fault in (
        ("red", "--moments red: DOMAIN=[[CYCLE, LINE], ..] is wanted"),
        ("red=[[1, 3]", "DOMAIN=[[CYCLE, LINE], ..] is wanted"),
        ("red=[1, 3]", "DOMAIN=[[CYCLE, LINE], ..] is wanted"),
        ("red=[[1, 3, 5]]", "DOMAIN=[[CYCLE, LINE], ..] is wanted"),
        ("rd=[]", "--moments rd: PATH/red.toml has no domain 'rd': did you mean 'red'?"),
    ):
        with pytest.raises(Fault, match=re.escape(fault.replace("PATH", str(folder.path)))):
            moments(setting)


def test_a_source_in_assembler(folder: Folder, compiler: str) -> None:
    source = folder.path / "red.s"
    folder.write(DESCRIPTION.replace("red.elf", "red.s").replace("[1]", '[1]\nstack = 2\ncaps = ["stack+1"]'))
    source.write_text(
        ".globl _start\n_start: csrr x5, cycle\nli x17, 0\necall\n.data\n.globl key\nkey: .word 1\n"
    )
    (red,) = folder.image("red.key=0x01020304")["domain"]
    assert red["entry"] == 0x10000 and red["caps"] == ["page 127"]
    assert [(it["page"], it["pages"], it["rights"], it["hex"]) for it in red["segment"]] == [
        (16, 1, "rx", "f32200c0" + EXITS.hex()),
        (17, 1, "rw", "04030201"),
        (126, 2, "rw", ""),
    ]
    for text in (b"mul x1, x1, x1\n", b"\xff\n"):
        source.write_bytes(text)
        assert folder.fault().startswith("red.s: it can't be assembled and linked\n")


@pytest.mark.parametrize("text", ("#!/bin/true", "#!/bin/sh\nprintf '\\377'", "#!/none", "none"))
def test_a_program_that_is_another(folder: Folder, text: str) -> None:
    other = folder.path / "other"
    other.write_text(f"{text}\n")
    other.chmod(0o755)
    folder.write(DESCRIPTION.replace("pad = 6150\n", ""))
    with pytest.raises(Missing, match="other is not the program tp"):
        folder.image(program=Program(other))


def test_the_command(folder: Folder, program: Program) -> None:
    out = folder.path / "red.image"
    ended = run_tool("tp-image", folder.path / "red.toml", "-o", out)
    assert (ended.returncode, ended.stdout, ended.stderr) == (0, "", "")
    assert program.run(["run", "--slots", "1"], out.read_text()).text.startswith(
        "domain 0 red\nstatus exited 0\n"
    )
    assert run_tool("tp-image", folder.path / "red.toml").stdout == out.read_text()
    unread = run_tool("tp-image", folder.path / "red.toml", "-o", folder.path)
    assert unread.returncode == 1 and "Is a directory" in unread.stderr


# ---- values at symbols


VALUES = """.globl _start, word, table, text
_start: li x17, 0
ecall
.data
word: .word 1
.size word, 4
table: .zero 12
.size table, 12
text: .zero 8
.size text, 8
after: .word 7
"""


def test_values_at_symbols(folder: Folder, compiler: str) -> None:
    (folder.path / "red.s").write_text(VALUES)
    (folder.path / "three").write_bytes(b"\1\2\3")
    words = 'words = { word = 0x01020304, "table+4" = [5, 6], text = "abc" }'
    folder.write(DESCRIPTION.replace("red.elf", "red.s").replace("[1]", f"[1]\n{words}"))

    def data(*settings: str) -> str:
        (red,) = folder.image(*settings)["domain"]
        hex_of_data = red["segment"][1]["hex"]
        assert isinstance(hex_of_data, str)
        return hex_of_data[: 2 * 28]

    table, text = "000000000500000006000000", "6162630000000000"
    assert data() == f"04030201{table}{text}07000000"
    assert data("red.word=7") == f"07000000{table}{text}07000000"
    assert data("red.table=[1]", "red.table+8=9") == f"0403020101000000{table[8:16]}09000000{text}07000000"
    assert data('red.text="ab"', "red.text+0x5=@" + str(folder.path / "three")) == (
        f"04030201{table}616200000001020307000000"
    )
    for setting, fault in (
        ("red.word=[1, 2]", "red.s: 'word' has 4 bytes, and 8 are put at word"),
        ("red.word+2=1", "red.s: 'word' has 4 bytes, and 4 are put at word+2"),
        ('red.text="abcdefgh"', "red.s: 'text' has 8 bytes, and 9 are put at text"),
        ("red.after+4096=1", "red.s: 'after+4096' (0x12018) is in no segment"),
    ):
        assert fault in folder.fault(setting)


# ---- images are descriptions


@pytest.mark.parametrize("image", [it for it in examples() if not is_refused(it)], ids=lambda it: it.stem)
def test_an_image_makes_itself(image: Path) -> None:
    assert tomllib.loads(build_text(read_description(image), None)) == tomllib.loads(image.read_text())


def test_an_image_with_names_and_no_pad(folder: Folder, program: Program) -> None:
    text = (REPOSITORY / "examples" / "two-domains.toml").read_text()
    for old, new in (("pad = 6150", ""), ("domain = 0", 'domain = "red"'), ("domain = 1", "domain = 1")):
        assert old in text
        text = text.replace(old, new)
    folder.write(text)
    assert [it["domain"] for it in folder.image(program=program)["schedule"]] == [0, 1]
    assert [it["pad"] for it in folder.image(program=program)["schedule"]] == [6150, 6150]
    for old, new, fault in (
        ("sets = 256, ", "", "'l2' must be as docs/IMAGE.md says: table of a cache"),
        ("entry = 0x10000", "", "'entry' is missing: as docs/IMAGE.md says: integer 0 to 4,294,967,295"),
        ('hex = "1', 'hex = "', "'hex' must be two digits"),
        ("pages = 1", "page = 1", "no TOML: "),
        ("pages = 1", "pagess = 1", "there is no key 'pagess' here: did you mean 'pages'?"),
        ("frames = 64", "frame = 64", "there is no key 'frame' here: did you mean 'frames'?"),
        ("domain = 1", "domain = 2", "no fault of the description"),
    ):
        assert old in text
        folder.write(text.replace(old, new))
        if fault == "no fault of the description":
            assert "K16, case 2: `domain` of entry 1 is `2`" in folder.fault(program=program)
        else:
            assert fault in folder.fault()


# ---- what the machine lacks, as compilers make it


@pytest.mark.parametrize(
    ("words", "source", "fault"),
    [
        (["-march=rv32im"], "return argc * argv[0][0];", r"red.elf: 0x[0-9a-f]+ `main[^`]*` is mul, of "),
        (["-march=rv32im"], "return argc;", r"red.elf: for rv32i2p1_m2p0.*, and the machine lacks M"),
        (["-march=rv32ic"], "return argc;", r"red.elf: with compressed instructions"),
        (["-march=rv32ia"], "return argc;", r"red.elf: for rv32i2p1_a2p1, and the machine lacks A"),
        (["-march=rv32if", "-mabi=ilp32f"], "return argc;", r"red.elf: for a machine with floating point"),
    ],
)
def test_an_elf_file_for_another_machine(
    folder: Folder, compiler: str, words: list[str], source: str, fault: str
) -> None:
    (folder.path / "red.c").write_text(f"int main(int argc, char **argv) {{ (void)argv; {source} }}\n")
    linked = ["-nostdlib", "-Ttext=0x10000", "-e", "main", "-Wl,--build-id=none"]
    command = [COMPILER, "-mabi=ilp32", *words, *linked]
    subprocess.run([*command, "-o", folder.path / "red.elf", folder.path / "red.c"], check=True)
    told = folder.fault()
    advice = ": compile it with -march=rv32i -mabi=ilp32"
    if words == ["-march=rv32im"]:
        advice += ", or give the machine `muldiv`"
    assert re.match(fault, told) and told.endswith(advice)


# ---- products and divisions, which a machine may have


PRODUCTS = """volatile unsigned one = 7;
int main(void)
{
    return one * one == 49 && one / one == 1 && 50 % one == 1 ? 0 : 1;
}
"""
MULDIV = "muldiv = { mul = 4, div = 2 }\n"


def products_in(image: dict[str, Any]) -> set[str]:
    """The products and divisions of the first domain's text."""
    text = bytes.fromhex(image["domain"][0]["segment"][0]["hex"])
    words = (int.from_bytes(text[at : at + 4], "little") for at in range(0, len(text), 4))
    return {it.name for it in map(lacking, words) if it is not None}


@pytest.mark.parametrize("made_before", (False, True))
def test_a_program_is_compiled_for_its_machine(
    folder: Folder, program: Program, compiler: str, made_before: bool
) -> None:
    (folder.path / "red.c").write_text(PRODUCTS)
    machine = folder.path / "machine.toml"
    without = machine.read_text()
    for arch, keys, found in (("rv32i", "", set()), ("rv32im", MULDIV, {"mul", "divu", "remu"})):
        machine.write_text(without + keys)
        name = "out/red.elf" if made_before else "red.c"
        if made_before:
            words = ["-f", SDK / "c" / "Makefile", "PROGRAMS=red", f"ARCH={arch}"]
            subprocess.run(["make", "-C", folder.path, *words], check=True, capture_output=True)
        text = DESCRIPTION.replace("red.elf", name).replace("pad = 6150\n", "")
        (folder.path / "red.toml").write_text(text)
        assert products_in(folder.image(program=program)) == found
        ended = run_tool("tp-run", folder.path / "red.toml", "--slots", "4")
        assert (ended.returncode, ended.stderr) == (0, "")
        assert "red (domain 0): exited with code 0\n" in ended.stdout


def test_products_in_assembler(folder: Folder, compiler: str) -> None:
    (folder.path / "red.s").write_text(".globl _start\n_start: mul x5, x6, x7\nremu x5, x6, x7\n")
    folder.write(DESCRIPTION.replace("red.elf", "red.s"))
    assert "can't be assembled" in folder.fault()
    machine = folder.path / "machine.toml"
    machine.write_text(machine.read_text() + MULDIV)
    assert products_in(folder.image()) == {"mul", "remu"}


def test_a_full_disk(folder: Folder, program: Program) -> None:
    if not Path("/dev/full").exists():
        pytest.skip("there is no /dev/full")
    told = "/dev/full: No space left on device\n"
    image = ("tp-image", folder.path / "red.toml", "-o", "/dev/full")
    kept = ("tp-run", folder.path / "red.toml", "--slots", "1", "--image", "/dev/full")
    report = ("tp-run", folder.path / "red.toml", "--slots", "1", "--report", "/dev/full")
    for tool, *words in (image, kept, report):
        ended = run_tool(str(tool), *words)
        assert (ended.returncode, ended.stderr) == (1, f"{tool}: {told}")
