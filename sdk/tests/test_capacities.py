"""Workloads in C and the resources that programs share: what they compute, and what spies tell of them."""

from __future__ import annotations

import subprocess
import sys
from dataclasses import replace
from functools import cache
from importlib.machinery import SourceFileLoader
from importlib.util import module_from_spec, spec_from_loader
from pathlib import Path
from types import ModuleType

import pytest
from conftest import REPOSITORY
from test_tables import table_with

from tp_sdk.build import build_text, load_programs, set_words
from tp_sdk.description import read_description
from tp_sdk.elf import Loaded
from tp_sdk.guards import GUARDS
from tp_sdk.program import Program
from tp_sdk.report import Section, parse_report

EXAMPLES = REPOSITORY / "examples"
WORKLOADS = EXAMPLES / "workloads"
SCRIPT = EXAMPLES / "capacities"
CHANNELS_MD = (REPOSITORY / "docs" / "CHANNELS.md").read_text()
RESOURCES = table_with("resource", "programs", "guard off", "bits, off", "bits, on", text=CHANNELS_MD)
OF_WORKLOADS = table_with(
    "workload", "programs", *(f"`{guard}`" for guard in GUARDS), "none", text=CHANNELS_MD
)
# The standard's two examples for keys of 128 bits: key, block, what comes of it.
VECTORS = (
    (
        "2b7e151628aed2a6abf7158809cf4f3c",
        "3243f6a8885a308d313198a2e0370734",
        "3925841d02dc09fbdc118597196a0b32",
    ),
    (
        "000102030405060708090a0b0c0d0e0f",
        "00112233445566778899aabbccddeeff",
        "69c4e0d86a7b0430d8cdb78070b4c55a",
    ),
)


@pytest.fixture(scope="module", autouse=True)
def script(program: Program, compiler: str) -> ModuleType:
    """The script that makes the tables."""
    pytest.importorskip("elftools")
    loader = SourceFileLoader("capacities", str(SCRIPT))
    spec = spec_from_loader(loader.name, loader)
    assert spec is not None
    made = sys.modules[loader.name] = module_from_spec(spec)
    writes, sys.dont_write_bytecode = sys.dont_write_bytecode, True
    try:
        loader.exec_module(made)
    finally:
        sys.dont_write_bytecode = writes
    return made


@pytest.fixture
def of_the_page(compiler: str) -> None:
    """The compiler is the one whose programs the page tells of."""
    of = (Path(__file__).parent / "reports" / "compiler").read_text().strip()
    if compiler != of:
        pytest.skip(f"the page tells what programs do that {of} built")


@cache
def programs_of(name: str) -> list[Loaded]:
    return load_programs(read_description(WORKLOADS / f"{name}.toml"))


def ran_alone(program: Program, name: str, slots: int, *settings: str) -> Section:
    """The second domain of a description, with nobody beside it."""
    description = read_description(WORKLOADS / f"{name}.toml")
    set_words(description, settings)
    programs = programs_of(name)
    words = ["alone", "--domain", "1", "--slots", str(slots)]
    text = program.run(words, build_text(description, program, programs)).text
    return parse_report(f"{text}end\n", name).sections[0]


def words_of(digits: str) -> str:
    return f"[{', '.join(f'0x{digits[at : at + 8]}' for at in range(0, 32, 8))}]"


# ---- what the workloads compute


@pytest.mark.parametrize("name", ("aes_tables", "aes_computed"))
@pytest.mark.parametrize("key, block, encrypted", VECTORS)
def test_a_block_is_encrypted(program: Program, name: str, key: str, block: str, encrypted: str) -> None:
    settings = (f"victim.key={words_of(key)}", f"victim.block={words_of(block)}")
    assert ran_alone(program, name, 2, *settings).out == f"{encrypted}\n".encode()


def test_what_it_costs_to_do_without_tables(program: Program, of_the_page: None) -> None:
    with_tables, without = (ran_alone(program, name, 2).retired for name in ("aes_tables", "aes_computed"))
    assert f" {without:,} instructions in the place of {with_tables:,}," in CHANNELS_MD


@pytest.mark.parametrize("name", ("powers_squared", "powers_ladder"))
def test_a_power_is_raised(program: Program, name: str) -> None:
    for exponent in (0, 0xB5):
        printed = ran_alone(program, name, 100, f"victim.exponent={exponent}").out
        assert printed == f"{pow(3, exponent, 2**127 - 1):032x}\n".encode()


def test_requests_are_answered(program: Program) -> None:
    for request, printed, status in (
        ("get dog", b"13\n", "exited 0"),
        ("get dogs", b"", "exited 1"),
        ("set bee 7", b"", "exited 0"),
        ("set bee 7x", b"", "exited 1"),
        ("count gnu 2", b"", "exited 0"),
        ("put bee", b"", "exited 1"),
    ):
        section = ran_alone(program, "requests", 2, f'server.request="{request}"')
        assert (request, section.out, section.status) == (request, printed, status)


# ---- what spies tell: the tables of docs/CHANNELS.md


def test_rows_by_resource_are_made_anew(of_the_page: None) -> None:
    names = ("counters", "history", "targets")
    ended = subprocess.run([sys.executable, SCRIPT, "resources", *names], capture_output=True, text=True)
    assert (ended.returncode, ended.stderr) == (0, "")
    made = table_with("resource", "programs", "guard off", "bits, off", "bits, on", text=ended.stdout)
    assert made == [row for row in RESOURCES if row[1].strip("`") in names]
    assert len(made) == len(names)


def test_the_tables_have_the_scripts_rows(script: ModuleType) -> None:
    assert [row[:3] for row in RESOURCES] == [
        [row.told, f"`{row.name}`", f"`{row.guards[0]}`"] for row in script.RESOURCES
    ]
    assert [row[:2] for row in OF_WORKLOADS] == [[row.told, f"`{row.name}`"] for row in script.WORKLOADS]


@pytest.mark.parametrize(
    "name, guards, secrets",
    (
        ("aes_tables", ("flush",), 8),
        ("aes_computed", ("flush",), 2),
        ("powers_squared", ("pad",), 8),
        ("powers_ladder", ("pad",), 2),
        ("requests", ("flush", "pad"), 8),
    ),
)
def test_a_workload_tells_what_the_table_says(
    script: ModuleType, of_the_page: None, name: str, guards: tuple[str, ...], secrets: int
) -> None:
    row = next(it for it in script.WORKLOADS if it.name == name)
    secret = replace(row.secret, values=row.secret.values[:secrets])
    told = next(cells[2:] for cells in OF_WORKLOADS if cells[1] == f"`{name}`")
    of_guard = dict(zip((*GUARDS, None), told))
    found = replace(row, guards=guards, secret=secret).capacities()
    assert found == [of_guard[guard] for guard in (*guards, None)]
    assert found[-1] == "0.00"


def test_words_that_name_no_table() -> None:
    for words, code, fault in (
        ((), 2, "usage: capacities resources|workloads [DESCRIPTION..]\n"),
        (("resources", "fly"), 1, "there is no row of fly: lines, fetches, "),
    ):
        ended = subprocess.run([sys.executable, SCRIPT, *words], capture_output=True, text=True)
        assert (ended.returncode, ended.stdout) == (code, "") and ended.stderr.startswith(fault)
