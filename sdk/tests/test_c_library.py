"""printf, stdlib.h, assert.h and tp_rest of sdk/c, as a program finds them."""

from __future__ import annotations

import re
from pathlib import Path

import pytest
from conftest import SDK, run_tool

from tp_sdk.calls import CALLS, ERRORS
from tp_sdk.program import Program
from tp_sdk.report import parse_report

# What is printed by a format and its arguments.
CONVERSIONS = (
    ('"%lld %lld %lld", 0ll, INT64_MAX, INT64_MIN', "0 9223372036854775807 -9223372036854775808"),
    (
        '"%llu %llx %llo", UINT64_MAX, 0x123456789abcdefull, UINT64_MAX',
        f"{2**64 - 1} 123456789abcdef {2**64 - 1:o}",
    ),
    ('"%llu %llu", 4294967296ull, 10000000000000000000ull', "4294967296 10000000000000000000"),
    ('"%20lld|%-20lld|%020lld", -1234567890123ll, 99ll, -7ll', f"{-1234567890123:20}|{99:<20}|{-7:020}"),
    ('"%lu %ld %zu %td", UINT32_MAX, INT32_MIN, sizeof(int), (ptrdiff_t)-3', f"{2**32 - 1} {-(2**31)} 4 -3"),
    ('"%hd %hu %hhd %hhu %jd", 65537, 65537, 257, 257, (intmax_t)-5', "1 1 1 1 -5"),
    (
        '"%.3s|%-8s|%8.2s|%.*s|%.0s|%s", "abcdef", "abc", "abc", 2, "xyz", "x", ""',
        "abc|abc     |      ab|xy||",
    ),
    ('"%.3s", (char[]){97, 98, 99}', "abc"),  # (a text without an end)
    (
        '"%*d|%*d|%.5d|%8.5d|%-8.5d|%.0d|%.0d", 6, 42, -6, 42, 42, 42, 42, 0, 7',
        "    42|42    |00042|   00042|00042   ||7",
    ),
    ('"%+d|%+d|% d|% 5d|%+05d|%-+5d|", 5, -5, 5, 5, 5, 5', "+5|-5| 5|    5|+0005|+5   |"),
    ('"%#x|%#X|%#x|%#o|%#o|%#06x|%#8x", 255, 255, 0, 8, 0, 255, 255', "0xff|0XFF|0|010|0|0x00ff|    0xff"),
    (
        '"%08x|%-8x|%8x|%c|%3c|%-3c|%p", 255, 255, 255, 97, 98, 99, (void *)4096',
        "000000ff|ff      |      ff|a|  b|c  |0x1000",
    ),
    ('"100%%"', "100%"),
)
HEADERS = "#include <{}.h>\n"


def source(path: Path, headers: str, body: str) -> Path:
    """A program with these headers, whose `main` does this."""
    lines = "".join(HEADERS.format(name) for name in ("stddef", "stdint", *headers.split()))
    path.write_text(f'{lines}#include "tp.h"\nint main(void)\n{{\n{body}\n}}\n')
    return path


def run(program: Path, slots: int, *words: str | Path) -> tuple[list[str], str]:
    """The lines that tp-run writes of a program, and what it says besides."""
    ended = run_tool("tp-run", program, "--slots", str(slots), *words)
    assert ended.returncode == 0, ended.stderr
    return ended.stdout.splitlines(), ended.stderr


def printed(lines: list[str]) -> list[str]:
    """What the first domain printed."""
    return [line.removeprefix("  | ") for line in lines if line.startswith("  | ")]


@pytest.mark.parametrize("machine", ("machine", "machine-muldiv"))
def test_each_conversion(program: Program, compiler: str, tmp_path: Path, machine: str) -> None:
    calls = [f'printf({it}); puts("");' for it, _ in CONVERSIONS]
    made = source(tmp_path / "prints.c", "stdio", "\n".join([*calls, 'return printf("|%4d|", 1) - 6;']))
    lines, said = run(made, 100, "--machine", SDK / "c" / f"{machine}.toml")
    assert printed(lines) == [*(due for _, due in CONVERSIONS), "|   1|"]
    assert said == "" and lines[1] == "prints (domain 0): exited with code 0"


def test_what_printf_lacks_is_warned_of_and_a_question_mark(
    program: Program, compiler: str, tmp_path: Path
) -> None:
    body = """printf("%d %5.2f %d\\n", 1, 2.0, 3);
    printf("%d %d %d %d %d %d %d %g\\n", 1, 2, 3, 4, 5, 6, 7, 8.0);
    printf("%y %s\\n", "text");
    printf("%d\\n", "text");
    return printf("%d%% of %-5s\\n", 50, "it") == EOF;"""
    lines, said = run(source(tmp_path / "lacks.c", "stdio", body), 20)
    assert printed(lines)[:3] == ["1 ? 3", "1 2 3 4 5 6 7 ?", "? text"]
    assert said.count("printf has no such conversion, and prints a '?'") == 3
    for line in (7, 8, 9):
        assert f"inlined from 'main' at lacks.c:{line}:" in said
    assert "unknown conversion type character 'y'" in said and "expects argument of type 'int'" in said
    assert "lacks.c:11:" not in said


MEMORY = """
    static char *blocks[64];
    char *one = malloc(1), *other = malloc(100), *page = malloc(4096);
    if (!one || !other || !page || ((uintptr_t)one | (uintptr_t)other | (uintptr_t)page) & 15)
        return 1;
    memset(one, 1, 1);
    memset(other, 2, 100);
    memset(page, 3, 4096);
    if (one[0] != 1 || other[0] != 2 || other[99] != 2 || page[0] != 3 || page[4095] != 3)
        return 2;
    other = realloc(other, 200);
    if (!other || other[0] != 2 || other[99] != 2)
        return 3;
    free(one), free(NULL), free(page), free(other);
    unsigned *words = calloc(50, sizeof *words); /* (where there were other bytes) */
    for (int at = 0; at < 50; at++)
        if (!words || words[at])
            return 4;
    free(words);
    unsigned count = 0;
    while ((blocks[count] = malloc(1000)))
        memset(blocks[count++], 5, 1000);
    for (unsigned at = 0; at < count; at += 2)
        free(blocks[at]);
    for (unsigned at = 1; at < count; at += 2)
        free(blocks[at]);
    void *all = malloc(1000 * count); /* (what was free in parts is one part again) */
    if (!all || malloc(0) || malloc(SIZE_MAX) || calloc(SIZE_MAX, 2) || malloc(4096 * 64))
        return 5;
    printf("%u\\n", count);
    return realloc(NULL, 16) ? 0 : 6;"""


def described(program: Path, calls: str = "") -> Path:
    """A description of a domain with one colour, of sixteen frames."""
    name = program.stem
    file = program.with_suffix(".toml")
    file.write_text(
        f"""version = 2
machine = "{SDK / 'c' / 'machine.toml'}"
domain = [{{ name = "{name}", program = "{program.name}", colours = [1]{calls} }}]
schedule = [{{ domain = "{name}", length = 1000000 }}]
"""
    )
    return file


def test_memory_until_there_is_none(program: Program, compiler: str, tmp_path: Path) -> None:
    made = described(source(tmp_path / "memory.c", "stdio stdlib string", MEMORY))
    lines, said = run(made, 4)
    assert lines[1] == "memory (domain 0): exited with code 0" and said == ""
    assert int(printed(lines)[0]) >= 8  # (of each page four)
    assert any("by NoFrame" in line for line in lines)


def test_memory_where_the_calls_leave_it_out(program: Program, compiler: str, tmp_path: Path) -> None:
    made = source(tmp_path / "none.c", "stdlib", "return malloc(1) == NULL ? 7 : 8;")
    assert run(described(made, ', calls = ["exit"]'), 1)[0][1] == "none (domain 0): exited with code 7"


def numbers(seed: int, count: int) -> list[int]:
    """What `rand` answers after `srand`."""
    state, found = seed or 1, []
    for _ in range(count):
        state ^= state << 13 & 0xFFFFFFFF
        state ^= state >> 17
        state ^= state << 5 & 0xFFFFFFFF
        found.append(state & 0x7FFFFFFF)
    return found


def test_numbers_at_random_are_those_of_their_seed(program: Program, compiler: str, tmp_path: Path) -> None:
    body = """for (int times = 0; times < 3; times++)
        printf("%d ", rand());
    for (unsigned seed = 0; seed < 0xfffffff0; seed += 0x55555555) {
        srand(seed);
        printf("%d %d ", rand(), rand() & 0);
    }
    srand(1);
    exit(rand() == 270369 ? EXIT_SUCCESS : EXIT_FAILURE);"""
    lines, _ = run(source(tmp_path / "rands.c", "stdio stdlib", body), 40)
    seeds = [number for seed in (0, 0x55555555, 0xAAAAAAAA) for number in (numbers(seed, 1)[0], 0)]
    assert [int(word) for word in printed(lines)[0].split()] == [*numbers(1, 3), *seeds]
    assert lines[1] == "rands (domain 0): exited with code 0"


def test_an_assertion_that_fails_stops_the_domain(program: Program, compiler: str, tmp_path: Path) -> None:
    body = """assert(2 > 1);
    static_assert(sizeof(int) == 4, "32 bits");
    int two = 2;
    assert(two < 1);
    return 0;"""
    lines, said = run(source(tmp_path / "asserts.c", "assert", body), 10)
    assert printed(lines) == ["asserts.c:10: main: two < 1 is false"] and said == ""
    assert lines[1].startswith("asserts (domain 0): stopped by an EBREAK (code 3)") and "`abort" in lines[1]
    body = body.replace("int two = 2;", "").replace("return 0", "return 9")
    silent = source(tmp_path / "silent.c", "assert", body)
    silent.write_text("#define NDEBUG\n" + silent.read_text())
    assert run(silent, 10)[0][1] == "silent (domain 0): exited with code 9"


def test_a_program_may_have_functions_of_these_names(program: Program, compiler: str, tmp_path: Path) -> None:
    (tmp_path / "own.c").write_text(
        """#include "tp.h"
unsigned rand(void) { return 4; }
void *malloc(unsigned bytes) { return (void *)(bytes + 1); }
void *calloc(unsigned count, unsigned bytes) { return malloc(count * bytes); }
void *realloc(void *block, unsigned bytes) { return bytes ? block : 0; }
void free(void *block) { (void)block; }
void srand(unsigned seed) { (void)seed; }
void exit(int code) { tp_exit(code + 1u); }
void abort(void) { exit(6); }
int main(void)
{
    srand(1);
    free(realloc(malloc(1), 1));
    if (rand() == 4 && calloc(1, 1) == (void *)2)
        abort();
    return 0;
}
"""
    )
    lines, said = run(tmp_path / "own.c", 10)
    assert lines[1] == "own (domain 0): exited with code 7" and "multiple definition" not in said


def test_products_of_the_compilers_library_link(program: Program, compiler: str, tmp_path: Path) -> None:
    body = """volatile uint64_t great = 1000000007ull;
    volatile int64_t less = -12345678901234ll;
    volatile uint32_t small = 77777;
    volatile double half = 0.5;
    printf("%llu %llu %lld ", great * great, great * great / 65521, less / 1000003);
    printf("%lld %lu %d\\n", less % 1000003, small * small % 1009, (int)(half * 9));
    return 0;"""
    product = 1000000007**2
    quotient, left = divmod(12345678901234, 1000003)
    due = f"{product} {product // 65521} {-quotient} {-left} {77777**2 % 2**32 % 1009} 4"
    made = source(tmp_path / "products.c", "stdio", body)
    for machine in ("machine", "machine-muldiv"):
        lines, _ = run(made, 40, "--machine", SDK / "c" / f"{machine}.toml")
        assert printed(lines) == [due]


def test_a_rest_takes_about_its_cycles_and_reads_nothing(
    program: Program, compiler: str, tmp_path: Path
) -> None:
    times = (600, 3000, 9000, 24000)
    body = "\n".join(f"tp_cycle(); tp_rest({it}); tp_cycle();" for it in times)
    made = source(tmp_path / "rests.c", "", body + "\nreturn 0;")
    run(made, 1, "--length", "100000", "--report", tmp_path / "rests.report")
    section = parse_report((tmp_path / "rests.report").read_text(), "rests").section("rests")
    assert section.readings_count == 2 * len(times)
    for due, before, after in zip(times, section.readings[::2], section.readings[1::2]):
        assert due <= after - before < due + 300
    # with a slot that is shorter what is left is rested in the next one
    run(made, 20, "--length", "10000", "--report", tmp_path / "rests.report")
    section = parse_report((tmp_path / "rests.report").read_text(), "rests").section("rests")
    assert section.readings[-1] - section.readings[-2] > 24000 + 2 * 6150


def test_calls_and_errors_are_those_of_the_kernel() -> None:
    text = (SDK / "c" / "tp.h").read_text()
    errors = re.findall(
        r"^    TP_(\w+) = (\d+),", text.partition("enum tp_error {")[2].partition("}")[0], re.M
    )
    named = [("".join(word.capitalize() for word in name.split("_")), int(code)) for name, code in errors]
    assert named == [("Ok", 0), *((it.name, it.code) for it in ERRORS)]
    calls = re.findall(r"^    TP_CALL_(\w+) = (\d+),$", text, re.M)
    assert [(name.replace("_", ""), int(number)) for name, number in calls] == [
        (it.name, it.number) for it in CALLS
    ]
