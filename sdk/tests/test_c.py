"""string.h and stdio.h of sdk/c, as a program finds them."""

from __future__ import annotations

from pathlib import Path

from conftest import run_tool

PRINTS = r"""#include <limits.h>
#include <stdint.h>
#include <stdio.h>
#include <string.h>
int main(void)
{
    char text[8];
    int printed = printf("[%s] [%5s] [%-5s] [%c] [%%]\n", "abc", "abc", "abc", 'x');
    printf("%d [%d] [%d] [%5d] [%-5d] [%05d] [%05d]\n", printed, 0, INT_MIN, -42, -42, -42, 42);
    printf("%u %lu %x %X %08x ", UINT_MAX, 7ul, 0xbeefu, 0xbeefu, 0x12u);
    printf("%o %p %zu\n", 8u, (void *)16, sizeof text);
    strncpy(text, "tablespoon", sizeof text - 1);
    text[7] = 0;
    printf("%s %u %d %d\n", text, (unsigned)strlen(text), strcmp("a", "b") < 0, strncmp("abx", "aby", 2));
    strcpy(text, "ab");
    strcat(text, "cd");
    printf("%s %s %d\n", text, strchr(text, 'c'), strchr(text, 'z') == NULL);
    memmove(text + 1, text, 4);
    printf("%s %d\n", text, memchr(text, 'd', 5) == text + 4);
    puts("done");
    return memcmp("a", "b", 1) < 0 && memset(text, 0, 8) == text ? 0 : 1;
}
"""
PRINTED = """[abc] [  abc] [abc  ] [x] [%]
30 [0] [-2147483648] [  -42] [-42  ] [-0042] [00042]
4294967295 7 beef BEEF 00000012 10 0x10 8
tablesp 7 1 0
abcd cd 1
aabcdsp 1
done
"""
FILLS = """#include <stdio.h>
int main(void)
{
    int last = 0;
    for (int times = 0; times < 500; times++)
        last = printf("0123456789");
    return last == EOF && putchar('x') == EOF && puts("x") == EOF ? 7 : 8;
}
"""


def told(source: Path, text: str, slots: int) -> str:
    source.write_text(text)
    ended = run_tool("tp-run", source, "--slots", str(slots))
    assert (ended.returncode, ended.stderr) == (0, "")
    return ended.stdout


def test_what_is_printed(program: object, compiler: str, tmp_path: Path) -> None:
    lines = told(tmp_path / "prints.c", PRINTS, 60).splitlines()
    printed = [line.removeprefix("  | ") for line in lines if line.startswith("  | ")]
    assert printed == PRINTED.splitlines()
    assert lines[1] == "prints (domain 0): exited with code 0"


def test_an_output_that_is_full(program: object, compiler: str, tmp_path: Path) -> None:
    text = told(tmp_path / "fills.c", FILLS, 400)
    assert "fills (domain 0): exited with code 7\n" in text and "printed 4,096 bytes" in text
