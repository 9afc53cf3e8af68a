"""Holds the library against the program on every image of examples/, by each command: the status and each byte.

usage: examples.py PROGRAM BY_WORDS LIBRARY

BY_WORDS is the program over the library (by_words.c), and LIBRARY the shared object, which is called from this process.
The last line is 'N passed, M failed'.
"""

from __future__ import annotations

import subprocess
import sys
from pathlib import Path

TOP = Path(__file__).resolve().parents[2]
sys.path.insert(0, str(TOP / "sdk"))

from tp_sdk.program import Ended, Program  # noqa: E402

COMMANDS = [
    ["check"],
    ["bound"],
    ["run", "--slots", "6"],
    ["harts", "--slots", "6", "--seed", "7"],
    ["alone", "--domain", "1", "--slots", "6"],
    ["ablate", "--off", "flush", "--slots", "6"],
    ["redact", "--domain", "1"],
]
SEEDS = [[command, "--seed", seed] for command in ("gen", "demo") for seed in ("0", "7", "4294967295")]


def answer(program: Path, words: list[str], image: bytes) -> Ended:
    done = subprocess.run([program, *words], input=image, capture_output=True, check=False)
    return Ended(done.returncode, done.stdout.decode())


def main() -> int:
    program, by_words, library = (Path(word).resolve() for word in sys.argv[1:4])
    called = Program(program, library)
    images = sorted((TOP / "examples").rglob("*.toml"))
    rows = [(image, words) for image in images for words in COMMANDS] + [
        (images[0], words) for words in SEEDS
    ]
    passed = failed = 0
    for image, words in rows:
        text = image.read_text()
        due = answer(program, words, text.encode())
        for how, found in (
            ("libtp.a", answer(by_words, words, text.encode())),
            ("libtp.so", called.run(words, text)),
        ):
            if found == due:
                passed += 1
            else:
                failed += 1
                print(
                    f"FAILED: {' '.join(words)} of {image.relative_to(TOP)} by {how}: {found.code}, and {due.code} is due"
                )
    print(f"{passed} passed, {failed} failed")
    return 1 if failed or not passed else 0


if __name__ == "__main__":
    sys.exit(main())
