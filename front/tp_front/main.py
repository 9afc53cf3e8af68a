"""What is asked of the front: by ./tp help, refused, watch, unproved and certificate; by ./prove and the
gate count; by the Makefile texts."""

from __future__ import annotations

from pathlib import Path

from tp_front import certificate, helping, image, pages, refusals, table, unproved, watching


def main(words: list[str]) -> int:
    """Does what is asked for, and answers the exit code."""
    asked, rest = words[0], words[1:]
    try:
        match asked:
            case "help":
                return helping.answer(table.load(), rest)
            case "refused":
                text = image.on_standard_input()
                refusals.tell_why(table.load(), rest, image.Image.read(text) if text else None)
                return 0
            case "watch":
                return watching.run(Path(rest[0]), rest[1:])
            case "unproved":
                return unproved.answer(rest)
            case "certificate":
                return certificate.answer(rest[0] == "proved", rest[1:])
            case "count":
                return certificate.count(Path(rest[0]), Path(rest[1]))
            case "texts":
                return pages.write_all(table.load(), Path(rest[0]))
            case _:
                raise SystemExit(f"answer: nothing is asked for by {asked}")
    except KeyboardInterrupt:
        return 130
