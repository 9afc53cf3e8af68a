"""The word that was meant, where one is misspelt."""

from __future__ import annotations

from collections.abc import Iterable

_LIKE = 0.65  # how like its word a misspelling is, from 0 to 1


def meant(word: str, known: Iterable[str]) -> str | None:
    """The known word that is most like another one."""
    import difflib  # (what is spelt well needs none)

    by_small = {it.lower(): it for it in known}
    found = difflib.get_close_matches(word.lower(), by_small, n=1, cutoff=_LIKE)
    return by_small[found[0]] if found and by_small[found[0]] != word else None


def did_you_mean(word: str, known: Iterable[str], quote: str = "'") -> str:
    """`: did you mean 'colours'?`, or nothing."""
    it = meant(word, known)
    return "" if it is None else f": did you mean {quote}{it}{quote}?"
