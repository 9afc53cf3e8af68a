"""Values that stand for any other: what the tools of sdk/ write of them is a template."""

from __future__ import annotations


class Hole(int):
    """A number that writes itself as `{name}` or, with a format, `{name:format}`. Its own value decides
    what is written around it: one of a thing, or many."""

    name: str

    def __new__(cls, name: str, value: int = 2) -> Hole:
        it = super().__new__(cls, value)
        it.name = name
        return it

    def __format__(self, spec: str) -> str:
        return f"{{{self.name}:{spec}}}" if spec else f"{{{self.name}}}"

    def __str__(self) -> str:
        return f"{self}"

    def __floordiv__(self, other: int) -> Hole:
        return Hole(f"{self.name}_of_each", int(self) // int(other))

    def __rshift__(self, other: int) -> Hole:
        return Hole(f"{self.name}_high", int(self) >> int(other))

    def __sub__(self, other: int) -> Hole:
        assert isinstance(other, Hole)
        return Hole(f"{self.name}_less_{other.name}", int(self) - int(other))

    def __mul__(self, other: int) -> Hole:
        return Hole(f"{self.name}_times_{int(other)}", int(self) * int(other))
