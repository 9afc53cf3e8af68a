"""Where the package's own files are: beside it in the repository, and in it where pip has installed it."""

from pathlib import Path

_PACKAGE = Path(__file__).resolve().parent
_C_BESIDE = _PACKAGE.parent / "c"

REPOSITORY = _PACKAGE.parents[1]
IS_INSTALLED = not _C_BESIDE.is_dir()
# What programs in C and in assembler are compiled with: headers, the library, the link script, machines.
C = _PACKAGE / "c" if IS_INSTALLED else _C_BESIDE
