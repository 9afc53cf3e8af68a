"""The release's version: what the file VERSION says at the top of the repository, from which a package is
built, too."""

from importlib.metadata import version
from pathlib import Path

DISTRIBUTION = "tp-sdk"

_FILE = Path(__file__).resolve().parents[2] / "VERSION"

__version__ = _FILE.read_text().strip() if _FILE.is_file() else version(DISTRIBUTION)
