"""Another Python for a tool, where the first on the path lacks something: Debian's own, for which
`apt-get install` is. (Older Pythons read this file, too.)"""

import os
import sys
from typing import Optional

DEBIANS = "/usr/bin/python3"

_HAS = """import sys, importlib.util
sys.exit(sys.version_info < (3, 11) or importlib.util.find_spec(sys.argv[1]) is None)"""


def _is_script_beside() -> bool:
    """The process runs a tool of this folder, which another Python can run as well: what pip has installed
    is for its own Python, and so is another's program that calls this package."""
    script = os.path.realpath(sys.argv[0] or os.curdir)
    return os.path.dirname(script) == os.path.dirname(os.path.dirname(os.path.realpath(__file__)))


def use_debians(module: str, read: Optional[bytes] = None) -> None:
    """Runs the process's command from its start on with Debian's own Python, where that is another
    one and has the module; else returns. What was read of standard input can be read again."""
    if sys.executable == DEBIANS or not _is_script_beside():
        return
    # (each tool loads this module, and seldom needs these)
    import subprocess
    import tempfile

    try:
        has = subprocess.run(
            [DEBIANS, "-c", _HAS, module], stdin=subprocess.DEVNULL, stderr=subprocess.DEVNULL, check=False
        )
    except OSError:
        return
    if has.returncode != 0:
        return
    if read is None:
        os.execv(DEBIANS, [DEBIANS, *sys.argv])
    with tempfile.TemporaryFile() as again:
        again.write(read)
        again.seek(0)
        os.dup2(again.fileno(), 0)
        os.execv(DEBIANS, [DEBIANS, *sys.argv])
