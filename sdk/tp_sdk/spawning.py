"""A process for each run of the program, where many are run: with files of memory in the place of pipes, so that
nothing has to be awaited but its end. A run has the files of one before it."""

from __future__ import annotations

import os
import signal
from collections.abc import Mapping
from contextlib import suppress

# What Python has ignored in itself, and other programs do not expect to be.
_AS_EVER = [getattr(signal, name) for name in ("SIGPIPE", "SIGXFSZ") if hasattr(signal, name)]
# What ends a run: it waits until there is somebody to end the process that begins.
_ENDING = (signal.SIGINT, signal.SIGTERM)


# Files that no run has now: what a run is given, and what it writes.
_free: list[tuple[int, int]] = []


def _forget() -> None:
    """Closes them in a copy of this process, which would share their places with it."""
    while _free:
        _close(_free.pop())


if hasattr(os, "register_at_fork"):
    os.register_at_fork(after_in_child=_forget)


def run(command: list[str], given: bytes, environment: Mapping[str, str]) -> tuple[int, bytes]:
    """The exit code of a command, or less than 0 where a signal has ended it, and what it writes; what it has as its
    standard input is given. (Of the environment a plain dict serves best: `os.environ` decodes each of its words anew.)
    """
    try:
        files = _free.pop()
    except IndexError:
        files = _file(), _file()
    try:
        ended = _run(command, given, environment, *files)
    except BaseException:
        _close(files)
        raise
    _free.append(files)
    return ended


def _run(
    command: list[str], given: bytes, environment: Mapping[str, str], source: int, out: int
) -> tuple[int, bytes]:
    _begin(source)
    _write(source, given)
    os.lseek(source, 0, os.SEEK_SET)
    _begin(out)
    process = 0
    try:
        mask = signal.pthread_sigmask(signal.SIG_BLOCK, _ENDING)
        process = os.posix_spawn(
            command[0],
            command,
            environment,
            file_actions=[
                (os.POSIX_SPAWN_DUP2, source, 0),
                (os.POSIX_SPAWN_DUP2, out, 1),
                (os.POSIX_SPAWN_OPEN, 2, os.devnull, os.O_WRONLY, 0),
            ],
            setsigmask=mask,
            setsigdef=_AS_EVER,
        )
        signal.pthread_sigmask(signal.SIG_SETMASK, mask)
        _, status = os.waitpid(process, 0)
    # (Ctrl-C, too)
    except BaseException:
        if process:
            _end(process)
        signal.pthread_sigmask(signal.SIG_UNBLOCK, _ENDING)
        raise
    return os.waitstatus_to_exitcode(status), os.pread(out, os.lseek(out, 0, os.SEEK_END), 0)


def _end(process: int) -> None:
    """Ends a process, unless it has ended, and was awaited, right before."""
    with suppress(ProcessLookupError, ChildProcessError):
        os.kill(process, signal.SIGKILL)
        os.waitpid(process, 0)


def _file() -> int:
    """A file that has no name, and is gone when it is closed."""
    if hasattr(os, "memfd_create"):
        return os.memfd_create("tp")
    import tempfile

    with tempfile.TemporaryFile() as it:
        return os.dup(it.fileno())


def _begin(file: int) -> None:
    """Has a file with nothing in it, and at its start."""
    os.ftruncate(file, 0)
    os.lseek(file, 0, os.SEEK_SET)


def _close(files: tuple[int, int]) -> None:
    for it in files:
        os.close(it)


def _write(file: int, data: bytes) -> None:
    rest = memoryview(data)
    while rest:
        rest = rest[os.write(file, rest) :]
