"""tp-sweep on a Dask cluster of a scheduler and two workers on the loopback."""

from __future__ import annotations

import os
import signal
import socket
import subprocess
import sys
from collections.abc import Iterator
from contextlib import ExitStack, contextmanager
from pathlib import Path

import pytest
from conftest import SDK
from test_sweep import VICTIM, answering, rows_of
from test_waiting import script, wait_for

pytest.importorskip("distributed")

GRID = ("--vary", "machine.costs.mem=40..47", "--off", "none,flush", "--slots", "1")


def free_port() -> int:
    with socket.socket() as it:
        it.bind(("127.0.0.1", 0))
        return int(it.getsockname()[1])


@contextmanager
def started(folder: Path, *words: str | Path) -> Iterator[subprocess.Popen[str]]:
    """A part of a cluster, which imports nothing of these tools by itself."""
    environment = {name: value for name, value in os.environ.items() if name != "TP"}
    with (folder / f"{len(list(folder.iterdir()))}.log").open("w") as log:
        command = [sys.executable, "-m", *map(str, words)]
        with subprocess.Popen(command, cwd=folder, env=environment, stdout=log, stderr=log, text=True) as it:
            try:
                yield it
            finally:
                it.kill()


@contextmanager
def cluster(folder: Path, workers: int = 2) -> Iterator[tuple[str, list[subprocess.Popen[str]]]]:
    """A scheduler's address, and workers of one thread each."""
    port = free_port()
    address = f"tcp://127.0.0.1:{port}"
    scheduler = ("distributed.cli.dask_scheduler", "--host", "127.0.0.1", "--port", str(port))
    its = []
    with started(folder, *scheduler, "--no-dashboard", "--no-show"):
        with ExitStack() as stack:
            for number in range(workers):
                words = (address, "--no-nanny", "--nthreads", "1", "--no-dashboard")
                place = ("--local-directory", folder / f"worker{number}")
                its.append(
                    stack.enter_context(started(folder, "distributed.cli.dask_worker", *words, *place))
                )
            yield address, its


def sweep(tp: Path, *words: str | Path) -> subprocess.Popen[str]:
    command = [sys.executable, SDK / "tp-sweep", VICTIM, *words]
    return subprocess.Popen(command, env=os.environ | {"TP": str(tp)}, stderr=subprocess.PIPE, text=True)


def test_a_cluster_writes_the_same_and_a_worker_that_dies_loses_nothing(tmp_path: Path) -> None:
    ran, room = tmp_path / "ran", tmp_path / "room"
    room.mkdir()
    ran.write_text("")
    tp = script(tmp_path / "tp", answering(ran, "sleep 0.1"))
    with sweep(tp, *GRID, "-o", tmp_path / "one.csv", "--jobs", "2") as it:
        assert it.wait(60) == 0
    with cluster(room) as (address, workers):
        ran.write_text("")
        with sweep(tp, *GRID, "-o", tmp_path / "two.csv", "--scheduler", address) as it:
            wait_for(lambda: ran.read_text().count("ablate") >= 1, it)
            workers[0].send_signal(signal.SIGKILL)
            _, said = it.communicate(timeout=60)
        assert (it.returncode, said) == (0, "")
        assert (tmp_path / "two.csv").read_bytes() == (tmp_path / "one.csv").read_bytes()
        assert len(rows_of(tmp_path / "two.csv")) == 32
        # an interrupt keeps what is done
        ran.write_text("")
        with sweep(tp, *GRID, "-o", tmp_path / "three.csv", "--scheduler", address) as it:
            wait_for(lambda: ran.read_text().count("ablate") >= 2, it)
            it.send_signal(signal.SIGINT)
            _, said = it.communicate(timeout=60)
        assert (it.returncode, said) == (130, "tp-sweep: interrupted\n")
        # with no worker left
        workers[1].send_signal(signal.SIGKILL)
        workers[1].wait(10)
        with sweep(tp, *GRID, "-o", tmp_path / "three.csv", "--scheduler", address) as it:
            _, said = it.communicate(timeout=60)
        assert it.returncode == 1 and said.count("\n") == 1
        assert f"{address}: no scheduler of Dask with a worker answers there" in said
        assert (tmp_path / "three.csv").read_text().startswith("machine.costs.mem,off,observer")


def test_a_scheduler_that_does_not_answer(tmp_path: Path) -> None:
    ran = tmp_path / "ran"
    ran.write_text("")
    tp = script(tmp_path / "tp", answering(ran))
    address = f"tcp://127.0.0.1:{free_port()}"
    with sweep(tp, *GRID, "-o", tmp_path / "a.csv", "--scheduler", address) as it:
        _, said = it.communicate(timeout=60)
    told = f"tp-sweep: {address}: no scheduler of Dask with a worker answers there\n"
    assert (it.returncode, said) == (1, told)
