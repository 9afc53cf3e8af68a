"""A sweep on the workers of a Dask cluster: they are handed these tools, and have the program themselves."""

from __future__ import annotations

import logging
import os
import pickle
import re
import socket
import tempfile
import warnings
import zipfile
from collections.abc import Iterator
from concurrent.futures import FIRST_COMPLETED, CancelledError, Future, wait
from contextlib import contextmanager
from pathlib import Path
from time import monotonic
from typing import Any

from tp_sdk.faults import Fault, Missing, MissingLibrary
from tp_sdk.program import VARIABLE, Program
from tp_sdk.sweeping.driving import Done, drive
from tp_sdk.sweeping.plan import Plan, Run, Runs
from tp_sdk.sweeping.running import Chunk, Runner

_ADDRESS = re.compile(r"(tcp|tls|ucx|ws|wss)://[^/]+:[0-9]{1,5}")
_PATIENCE = 10  # seconds in which a scheduler answers, and in which there is a worker again
_LOOK = 1.0  # seconds: so long it waits before it looks after the workers


@contextmanager
def on_a_cluster(plan: Plan, program: Program, scheduler: str, runs: Runs) -> Iterator[Done]:
    """Does the runs on a cluster's workers. Of a worker that ends, others do the runs again."""
    with _client(scheduler) as client:
        with _told_as_faults(scheduler):
            client.wait_for_workers(1, timeout=_PATIENCE)
            _hand_out_tools(client)
            # (as a task it is there again when the worker that has it ends)
            shared = client.submit(pickle.loads, pickle.dumps(plan), pure=False)
        workers = _Cluster(client, scheduler, (shared, str(program.path)), runs)

        def done() -> Done:
            with _told_as_faults(scheduler):
                yield from drive(workers, len(runs))

        try:
            yield done()
        finally:
            workers.cancel()


@contextmanager
def _client(scheduler: str) -> Iterator[Any]:
    try:
        import distributed
    except ImportError:
        raise MissingLibrary("distributed", "distributed") from None
    if _ADDRESS.fullmatch(scheduler) is None:
        raise Fault(f"{scheduler}: the address of a scheduler is wanted, as tcp://127.0.0.1:8786")
    connect: Any = distributed.Client
    with _silence():
        with _told_as_faults(scheduler):
            client = connect(scheduler, timeout=_PATIENCE, set_as_default=False, name="tp-sweep")
        try:
            yield client
        finally:
            client.close(timeout=_PATIENCE)


@contextmanager
def _silence() -> Iterator[None]:
    """Dask logs at length what is told of here in a sentence."""
    # (what is left of a connection is told of at the process's end)
    logging.getLogger("asyncio").setLevel(logging.CRITICAL + 1)
    before = logging.root.manager.disable
    logging.disable(logging.CRITICAL)
    try:
        with warnings.catch_warnings():
            warnings.simplefilter("ignore")
            yield
    finally:
        logging.disable(before)


@contextmanager
def _told_as_faults(scheduler: str) -> Iterator[None]:
    """Tells in a sentence what Dask tells by its own exceptions."""
    from distributed import KilledWorker
    from distributed.comm.core import CommClosedError

    try:
        yield
    except KilledWorker:
        raise Fault(
            f"{scheduler}: several workers have ended in the same runs: the rows before them are kept"
        ) from None
    except (OSError, TimeoutError, CommClosedError, CancelledError):
        raise Fault(f"{scheduler}: no scheduler of Dask with a worker answers there") from None


class _Cluster:
    """A cluster's workers, each thread of which does runs."""

    def __init__(self, client: Any, scheduler: str, given: tuple[Any, str], runs: Runs) -> None:
        self._client, self._scheduler, self._given, self._runs = client, scheduler, given, runs
        self._executor = client.get_executor(pure=False)
        self._pending: set[Future[Chunk]] = set()
        self._seen = monotonic()

    def count(self) -> int:
        """How many runs can be done at once."""
        threads: dict[str, int] = self._client.nthreads()
        return max(1, sum(threads.values()))

    def submit(self, part: range) -> None:
        """Has a worker do the runs of these numbers."""
        self._pending.add(self._executor.submit(_chunk, *self._given, self._runs.part(part)))

    def wait(self) -> list[Chunk]:
        """What was done meanwhile: some at least."""
        while True:
            done, self._pending = wait(self._pending, _LOOK, return_when=FIRST_COMPLETED)
            if done:
                return [it.result() for it in done]
            self._look()

    def _look(self) -> None:
        """Faults a cluster that has lost its scheduler, or has had no worker for some seconds."""
        if self._client.nthreads():
            self._seen = monotonic()
        elif monotonic() - self._seen > _PATIENCE:
            raise Fault(
                f"{self._scheduler}: it has no worker any more: the same command goes on from what is done"
            )

    def cancel(self) -> None:
        """Has no more done."""
        for it in self._pending:
            it.cancel()


def _hand_out_tools(client: Any) -> None:
    """Has workers, those that come later, too, import the tools that run here."""
    package = Path(__file__).resolve().parents[1]
    with tempfile.TemporaryDirectory() as room:
        file = Path(room) / "tp_sdk.zip"
        with zipfile.ZipFile(file, "w") as out:
            for source in sorted(package.rglob("*.py")):
                out.write(source, source.relative_to(package.parent))
        client.upload_file(str(file))


_runners: dict[str, Runner] = {}  # of a worker, by their sweeps


def _chunk(plan: Plan, program: str, runs: list[Run]) -> Chunk:
    """Does some runs in a worker."""
    if plan.sweep not in _runners:
        _runners[plan.sweep] = Runner(plan, _program(program))
    return _runners[plan.sweep].chunk(runs)


def _program(path: str) -> Program:
    """The program that the worker's variable names, else the one that stands where it does for who asks."""
    try:
        os.environ.setdefault(VARIABLE, path)
        return Program.find()
    except Missing:
        where = f"{VARIABLE}={os.environ[VARIABLE]}"
        raise Missing(f"worker on {socket.gethostname()}: there is no program at {where}") from None
