"""The engine for many machines: a cluster of Dask distributed, by its client."""
import ipaddress
import logging
import os
import tempfile
import threading
import time
import zipfile
from collections.abc import Iterable, Iterator
from contextlib import contextmanager, suppress
from urllib.parse import urlsplit

from tink_fleet import calls
from tink_fleet.errors import FleetError, Refused

# Calls that are out at once, for each thread of the cluster. The scheduler holds no more than these.
AHEAD = 4
PATIENCE_SECONDS = 600.0
CONNECT_SECONDS = 20
POLL_SECONDS = 0.005
LOOK_SECONDS = 2.0
# A worker that died is started again by its nanny, which takes a while on a busy machine.
RESTART_SECONDS = 60.0
# What these say of a lost connection this engine says in a line of its own.
LOGGERS = ("asyncio", "distributed", "distributed.client", "tornado.application")
# Guards what a worker knows of runs: a worker may have several threads.
RUNS = threading.Lock()


def check_address(address: str) -> None:
    """A scheduler runs what anyone sends who reaches it, so that one beyond this machine has to use TLS."""
    found = urlsplit(address if "://" in address else f"tcp://{address}")
    try:
        is_loopback = found.hostname == "localhost" or ipaddress.ip_address(found.hostname or "").is_loopback
    except ValueError:
        is_loopback = False
    if found.scheme != "tls" and not is_loopback:
        raise FleetError(
            f"{address}: without TLS, who reaches a scheduler runs programs on its workers, which hold keys: "
            "give tls://.. with the certificates in Dask's configuration, or 127.0.0.1 through a tunnel"
        )


class DaskEngine:
    """Hands calls to a cluster, a bounded number ahead."""

    def __init__(self, address: str):
        check_address(address)
        try:
            from distributed import Client
        except ImportError:
            raise FleetError(
                "distributed: this Python has no Dask distributed: install python3-distributed, and run fleet by /usr/bin/python3"
            ) from None
        for name in LOGGERS:
            logging.getLogger(name).setLevel(logging.CRITICAL)
        try:
            self.client = Client(address, name="tink-fleet", timeout=CONNECT_SECONDS)
        except (OSError, TimeoutError) as e:
            raise FleetError(f"{address}: no scheduler answers: start `dask scheduler`, and its workers ({e})") from e
        self.address = address
        self.number = 0
        self.token = ""
        self.upload()

    @contextmanager
    def connected(self) -> Iterator[None]:
        """An error of the connection means that the scheduler is gone."""
        try:
            yield
        except OSError as e:
            raise self.gone() from e

    def threads(self) -> dict[str, int]:
        """How many threads each worker has."""
        with self.connected():
            return self.client.nthreads()

    def ask(self, function, *words) -> dict:
        """The answer of each worker. It is an error where the worker gave none."""
        with self.connected():
            return self.client.run(function, *words, on_error="return")

    @property
    def slots(self) -> int:
        return sum(self.threads().values())

    def upload(self) -> None:
        """Sends this package to the workers, those too that come later."""
        from distributed.diagnostics.plugin import UploadFile

        with tempfile.TemporaryDirectory() as folder:
            path = os.path.join(folder, f"tink_fleet-{calls.package_hash()}.zip")
            with zipfile.ZipFile(path, "w") as archive:
                for name, text in calls.package_files().items():
                    archive.writestr(f"tink_fleet/{name}", text)
            with self.connected():
                self.client.register_worker_plugin(UploadFile(path), name="tink_fleet")

    def begin(self, fleet: str, run: str, say) -> None:
        """Ends what a driver that is no more left at work: its workers stop after the file that they are at."""
        self.token = run
        self.wait_for_a_worker()
        deadline, has_said = time.monotonic() + PATIENCE_SECONDS, False
        while True:
            if not self.threads():
                raise FleetError(f"{self.address}: the scheduler has no worker: start `dask worker {self.address}`")
            # A worker that is about to leave answers by an error, and is asked again.
            busy = self.ask(begin_run, fleet, run)
            if all(it == 0 for it in busy.values()):
                return
            if time.monotonic() > deadline:
                raise Refused(
                    f"{self.address}: workers of an earlier driver still run: restart {', '.join(it for it in busy if busy[it])}"
                )
            if not has_said:
                say("waiting for the workers of an earlier driver to end their files")
                has_said = True
            time.sleep(0.2)

    def prepare(self) -> None:
        """Its workers run already."""

    def wait_for_a_worker(self) -> None:
        deadline = time.monotonic() + CONNECT_SECONDS
        while not self.threads() and time.monotonic() < deadline:
            time.sleep(0.2)

    def describe(self, call: dict) -> list[dict]:
        """What each worker is like. One that does not answer is asked again."""
        deadline = time.monotonic() + RESTART_SECONDS
        while True:
            answers = self.ask(perform_here, call)
            silent = {worker: it for worker, it in answers.items() if not isinstance(it, list)}
            if answers and not silent:
                return [it[0] for it in answers.values()]
            if time.monotonic() > deadline:
                break
            time.sleep(LOOK_SECONDS)
        raise FleetError(f"{self.address}: workers do not answer, restart them: {silent or 'there is none'}")

    def call(self, call: dict) -> list[dict] | None:
        """Does one call."""
        return next(self.run([call]))[1]

    def run(self, given: Iterable[dict]) -> Iterator[tuple[dict, list[dict] | None]]:
        """Does calls. Gives each with its results, in the order in which they end; None where its workers died."""
        from distributed import as_completed

        waiting, sent = iter(given), Sent(as_completed(with_results=True, raise_errors=False))
        try:
            while sent.count() < AHEAD * self.slots + 8 and self.send(next(waiting, None), sent):
                pass
            while sent.count():
                for future, result in sent.ended.next_batch(block=False):
                    call = sent.take(future)
                    if call is not None:
                        yield call, self.results(future, result)
                        self.send(next(waiting, None), sent)
                if not sent.ended.has_ready():
                    time.sleep(POLL_SECONDS)
                    self.free_stranded(sent)
        finally:
            sent.cancel()

    def send(self, call: dict | None, sent: "Sent") -> bool:
        """Submits a call, to another worker than those that it is to avoid, where there is one."""
        if call is None:
            return False
        there = self.threads()
        better = sorted(there.keys() - set(call.get("avoid", ())))
        only = better if 0 < len(better) < len(there) else None
        self.number += 1
        key = f"tink-fleet-{self.token}-{self.number}"
        with self.connected():
            sent.put(call, self.client.submit(perform_here, call, key=key, pure=False, workers=only), only)
        return True

    def free_stranded(self, sent: "Sent") -> None:
        """Submits again, to any worker, the calls whose workers have all left."""
        if self.client.status != "running":
            raise self.gone()
        if time.monotonic() < sent.looked + LOOK_SECONDS or not any(only for _, _, only in sent.out.values()):
            return
        sent.looked = time.monotonic()
        there = self.threads().keys()
        for key, (call, future, only) in list(sent.out.items()):
            if only and not there & set(only):
                del sent.out[key]
                with self.connected():
                    future.cancel()
                self.send({**call, "avoid": []}, sent)

    def gone(self) -> FleetError:
        return FleetError(
            f"{self.address}: the scheduler is gone: start it again, and run again; what is done stays done"
        )

    def results(self, future, result) -> list[dict] | None:
        from distributed import KilledWorker

        # The state of a future may go back, if the worker that has its result dies: the result that came counts.
        if isinstance(result, list):
            return result
        if future.cancelled() or self.client.status != "running":
            raise self.gone()
        error = result[1] if isinstance(result, tuple) else result
        if isinstance(error, KilledWorker):
            return None
        raise FleetError(f"{self.address}: a worker failed in an unexpected way: {error!r}")

    def close(self) -> None:
        with suppress(OSError):
            self.client.close()


class Sent:
    """The calls that are out, by the keys of their futures, and the only workers that each may go to."""

    def __init__(self, ended):
        self.ended = ended
        self.out: dict[str, tuple] = {}
        self.looked = 0.0

    def count(self) -> int:
        return len(self.out)

    def put(self, call: dict, future, only: list[str] | None) -> None:
        self.out[future.key] = (call, future, only)
        self.ended.add(future)

    def take(self, future) -> dict | None:
        """The call of a future that ended; None where it was submitted again."""
        return self.out.pop(future.key, (None,))[0]

    def cancel(self) -> None:
        # A scheduler that is gone has nothing to cancel.
        with suppress(OSError):
            for _, future, _ in self.out.values():
                future.cancel()


def runs_here() -> dict:
    """What this worker knows of runs: the current one of each fleet, and how many calls of which are at work."""
    from distributed import get_worker

    worker = get_worker()
    if not hasattr(worker, "tink_fleet_runs"):
        worker.tink_fleet_runs = {"current": {}, "busy": {}}
    return worker.tink_fleet_runs


def begin_run(fleet: str, run: str) -> int:
    """Makes a run the current one of its fleet. Returns how many calls of earlier ones are still at work here."""
    with RUNS:
        runs = runs_here()
        runs["current"][fleet] = run
        return sum(count for (of, other), count in runs["busy"].items() if of == fleet and other != run)


def perform_here(call: dict) -> list[dict]:
    """Does a call on this worker."""
    from distributed import get_worker

    job = call["job"]
    busy = (job["fleet"], job["run"])

    def may_go_on() -> bool:
        return runs["current"].get(job["fleet"], job["run"]) == job["run"]

    with RUNS:
        runs = runs_here()
        runs["busy"][busy] = runs["busy"].get(busy, 0) + 1
    try:
        return calls.perform(call, get_worker().address, may_go_on)
    finally:
        with RUNS:
            runs["busy"][busy] -= 1
