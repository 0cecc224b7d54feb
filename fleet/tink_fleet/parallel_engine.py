"""The engine for one machine: GNU parallel."""
import fcntl
import json
import os
import shutil
import subprocess
import sys
import threading
import time
from collections.abc import Iterable, Iterator
from itertools import chain

from tink_fleet import calls
from tink_fleet.errors import FleetError, Refused
from tink_fleet.program import KEYS_FD

# GNU parallel begins when it has a line for each slot, so that more lines than slots have to be out.
AHEAD = 4
# GNU parallel puts numbers in place of `{}` and of more than that in its command, which a path may have.
START = 'exec "$TINK_FLEET_PYTHON" "$TINK_FLEET" worker "$TINK_FLEET_STATE" "$1"'
PATIENCE_SECONDS = 600.0


class ParallelEngine:
    """Hands the number of each call to GNU parallel, which runs `fleet worker STATE NUMBER` for it."""

    def __init__(self, state: str, slots: int, keys_fd: int | None = None):
        if shutil.which("parallel") is None:
            raise FleetError("parallel: GNU parallel is not installed: install `parallel`, or give --scheduler")
        self.state = state
        self.slots = slots
        self.keys_fd = keys_fd
        self.folder = os.path.join(state, "calls")
        self.log = os.path.join(state, "engine.log")
        self.spare: subprocess.Popen | None = None
        with open(self.log, "wb"):
            pass

    def begin(self, fleet: str, run: str, say) -> None:
        """Ends the workers of a driver that is no more: they stop after the file that they are at."""
        os.makedirs(self.folder, mode=0o700, exist_ok=True)
        write_whole(os.path.join(self.state, "run"), run.encode())
        for name in os.listdir(self.folder):
            os.unlink(os.path.join(self.folder, name))
        fd = os.open(os.path.join(self.state, "workers"), os.O_CREAT | os.O_RDWR | os.O_CLOEXEC, 0o600)
        try:
            deadline, has_said = time.monotonic() + PATIENCE_SECONDS, False
            while True:
                try:
                    fcntl.flock(fd, fcntl.LOCK_EX | fcntl.LOCK_NB)
                    break
                except BlockingIOError:
                    if time.monotonic() > deadline:
                        raise Refused(
                            f"{self.state}/workers: workers of an earlier driver still run: end them, and run again"
                        ) from None
                    if not has_said:
                        say("waiting for the workers of an earlier driver to end their files")
                        has_said = True
                    time.sleep(0.1)
        finally:
            os.close(fd)

    def prepare(self) -> None:
        """Starts a GNU parallel, which takes a while, before the calls are known."""
        self.spare = self.spare or self.started()

    def started(self) -> subprocess.Popen:
        """GNU parallel, which waits for the numbers of calls."""
        launcher = os.path.join(os.path.dirname(os.path.dirname(os.path.abspath(__file__))), "fleet")
        words = ["parallel", "--plain", "-q", "--line-buffer", f"--jobs={self.slots}", "sh", "-c", START, "sh", "{}"]
        fds = () if self.keys_fd is None else (self.keys_fd,)
        more = {} if self.keys_fd is None else {KEYS_FD: str(self.keys_fd)}
        more |= {"TINK_FLEET_PYTHON": sys.executable, "TINK_FLEET": launcher, "TINK_FLEET_STATE": self.state}
        with open(self.log, "ab") as log:
            return subprocess.Popen(
                words,
                stdin=subprocess.PIPE,
                stdout=subprocess.PIPE,
                stderr=log,
                pass_fds=fds,
                env={**os.environ, "PARALLEL_SHELL": "/bin/sh", **more},
            )

    def taken(self) -> subprocess.Popen:
        """The GNU parallel that is prepared, else a new one."""
        spare, self.spare = self.spare, None
        return spare or self.started()

    def describe(self, call: dict) -> list[dict]:
        """What the workers of this machine are like: they are all as this process."""
        return calls.perform(call)

    def call(self, call: dict) -> list[dict] | None:
        """Does one call in this process, which is faster than a start of GNU parallel."""
        return calls.perform(call)

    def run(self, given: Iterable[dict]) -> Iterator[tuple[dict, list[dict] | None]]:
        """Does calls. Gives each with its results, in the order in which they end; None where its worker died."""
        waiting = iter(given)
        first = next(waiting, None)
        if first is None:
            return
        feeder = Feeder(self, chain([first], waiting))
        try:
            feeder.thread.start()
            for line in feeder.running.stdout:
                found = json.loads(line)
                call = feeder.take(found["number"])
                if call is not None:
                    yield call, found["results"]
            feeder.running.wait()
            feeder.thread.join()
            if feeder.error is not None:
                raise feeder.error
            for call in list(feeder.out.values()):
                yield call, None
        finally:
            feeder.stop()

    def close(self) -> None:
        if self.spare is not None:
            # Without a line it ends by itself, and with it what it started.
            self.spare.communicate()
            self.spare = None
        shutil.rmtree(self.folder, ignore_errors=True)


class Feeder:
    """Writes calls into files and their numbers to GNU parallel, from a thread, some calls ahead."""

    def __init__(self, engine: ParallelEngine, given: Iterable[dict]):
        self.engine = engine
        self.given = given
        self.out: dict[int, dict] = {}
        self.error: BaseException | None = None
        self.room = threading.Semaphore(AHEAD * engine.slots + 8)
        self.is_stopped = False
        self.running = engine.taken()
        self.thread = threading.Thread(target=self.feed, daemon=True)

    def feed(self) -> None:
        try:
            for number, call in enumerate(self.given):
                self.room.acquire()
                if self.is_stopped:
                    return
                self.out[number] = call
                write_named(self.path(number), json.dumps(call).encode("ascii"))
                self.running.stdin.write(f"{number}\n".encode())
                self.running.stdin.flush()
        except BrokenPipeError:
            pass
        except BaseException as e:
            self.error = e
        finally:
            try:
                self.running.stdin.close()
            except BrokenPipeError:
                pass

    def path(self, number: int) -> str:
        return os.path.join(self.engine.folder, f"{number}.json")

    def take(self, number: int) -> dict | None:
        """The call of a number, which is out no more. A number that comes twice has none."""
        call = self.out.pop(number, None)
        if call is not None:
            os.unlink(self.path(number))
            self.room.release()
        return call

    def stop(self) -> None:
        self.is_stopped = True
        self.room.release()
        # At the second signal GNU parallel ends its jobs.
        for _ in range(2):
            if self.running.poll() is None:
                self.running.terminate()
                time.sleep(0.1)
        self.running.stdout.close()
        self.running.wait()
        self.thread.join()
        for number in list(self.out):
            try:
                os.unlink(self.path(number))
            except FileNotFoundError:
                pass


def write_whole(path: str, data: bytes) -> None:
    write_named(path + ".new", data)
    os.replace(path + ".new", path)


def write_named(path: str, data: bytes) -> None:
    """Writes a file. An error, as of a full disk, names it."""
    try:
        with open(path, "wb") as file:
            file.write(data)
    except OSError as e:
        raise OSError(e.errno, e.strerror, path) from e
