"""The record of a fleet: one line of JSON for each task that ended, appended by the driver alone."""
import errno
import json
import os
import re
import sys
import time
from dataclasses import dataclass, field

from tink_fleet.errors import FleetError
from tink_fleet.manifest import Manifest
from tink_fleet.tasks import Outcome

SYNC_SECONDS = 1.0


@dataclass(slots=True)
class Entry:
    """What the record says last of one path."""

    state: str
    size: int | None
    key: int | None
    source_size: int | None
    source_mtime: int | None
    line: str | None = None
    target: str = ""


@dataclass
class History:
    """A record as it was read. `whole` counts the bytes up to the last whole line."""

    fleet: str = ""
    work: dict = field(default_factory=dict)
    entries: dict[str, Entry] = field(default_factory=dict)
    runs: list[dict] = field(default_factory=list)
    has_ended: bool = True
    whole: int = 0
    torn: int = 0
    damaged: list[int] = field(default_factory=list)


def work_of(manifest: Manifest) -> dict:
    """What a record is bound to: another operation, folder or pattern needs another record."""
    words = ("operation", "source", "target", "suffix", "aad", "to_aad")
    return {word: getattr(manifest, word) for word in words if getattr(manifest, word) is not None}


def record_path(state: str) -> str:
    return os.path.join(state, "record.jsonl")


def read_record(state: str) -> History:
    """Reads a record. A last line that is torn counts as not written, and so does a damaged one."""
    history = History()
    try:
        lines = open(record_path(state), "rb")
    except FileNotFoundError:
        return history
    with lines:
        for number, line in enumerate(lines, 1):
            if not line.endswith(b"\n"):
                history.torn = len(line)
                break
            history.whole += len(line)
            try:
                read_line(history, json.loads(line))
            except (ValueError, LookupError, TypeError, AttributeError, RecursionError):
                history.damaged.append(number)
    return history


def read_line(history: History, line: dict) -> None:
    if "fleet" in line:
        fleet, work = of_type(line, "fleet", str), of_type(line, "work", dict)
        if not re.fullmatch("[0-9a-f]{8}", fleet) or history.fleet not in ("", fleet):
            raise ValueError("the line of another fleet")
        history.fleet, history.work = fleet, work
    elif "run" in line:
        history.runs.append({"run": of_type(line, "run", str), "time": of_type(line, "time", float, int)})
        history.has_ended = False
    elif "end" in line:
        history.runs[-1]["end"] = of_type(line, "end", dict)
        history.has_ended = True
    elif "total" in line:
        history.runs[-1]["total"] = of_type(line, "total", int)
    else:
        numbers = [of_type(line, word, int, type(None)) for word in ("size", "key", "source_size", "source_mtime")]
        made = Entry(
            sys.intern(of_type(line, "state", str)),
            *numbers,
            of_type(line, "line", str, type(None)),
            sys.intern(of_type(line, "target", str)),
        )
        when = of_type(line, "time", float, int)
        if made.state not in ("done", "failed"):
            raise ValueError("an unknown state")
        history.entries[of_type(line, "path", str)] = made
        count(history.runs[-1] if history.runs else {}, made, when)


def of_type(line: dict, word: str, *types: type):
    """The value of a word, where it has one of these types. A foreign line has others."""
    value = line.get(word)
    if not isinstance(value, types) or isinstance(value, bool):
        raise ValueError(f"`{word}` has a value of the wrong type")
    return value


def count(run: dict, entry: Entry, when: float) -> None:
    """Keeps the sums that the speed of a run is computed of."""
    run["last"] = max(run.get("last", 0.0), when)
    if entry.state == "done":
        run["files"] = run.get("files", 0) + 1
        run["done_bytes"] = run.get("done_bytes", 0) + (entry.size or 0)


def unwritten(e: OSError, path: str) -> FleetError:
    remedy = "make room there" if e.errno in (errno.ENOSPC, errno.EDQUOT) else "correct this"
    return FleetError(f"{path}: {e.strerror}: {remedy}, and run again; what was done stays done")


class Record:
    """A record that is appended to. The lock is held."""

    def __init__(self, manifest: Manifest, again: bool = False):
        self.path = record_path(manifest.state)
        if again and os.path.exists(self.path):
            os.replace(self.path, f"{self.path}.{int(time.time())}.{os.urandom(2).hex()}")
        self.history = read_record(manifest.state)
        self.check_work(work_of(manifest))
        self.file = os.open(self.path, os.O_CREAT | os.O_WRONLY | os.O_CLOEXEC, 0o600)
        os.ftruncate(self.file, self.history.whole)
        os.lseek(self.file, 0, os.SEEK_END)
        self.synced = 0.0
        self.run = os.urandom(8).hex()
        if not self.history.fleet:
            self.history.fleet = os.urandom(4).hex()
            self.append([{"fleet": self.history.fleet, "version": 1, "work": work_of(manifest)}])
        self.append([{"run": self.run, "time": round(time.time(), 3)}])

    def check_work(self, work: dict) -> None:
        held = self.history.work
        for word in sorted(held.keys() | work.keys()):
            if held and held.get(word) != work.get(word):
                raise FleetError(
                    f"{self.path}: it is the record of other work, whose `{word}` is {held.get(word)!r}: name another `state`, or run with --again"
                )

    def append(self, lines: list[dict]) -> None:
        data = memoryview("".join(json.dumps(it, separators=(",", ":")) + "\n" for it in lines).encode())
        try:
            while data:
                data = data[os.write(self.file, data) :]
        except OSError as e:
            raise unwritten(e, self.path) from e
        if time.monotonic() - self.synced > SYNC_SECONDS:
            self.sync()

    def sync(self) -> None:
        try:
            os.fsync(self.file)
        except OSError as e:
            raise unwritten(e, self.path) from e
        self.synced = time.monotonic()

    def add(self, outcomes: list[Outcome]) -> None:
        self.append([it.record() for it in outcomes])

    def end(self, counts: dict) -> None:
        self.append([{"end": counts}])
        self.sync()

    def close(self) -> None:
        os.close(self.file)
