"""How far a fleet is, read from its record and its source."""
import time
from dataclasses import asdict, dataclass, field

from tink_fleet import places
from tink_fleet.errors import shown
from tink_fleet.manifest import Manifest
from tink_fleet.locks import is_driven
from tink_fleet.record import History, read_record


@dataclass
class Status:
    """Numbers of files, speeds of the last run, and the failures by their lines."""

    done: int = 0
    failed: int = 0
    left: int = 0
    left_bytes: int = 0
    is_running: bool = False
    # None where it is unknown, as where the clock went back.
    bytes_per_second: float | None = None
    files_per_second: float | None = None
    seconds_left: float | None = None
    failures: dict[str, str] = field(default_factory=dict)


def status_of(manifest: Manifest) -> Status:
    """Lists the source, and looks up each file in the record. It takes no lock."""
    history = read_record(manifest.state)
    made = Status(is_running=is_driven(manifest.state))
    for item in places.items(manifest.source, manifest.include, manifest.exclude, manifest.state):
        entry = history.entries.get(item.path)
        if entry is not None and entry.state == "done":
            made.done += 1
        elif entry is not None:
            made.failed += 1
            made.failures[item.path] = f"{entry.line} (target: {entry.target})"
        else:
            made.left += 1
            made.left_bytes += item.size
    speeds(made, history)
    return made


def speeds(made: Status, history: History) -> None:
    if not history.runs:
        return
    run = history.runs[-1]
    seconds = (time.time() if made.is_running else run.get("last", run["time"])) - run["time"]
    told = run.get("end", {}).get("seconds")
    if isinstance(told, float):
        # A clock that no one sets measured it.
        seconds = told
    if seconds <= 0:
        return
    made.bytes_per_second = run.get("done_bytes", 0) / seconds
    made.files_per_second = run.get("files", 0) / seconds
    if made.left and made.files_per_second:
        by_bytes = made.left_bytes / made.bytes_per_second if made.bytes_per_second else 0.0
        made.seconds_left = max(by_bytes, made.left / made.files_per_second) if not by_bytes else by_bytes


def lines_of(made: Status) -> list[str]:
    lines = [
        f"done     {made.done}",
        f"failed   {made.failed}",
        f"left     {made.left} ({made.left_bytes / 1e6:.1f} MB)",
        f"speed    {speed_of(made)}",
        f"driver   {'at work' if made.is_running else 'none'}",
    ]
    if made.seconds_left is not None:
        lines.append(f"time left {made.seconds_left:.0f} s")
    return lines + [shown(f"FAILED   {path}: {line}") for path, line in made.failures.items()]


def speed_of(made: Status) -> str:
    if made.bytes_per_second is None or made.files_per_second is None:
        return "unknown"
    return f"{made.bytes_per_second / 1e6:.1f} MB/s, {made.files_per_second:.1f} files/s"


def as_json(made: Status) -> dict:
    return asdict(made)
