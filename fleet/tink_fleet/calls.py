"""Calls: what a driver asks of a worker, as plain values that JSON and Dask carry."""
import hashlib
import os
import threading
from collections.abc import Callable
from functools import lru_cache

from tink_fleet import parts, program
from tink_fleet.errors import FleetError, TaskError
from tink_fleet.tasks import Job, Outcome, Task, Worker


def batch_call(job: Job, tasks: list[Task]) -> dict:
    return {"do": "batch", "job": vars(job), "tasks": [vars(it) for it in tasks]}


def step_call(job: Job, task: Task, do: str, plan: dict | None = None, **more) -> dict:
    """A step of a large file: `probe`, `hash`, `part` with `start` and `length`, `finish` with `sha256`, `discard`."""
    return {"do": do, "job": vars(job), "task": vars(task), "plan": plan, **more}


def describe_call(job: Job) -> dict:
    return {"do": "describe", "job": vars(job)}


@lru_cache(maxsize=256)
def worker_of(job: Job, name: str | None, thread: int) -> Worker:
    """The worker of a thread, which keeps what it listed of the keys."""
    return Worker(job, name)


def perform(call: dict, name: str | None = None, may_go_on: Callable[[], bool] = lambda: True) -> list[dict]:
    """Does a call in this process. An error that concerns the whole worker fails each task, which may go elsewhere."""
    job = Job(**call["job"])
    if call["do"] == "describe":
        return [describe(job, name)]
    try:
        worker = worker_of(job, name, threading.get_ident())
        if call["do"] == "batch":
            return [vars(it) for it in worker.batch([Task(**it) for it in call["tasks"]], may_go_on)]
        return [parts.step(worker, call)]
    except FleetError as e:
        failed = [vars(unable(it, name, str(e))) for it in call.get("tasks", [call.get("task")])]
        return failed if call["do"] == "batch" else [{"outcome": failed[0], "plan": None}]


def unable(task: dict, name: str | None, line: str) -> Outcome:
    there = "old" if task["target"] == task["source"] else "unknown"
    return Outcome(task["path"], "failed", 0.0, 0.0, name or "", there, line=line, retry=True)


def describe(job: Job, name: str | None) -> dict:
    """What a driver has to know of a worker before it hands out work."""
    told = {"worker": name or f"{os.uname().nodename}:{os.getpid()}", "code": package_hash()}
    try:
        path = program.find_program(job.program)
        if job.master:
            program.require(path, ["--master"], "a wrapped file of keys")
        listed = program.list_keys(path, job.source_keys)
        target = program.list_keys(path, job.target_keys) if job.to_keys else listed
        told |= {"program": path, "version": program.version(path), "commands": sorted(program.commands(path))}
        told |= {"primary": target.primary, "keys": {str(id_): status for id_, status in listed.statuses.items()}}
    except FleetError as e:
        told["error"] = str(e)
    except TaskError as e:
        told["error"] = e.line
    except OSError as e:
        told["error"] = f"{e.filename}: {e.strerror}"
    return told


def package_files() -> dict[str, bytes]:
    folder = os.path.dirname(os.path.abspath(__file__))
    names = sorted(it for it in os.listdir(folder) if it.endswith(".py"))
    found = {}
    for name in names:
        with open(os.path.join(folder, name), "rb") as text:
            found[name] = text.read()
    return found


def package_hash() -> str:
    """Says which version of this package runs: its own, or that in the name of the archive that it came in."""
    place = os.path.abspath(__file__)
    if ".zip/" in place:
        return place.split(".zip/")[0].rsplit("-", 1)[-1]
    made = hashlib.sha256()
    for name, text in package_files().items():
        made.update(f"{name} {len(text)}\n".encode() + text)
    return made.hexdigest()[:16]
