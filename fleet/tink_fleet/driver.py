"""The driver: lists the files, hands them to an engine, and alone appends to the record."""
import dataclasses
import sys
import time
from collections import Counter
from collections.abc import Callable, Iterable, Iterator
from dataclasses import dataclass, field
from typing import Protocol

from tink_fleet import calls, parts, places, program
from tink_fleet.errors import FleetError, Refused
from tink_fleet.manifest import Manifest
from tink_fleet.places import Item, is_url
from tink_fleet.locks import Lock
from tink_fleet.record import Entry, Record
from tink_fleet.tasks import Job, Outcome, Task

ATTEMPTS = 3
SECONDS_BETWEEN_LINES = 1.0


class Engine(Protocol):
    """What runs calls. It is a client of GNU parallel or of Dask."""

    slots: int

    def begin(self, fleet: str, run: str, say: Callable[[str], None]) -> None:
        ...

    def prepare(self) -> None:
        ...

    def describe(self, call: dict) -> list[dict]:
        ...

    def call(self, call: dict) -> list[dict] | None:
        ...

    def run(self, given: Iterable[dict]) -> Iterator[tuple[dict, list[dict] | None]]:
        ...

    def close(self) -> None:
        ...


@dataclass
class Summary:
    """How a run ended."""

    done: int = 0
    failed: int = 0
    skipped: int = 0
    adopted: int = 0
    bytes: int = 0
    seconds: float = 0.0
    primary: int | None = None
    failures: list[str] = field(default_factory=list)
    # How many files are under each key, those too that were skipped.
    keys: Counter[int | None] = field(default_factory=Counter)


@dataclass
class Steps:
    """How steps of a large file ended: by one outcome, and with the plan of a probe and the SHA-256 of a hash."""

    outcome: Outcome
    plan: dict | None
    sha256: str | None


MOST_FAILURES_SHOWN = 20


def size_at(place: str) -> int | None:
    """The bytes of a file, or None where it cannot be looked at: its task is done, and fails alone by that."""
    try:
        return places.size_of(place)
    except OSError:
        return None


class Driver:
    """One run over a manifest."""

    def __init__(
        self, manifest: Manifest, engine_of: Callable[[str], Engine], *, again: bool = False, quiet: bool = False
    ):
        self.manifest = manifest
        self.engine_of = engine_of
        self.again = again
        self.quiet = quiet
        self.summary = Summary()
        self.large: list[Task] = []
        self.has_lost = False
        self.shown = 0.0
        self.total = 0
        # Kept apart, since a thread of the engine may list the files.
        self.skipped_keys: Counter[int | None] = Counter()

    def say(self, text: str) -> None:
        if not self.quiet:
            print(f"fleet: {text}", file=sys.stderr, flush=True)

    def run(self) -> Summary:
        """Does all that is not done.

        # Errors
        `Refused` where another driver is at work. `FleetError` where the record is of other work, or a worker lacks
        the program or the keys.
        """
        began = time.monotonic()
        lock = Lock(self.manifest.state)
        try:
            self.record = Record(self.manifest, self.again)
            try:
                self.tell_history()
                self.engine = self.engine_of(self.manifest.state)
                try:
                    self.work()
                finally:
                    self.engine.close()
                self.summary.seconds = time.monotonic() - began
                ends = ("done", "failed", "skipped", "bytes", "seconds")
                self.record.end({word: getattr(self.summary, word) for word in ends})
            finally:
                self.record.close()
        finally:
            lock.close()
        return self.summary

    def tell_history(self) -> None:
        history = self.record.history
        if history.torn:
            self.say(f"{self.record.path}: the last line was torn; its file is done again")
        if history.damaged:
            self.say(f"{self.record.path}: damaged lines {history.damaged[:10]}; their files are done again")

    def work(self) -> None:
        self.engine.begin(self.record.history.fleet, self.record.run, self.say)
        self.engine.prepare()
        if not self.record.history.has_ended:
            self.sweep()
        self.job = self.agreed(self.new_job())
        self.summary.primary = self.job.primary
        retries = self.round(self.batches(), is_last=False)
        self.record.append([{"total": self.total}])
        for attempt in range(2, ATTEMPTS + 1):
            if retries:
                self.next_round(attempt)
                retries = self.round(iter(retries), is_last=attempt == ATTEMPTS)
        for task in self.large:
            self.split(task)
        if self.has_lost:
            self.sweep()
        self.summary.keys += self.skipped_keys

    def next_round(self, attempt: int) -> None:
        """Another token, which ends workers that are lost and yet run."""
        self.job = dataclasses.replace(self.job, run=f"{self.record.run}.{attempt}")
        self.engine.begin(self.job.fleet, self.job.run, self.say)

    def new_job(self) -> Job:
        it = self.manifest
        if it.keys is None:
            raise FleetError(
                f"{it.file}: `keys` is missing: name a file of keys that each worker has, or give -k - on one machine"
            )
        return Job(
            self.record.history.fleet,
            self.record.run,
            it.operation,
            it.program,
            it.keys,
            it.master,
            it.master_aad,
            it.to_keys,
            it.scratch,
        )

    def agreed(self, job: Job) -> Job:
        """The job with the primary key that all workers have.

        # Errors
        `FleetError` where a worker lacks the program, the keys or a command, or has other keys than the rest.
        """
        told = self.engine.describe(calls.describe_call(job))
        needs = program.NEEDS[job.operation] + (["--master"] if job.master else [])
        for it in told:
            if "error" in it:
                raise FleetError(f"worker {it['worker']}: {it['error']}")
            if it["code"] != calls.package_hash():
                raise FleetError(f"worker {it['worker']}: it runs another version of fleet: restart it")
            missing = [name for name in needs if name not in it["commands"]]
            if missing:
                raise FleetError(
                    f"worker {it['worker']}: {it['program']} ({it['version']}) is too old for this: "
                    f"its `tink help` does not name `{'`, `'.join(missing)}`; install a newer one"
                )
        primaries = {it["primary"] for it in told}
        if len(primaries) != 1:
            rows = ", ".join(f"{it['worker']} has {it['primary']}" for it in told)
            raise FleetError(
                f"{job.to_keys or job.keys}: the workers have different primary keys ({rows}): bring the same file to all"
            )
        self.can_split = all("info" in it["commands"] for it in told)
        return dataclasses.replace(job, primary=primaries.pop())

    def items(self) -> Iterator[Item]:
        it = self.manifest
        yield from places.items(it.source, it.include, it.exclude, it.state)

    def todo(self) -> Iterator[Task]:
        """The tasks that are not done, in the order of their names."""
        for item in self.items():
            self.total += 1
            task, entry = self.task(item), self.record.history.entries.get(item.path)
            if entry is not None and entry.state == "done" and self.is_done(task, entry):
                self.summary.skipped += 1
                self.skipped_keys[entry.key] += 1
            elif self.is_large(task):
                self.large.append(task)
            else:
                yield task

    def task(self, item: Item) -> Task:
        it = self.manifest
        source = places.join(it.source, item.path)
        if it.operation == "check":
            target = None
        elif it.in_place:
            target = source
        else:
            path = it.target_path(item.path)
            target = None if path is None else places.join(it.target, path)
        entry = self.record.history.entries.get(item.path)
        # What this fleet made may be made again; what is there from elsewhere only where the manifest says so.
        is_ours = entry is not None and entry.state == "done" and target not in (None, source)
        replaces = it.replace or (is_ours and size_at(target) == entry.size)
        return Task(
            item.path, source, target, it.aad_of(item.path), it.to_aad_of(item.path), item.size, item.mtime, replaces
        )

    def is_done(self, task: Task, entry: Entry) -> bool:
        """Whether what the record calls done is still there, and of the same source and the same key."""
        if size_at(task.target or task.source) != entry.size:
            return False
        if self.manifest.operation == "rewrap" and entry.key not in (None, self.job.primary):
            return False
        return (entry.source_size, entry.source_mtime) == (task.size, task.mtime)

    def is_large(self, task: Task) -> bool:
        return (
            self.manifest.operation == "decrypt"
            and task.target is not None
            and task.size >= self.manifest.split_bytes
            and self.can_split
            and self.engine.slots > 1
            and not is_url(task.source)
            and not is_url(task.target)
            and (task.replaces or size_at(task.target) is None)
        )

    def batches(self) -> Iterator[dict]:
        """The tasks in calls: as many as the manifest says by number and by bytes, few at the beginning."""
        batch: list[Task] = []
        size = sent = 0
        for task in self.todo():
            batch.append(task)
            size += task.size
            # A short list is spread over all slots.
            most = min(self.manifest.batch_files, 1 + sent // (4 * max(1, self.engine.slots)))
            if len(batch) >= most or size >= self.manifest.batch_bytes:
                sent += len(batch)
                yield calls.batch_call(self.job, batch)
                batch, size = [], 0
        if batch:
            yield calls.batch_call(self.job, batch)

    def round(self, given: Iterator[dict], is_last: bool) -> list[dict]:
        """Does calls and records what ended. Returns calls of one task each for what may be tried again."""
        again: list[dict] = []
        for call, results in self.engine.run(self.stamped(given)):
            outcomes = [Outcome(**it) for it in results or []]
            ended = {it.path for it in outcomes}
            lost = [it for it in call["tasks"] if it["path"] not in ended]
            self.has_lost = self.has_lost or bool(lost)
            if is_last:
                outcomes += [self.died(it) for it in lost]
            else:
                again += [self.retried(call, it, None) for it in lost]
                tasks = {it["path"]: it for it in call["tasks"]}
                again += [self.retried(call, tasks[it.path], it.worker) for it in outcomes if it.retry]
                outcomes = [it for it in outcomes if not it.retry]
            self.add(outcomes)
        return again

    def stamped(self, given: Iterator[dict]) -> Iterator[dict]:
        """The calls with the job of this round."""
        for call in given:
            yield {**call, "job": vars(self.job)}

    def retried(self, call: dict, task: dict, worker: str | None) -> dict:
        avoid = [*call.get("avoid", []), *([worker] if worker else [])]
        return {**calls.batch_call(self.job, [Task(**task)]), "avoid": avoid}

    def died(self, task: dict) -> Outcome:
        """The outcome of a task whose workers died at each attempt."""
        line = f"{task['source']}: its worker died {ATTEMPTS} times: read {self.manifest.state}/engine.log, or the log of the cluster, and run again"
        return Outcome(task["path"], "failed", round(time.time(), 3), 0.0, "", self.left(task), line=line)

    def left(self, task: dict) -> str:
        """What a worker that died left under the target's name: it may have published before it died."""
        place = task["target"] or task["source"]
        if size_at(place) is None:
            return "absent"
        rests = places.identity(place)[-2:] == (task["size"], task["mtime"])
        return "old" if rests and task["target"] in (None, task["source"]) else "unknown"

    def add(self, outcomes: list[Outcome]) -> None:
        if outcomes:
            self.record.add(outcomes)
        for it in outcomes:
            if it.state == "done":
                self.summary.done += 1
                self.summary.adopted += it.adopted
                self.summary.bytes += it.size or 0
                self.summary.keys[it.key] += 1
            else:
                self.summary.failed += 1
                if len(self.summary.failures) < MOST_FAILURES_SHOWN:
                    self.summary.failures.append(f"{it.path}: {it.line}")
        self.show()

    def show(self) -> None:
        """On a terminal, a line that is written again each second."""
        now = time.monotonic()
        if self.quiet or not sys.stderr.isatty() or now - self.shown < SECONDS_BETWEEN_LINES:
            return
        self.shown = now
        it = self.summary
        print(
            f"\rfleet: {it.done} done, {it.failed} failed, {it.skipped} skipped, {it.bytes / 1e6:.0f} MB ",
            end="",
            file=sys.stderr,
            flush=True,
        )

    def sweep(self) -> None:
        """Removes drafts that killed workers left. No worker of this fleet runs now."""
        root = self.manifest.target or (self.manifest.source if self.manifest.in_place else None)
        if root is not None and not is_url(root):
            count = places.sweep(root, self.record.history.fleet)
            if count:
                self.say(f"{root}: {count} drafts of killed workers were removed")

    def split(self, task: Task) -> None:
        """Decrypts one large file by ranges and hashes its stream, each in a process of its own."""
        clock = time.monotonic()
        made = self.steps([calls.step_call(self.job, task, "probe")])
        if made.plan is not None and made.outcome.state == "done":
            plan, made = made.plan, self.steps(self.shares(task, made.plan))
            if made.outcome.state == "done":
                made = self.steps([calls.step_call(self.job, task, "finish", plan, sha256=made.sha256)])
            if made.outcome.state != "done":
                self.steps([calls.step_call(self.job, task, "discard", plan)])
        outcome = made.outcome
        outcome.time, outcome.seconds = round(time.time(), 3), round(time.monotonic() - clock, 4)
        self.add([outcome])

    def shares(self, task: Task, plan: dict) -> list[dict]:
        """The hash of the stream, which takes longest and so begins first, and the ranges."""
        size = parts.part_size(plan["plaintext"], self.engine.slots, self.manifest.part_bytes)
        cuts = parts.ranges(plan["plaintext"], size)
        made = [calls.step_call(self.job, task, "hash", plan)]
        return made + [calls.step_call(self.job, task, "part", plan, start=it, length=length) for it, length in cuts]

    def results(self, given: list[dict]) -> Iterable[tuple[dict, list[dict] | None]]:
        stamped = list(self.stamped(iter(given)))
        return self.engine.run(stamped) if len(stamped) > 1 else [(it, self.engine.call(it)) for it in stamped]

    def steps(self, given: list[dict]) -> Steps:
        """Does steps, each up to three times. Returns the last outcome, or that of a step which failed."""
        failed: Outcome | None = None
        last, plan, sha256 = None, None, None
        for attempt in range(1, ATTEMPTS + 1):
            again = []
            for call, results in self.results(given):
                found = Outcome(**results[0]["outcome"]) if results else self.died(call["task"])
                plan = results[0]["plan"] if results else plan
                sha256 = found.sha256 or sha256
                last = found
                if found.state == "done":
                    continue
                self.has_lost = self.has_lost or not results
                if attempt < ATTEMPTS and (found.retry or not results):
                    again.append({**call, "avoid": [found.worker] if found.worker else []})
                else:
                    failed = failed or found
            if failed or not again:
                break
            given = again
            self.next_round(attempt + 1)
        if last is None:
            raise Refused("the engine gave no answer: run again")
        return Steps(failed or last, plan, sha256)
