"""One large file that several processes decrypt: each a range of its text, into one draft."""
import os
from collections.abc import Iterator
from contextlib import contextmanager
from dataclasses import dataclass

from tink_fleet import places, program
from tink_fleet.errors import TaskError
from tink_fleet.tasks import Outcome, Task, Worker, check_place, fds_of, opened, told

# The longest output prefix and header of a stream: salt and nonce prefix are in it, so that no two streams share it.
FRONT = 45
MIB = 1 << 20
LEAST_PART, MOST_PART = 16 * MIB, 512 * MIB
# One process hashes the stream meanwhile, so that the others share parts that are small beside that.
PARTS_OF_A_PROCESS = 3


@dataclass(frozen=True)
class Plan:
    """What all parts of a file share. `front`, `size`, `mtime` and `source_inode` say which stream it is."""

    draft: str
    inode: int
    plaintext: int
    key: int
    front: str
    size: int
    mtime: int
    source_inode: int

    @property
    def stream(self) -> tuple[str, int, int, int]:
        return self.front, self.size, self.mtime, self.source_inode


def part_size(plaintext: int, slots: int, wanted: int | None) -> int:
    """The bytes of a part: some parts for each process, in whole MiB, and more where a part would be too large.

    A part costs the start of a worker, so that no part is tiny.
    """
    if wanted:
        return wanted
    count = slots * max(PARTS_OF_A_PROCESS, -(-plaintext // (slots * MOST_PART)))
    return max(-(-plaintext // (count * MIB)) * MIB, LEAST_PART)


def ranges(plaintext: int, size: int) -> list[tuple[int, int]]:
    """The starts and lengths that cover a text without a gap or an overlap."""
    return [(start, min(size, plaintext - start)) for start in range(0, plaintext, size)]


def probe(worker: Worker, task: Task) -> Plan:
    """Opens the first and the last segment, and makes the draft with its whole length."""
    keys = worker.job.source_keys
    with opened(task.source, None) as (file, fd):
        before = state(fd)
        found = program.info(worker.program, keys, task.aad, file, fds_of(file, fd))
        if state(fd) != before:
            raise changed(task)
    check_place(task, [keys])
    folder = os.path.dirname(task.target)
    os.makedirs(folder, exist_ok=True)
    draft = os.path.join(folder, f"{places.DRAFT}{worker.job.fleet}-{os.urandom(8).hex()}")
    held = os.open(draft, os.O_CREAT | os.O_EXCL | os.O_WRONLY | os.O_CLOEXEC, 0o600)
    try:
        os.ftruncate(held, found.plaintext)
        inode = os.fstat(held).st_ino
    finally:
        os.close(held)
    return Plan(draft, inode, found.plaintext, found.key, *before)


def state(fd: int) -> tuple[str, int, int, int]:
    found = os.fstat(fd)
    return os.pread(fd, FRONT, 0).hex(), found.st_size, found.st_mtime_ns, found.st_ino


def changed(task: Task) -> TaskError:
    return TaskError(f"{task.source}: it was changed while it was read: run again when it rests", retry=True)


@contextmanager
def resting(task: Task, plan: Plan) -> Iterator[int]:
    """The descriptor of the source, which has to be the stream of the plan before and after."""
    source = os.open(task.source, os.O_RDONLY | os.O_CLOEXEC)
    try:
        expect_rest(source, task, plan)
        try:
            yield source
        finally:
            # An error of the program may come of a change too.
            expect_rest(source, task, plan)
    finally:
        os.close(source)


def expect_rest(source: int, task: Task, plan: Plan) -> None:
    if state(source) != plan.stream or os.stat(task.source).st_ino != plan.source_inode:
        raise changed(task)


def digest(task: Task, plan: Plan) -> str:
    """The SHA-256 of the whole stream, which is read beside the ranges."""
    with resting(task, plan) as source:
        return places.digest(source, task.source)


def part(worker: Worker, task: Task, plan: Plan, start: int, length: int) -> None:
    """Decrypts a range into its place of the draft. The bytes of another stream are refused."""
    held = os.open(plan.draft, os.O_WRONLY | os.O_CLOEXEC)
    try:
        with resting(task, plan) as source:
            written = put(worker, task, (start, length), source, held)
        if written != length:
            raise TaskError(
                f"{task.source}: {written} bytes of a range of {length} were written: run again", retry=True
            )
        os.fsync(held)
    finally:
        os.close(held)


def put(worker: Worker, task: Task, cut: tuple[int, int], source: int, held: int) -> int:
    """Lets the program write a range into its place. Returns how many bytes it wrote."""
    keys, (start, length) = worker.job.source_keys, cut
    # The program writes from the place on that it shares with this process.
    os.lseek(held, start, os.SEEK_SET)
    words = ["range", "-q", *keys.words("-k"), "--aad", task.aad, "--start", str(start), "--length", str(length)]
    try:
        program.run(worker.program, [*words, f"/dev/fd/{source}"], keys=[keys], stdout=held, more_fds=(source,))
    except TaskError as e:
        e.line = e.line.replace(f"/dev/fd/{source}:", f"{task.source}:").replace("standard output", task.target)
        raise
    return os.lseek(held, 0, os.SEEK_CUR) - start


def finish(task: Task, plan: Plan, sha256: str | None, outcome: Outcome) -> None:
    """Gives the draft the target's name, after all parts were written and the stream was hashed."""
    if sha256 is None:
        raise TaskError(f"{task.source}: it was not hashed: run again", retry=True)
    if not is_published(task, plan):
        size = os.stat(plan.draft).st_size
        if size != plan.plaintext:
            raise TaskError(f"{plan.draft}: it has {size} bytes in place of {plan.plaintext}: run again", retry=True)
        with resting(task, plan):
            pass
        publish(task, plan)
    discard(plan)
    places.sync_folders({os.path.dirname(task.target)})
    outcome.size, outcome.key, outcome.sha256 = plan.plaintext, plan.key, sha256


def publish(task: Task, plan: Plan) -> None:
    if task.replaces:
        return replace(plan.draft, task.target)
    try:
        os.link(plan.draft, task.target)
    except FileExistsError:
        raise TaskError(f"{task.target}: another process made it meanwhile: run again", retry=True) from None


def replace(draft: str, target: str) -> None:
    fd = os.open(draft, os.O_RDWR | os.O_CLOEXEC)
    try:
        places.take_over(fd, target)
        os.fsync(fd)
    finally:
        os.close(fd)
    os.replace(draft, target)


def is_published(task: Task, plan: Plan) -> bool:
    """Whether a worker that died gave the draft its name already."""
    try:
        return os.stat(task.target).st_ino == plan.inode
    except FileNotFoundError:
        return False


def discard(plan: Plan) -> None:
    try:
        os.unlink(plan.draft)
    except FileNotFoundError:
        pass


def step(worker: Worker, call: dict) -> dict:
    """One step as an outcome, with the plan of a probe. That of a hash has it."""
    task, do = Task(**call["task"]), call["do"]
    outcome = Outcome(task.path, "done", 0.0, 0.0, worker.name, "new", source_size=task.size, source_mtime=task.mtime)
    made: Plan | None = Plan(**call["plan"]) if call["plan"] else None
    with told(task, outcome):
        if do == "probe":
            made = probe(worker, task)
        elif do == "hash":
            outcome.sha256 = digest(task, made)
        elif do == "part":
            part(worker, task, made, call["start"], call["length"])
        elif do == "finish":
            finish(task, made, call["sha256"], outcome)
        else:
            discard(made)
    return {"outcome": vars(outcome), "plan": vars(made) if made else None}
