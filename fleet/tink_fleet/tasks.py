"""What a worker does: one batch of tasks, each of which makes or checks one file."""
import errno
import hashlib
import os
import subprocess
import time
from collections.abc import Callable
from contextlib import contextmanager
from dataclasses import dataclass

from tink_fleet import places, program
from tink_fleet.errors import TaskError
from tink_fleet.places import Draft, is_url
from tink_fleet.program import KeyList, Keys


@dataclass(frozen=True)
class Job:
    """What all tasks of a run share. It has paths of keys and no key."""

    fleet: str
    run: str
    operation: str
    program: str | None
    keys: str
    master: str | None
    master_aad: str
    to_keys: str | None
    scratch: str | None
    # The primary key that each worker has to have, where it is known.
    primary: int | None = None

    @property
    def source_keys(self) -> Keys:
        return Keys(self.keys, self.master, self.master_aad)

    @property
    def target_keys(self) -> Keys:
        return Keys(self.to_keys or self.keys, self.master, self.master_aad)


@dataclass(frozen=True)
class Task:
    """One file. `target` is `source` in place, and None where nothing is made."""

    path: str
    source: str
    target: str | None
    aad: str
    to_aad: str
    size: int
    mtime: int
    replaces: bool

    @property
    def in_place(self) -> bool:
        return self.target == self.source


@dataclass
class Outcome:
    """How a task ended: a line of the record.

    `size` counts the bytes of the target, or of the source of a check; `sha256` is that of the whole ciphertext.
    `target` is what is under the target's name after it.
    """

    path: str
    state: str
    time: float
    seconds: float
    worker: str
    target: str
    size: int | None = None
    key: int | None = None
    sha256: str | None = None
    source_size: int | None = None
    source_mtime: int | None = None
    adopted: bool = False
    status: int | None = None
    line: str | None = None
    retry: bool = False

    def record(self) -> dict:
        """The fields that are not empty."""
        return {
            name: value
            for name, value in vars(self).items()
            if name != "retry" and value is not None and value is not False
        }


def worker_name() -> str:
    return f"{os.uname().nodename}:{os.getpid()}"


class Worker:
    """Does the tasks of one job in this process."""

    def __init__(self, job: Job, name: str | None = None):
        self.job = job
        self.name = name or worker_name()
        self.program = program.find_program(job.program)
        self.lists: dict[tuple, KeyList] = {}
        self.folders: set[str] = set()

    def batch(self, tasks: list[Task], may_go_on: Callable[[], bool] = lambda: True) -> list[Outcome]:
        """Does the tasks until it may not go on. The folders reached the disk where it returns."""
        made = []
        for task in tasks:
            if not may_go_on():
                break
            made.append(self.one(task))
        places.sync_folders(self.folders)
        self.folders.clear()
        return made

    def one(self, task: Task) -> Outcome:
        began, clock = time.time(), time.perf_counter()
        outcome = Outcome(
            task.path, "done", began, 0.0, self.name, "new", source_size=task.size, source_mtime=task.mtime
        )
        with told(task, outcome):
            getattr(self, self.job.operation)(task, outcome)
        outcome.time, outcome.seconds = round(time.time(), 3), round(time.perf_counter() - clock, 4)
        return outcome

    def key_list(self, keys: Keys) -> KeyList:
        state = (keys, keys.state())
        if state not in self.lists:
            self.lists[state] = program.list_keys(self.program, keys)
        return self.lists[state]

    def primary(self, keys: Keys) -> int:
        """The primary key, which has to be that of the run."""
        found, wanted = self.key_list(keys).primary, self.job.primary
        if wanted is not None and found != wanted:
            raise TaskError(
                f"{keys.path}: its primary key is {found} here, and {wanted} in this run: bring the new file of keys to this worker",
                retry=True,
            )
        return found

    def encrypt(self, task: Task, outcome: Outcome) -> None:
        keys = self.job.source_keys
        self.make(task, outcome, lambda file: ["encrypt", "-q", *keys.words("-k"), "--aad", task.aad, file], [keys])

    def decrypt(self, task: Task, outcome: Outcome) -> None:
        if task.target is None:
            raise TaskError(
                f"{task.source}: its name has not the suffix of streams: rename it, or set `suffix` or `exclude`"
            )
        keys = self.job.source_keys
        self.make(task, outcome, lambda file: ["decrypt", "-q", *keys.words("-k"), "--aad", task.aad, file], [keys])

    def rewrap(self, task: Task, outcome: Outcome) -> None:
        old, new = self.job.source_keys, self.job.target_keys

        def words(file: str) -> list[str]:
            return [
                "rewrap",
                "-q",
                *old.words("-k"),
                "--aad",
                task.aad,
                *new.words("-t"),
                "--to-aad",
                task.to_aad,
                file,
            ]

        try:
            self.make(task, outcome, words, [old, new])
        except TaskError as e:
            # A worker that died may have put the new stream in place already.
            if not (task.in_place and e.status == 21 and self.has_moved(task, outcome)):
                raise

    def check(self, task: Task, outcome: Outcome) -> None:
        keys = self.job.source_keys
        with opened(task.source, self.job.scratch) as (file, fd):
            program.run(
                self.program,
                ["check", *keys.words("-k"), "--aad", task.aad, file],
                keys=[keys],
                more_fds=fds_of(file, fd),
            )
            outcome.key = self.key_of(keys, task.aad, file, fd)
            outcome.sha256 = places.digest(fd, task.source)
            outcome.size, outcome.target = os.fstat(fd).st_size, "same"

    def key_of(self, keys: Keys, aad: str, file: str, fd: int) -> int | None:
        """The key of a stream, where the program can say it or there is one enabled key alone."""
        enabled = self.key_list(keys).enabled
        if len(enabled) == 1:
            return enabled[0]
        if "info" not in program.commands(self.program):
            return None
        return program.info(self.program, keys, aad, file, fds_of(file, fd)).key

    def make(self, task: Task, outcome: Outcome, words: Callable[[str], list[str]], keys: list[Keys]) -> None:
        """Makes the target of a task as a draft, and gives it its name when it is whole."""
        check_place(task, keys)
        if not task.replaces and not task.in_place and places.size_of(task.target) is not None:
            return self.adopt(task, outcome)
        with self.draft(task) as draft, opened(task.source, self.job.scratch) as (file, fd):
            before = self.ends(task, keys)
            if self.job.operation != "decrypt":
                outcome.key = self.primary(keys[-1])
            self.fill(draft, task, words(file), keys, fds_of(file, fd))
            if self.job.operation == "decrypt":
                outcome.sha256 = places.digest(fd, task.source)
                outcome.key = self.key_of(keys[0], task.aad, file, fd)
            else:
                outcome.sha256 = places.digest(draft.fd, task.target)
            outcome.size = os.fstat(draft.fd).st_size
            if self.ends(task, keys) != before:
                raise TaskError(
                    f"{task.source}: it, or a file of keys, was changed while it was read: run again when it rests",
                    retry=True,
                )
            if task.in_place:
                resting(outcome, draft.fd)
            self.publish(task, draft)

    def fill(self, draft: Draft, task: Task, words: list[str], keys: list[Keys], fds: tuple[int, ...]) -> None:
        try:
            program.run(self.program, words, keys=keys, stdout=draft.fd, more_fds=fds)
        except TaskError as e:
            e.line = e.line.replace("standard output", task.target)
            raise

    def ends(self, task: Task, keys: list[Keys]) -> list[tuple[int, ...]]:
        """Changes where the source or a file of keys does."""
        return [places.identity(task.source), *(it.state() for it in keys)]

    def draft(self, task: Task) -> Draft:
        if is_url(task.target):
            return Draft(self.job.scratch or os.environ.get("TMPDIR", "/tmp"), self.job.fleet)
        folder = os.path.dirname(task.target)
        os.makedirs(folder, exist_ok=True)
        return Draft(folder, self.job.fleet)

    def publish(self, task: Task, draft: Draft) -> None:
        if is_url(task.target):
            return places.store(draft.fd, task.target)
        try:
            draft.publish(task.target, task.replaces or task.in_place)
        except FileExistsError:
            raise TaskError(f"{task.target}: another process made it meanwhile: run again", retry=True) from None
        self.folders.add(draft.folder)

    def adopt(self, task: Task, outcome: Outcome) -> None:
        """A target that is there counts as done where it has the text of the source, and else stays as it is."""
        job = self.job
        stream, keys, aad = (
            (task.source, job.source_keys, task.aad)
            if job.operation == "decrypt"
            else (task.target, job.target_keys, task.to_aad)
        )
        try:
            same = self.text_of(task, "source") == self.text_of(task, "target")
        except TaskError as e:
            if e.retry:
                raise
            same = False
        if not same:
            raise TaskError(
                f"{task.target}: it is there already and has not the text of {task.source} under these keys: move it away, or set `replace = true`"
            )
        with opened(stream, job.scratch) as (file, fd):
            outcome.sha256 = places.digest(fd, stream)
            outcome.key = self.key_of(keys, aad, file, fd) or outcome.key
        outcome.size, outcome.adopted = places.size_of(task.target), True

    def text_of(self, task: Task, end: str) -> str:
        """The SHA-256 of the plaintext of a task's source or target."""
        job = self.job
        place = task.source if end == "source" else task.target
        with opened(place, job.scratch) as (file, fd):
            if end == {"encrypt": "source", "decrypt": "target"}.get(job.operation):
                return places.digest(fd, place)
            keys, aad = (job.source_keys, task.aad) if end == "source" else (job.target_keys, task.to_aad)
            words = ["decrypt", "-q", *keys.words("-k"), "--aad", aad, file]
            return plain_digest(self.program, words, keys, fds_of(file, fd))

    def has_moved(self, task: Task, outcome: Outcome) -> bool:
        """Whether the file in place is a whole stream under the primary key of the new file of keys."""
        keys = self.job.target_keys
        with opened(task.source, self.job.scratch) as (file, fd):
            try:
                plain_digest(
                    self.program,
                    ["decrypt", "-q", *keys.words("-k"), "--aad", task.to_aad, file],
                    keys,
                    fds_of(file, fd),
                )
            except TaskError:
                return False
            found = self.key_of(keys, task.to_aad, file, fd)
            if found not in (None, self.primary(keys)):
                return False
            outcome.sha256 = places.digest(fd, task.source)
            outcome.size, outcome.adopted = os.fstat(fd).st_size, True
            resting(outcome, fd)
        return True


def resting(outcome: Outcome, fd: int) -> None:
    """In place the next run finds what was made as its source."""
    found = os.fstat(fd)
    outcome.source_size, outcome.source_mtime = found.st_size, found.st_mtime_ns


@contextmanager
def told(task: Task, outcome: Outcome):
    """An error becomes a failed outcome that says what is under the target's name."""
    try:
        yield
    except TaskError as e:
        failed(task, outcome, e.line, e.status, e.retry)
    except OSError as e:
        # Of two names, the second is that of the target.
        named = [it for it in (e.filename2, e.filename) if isinstance(it, str)]
        place = named[0] if named else task.target or task.source
        failed(task, outcome, f"{place}: {e.strerror}: {remedy(e)}", None, True)


def check_place(task: Task, keys: list[Keys]) -> None:
    """Sees that a target is what its path says: behind a link, it could be a source, or the target of another task.

    # Errors
    `TaskError` where a link is on the way from the target folder to the target, or the target is a file of keys.
    """
    if is_url(task.target):
        return
    link = places.link_on_the_way(task.target, task.path.count("/") + 1)
    if link is not None:
        raise TaskError(
            f"{task.target}: {link} is a link, and fleet writes through no link below the target folder: "
            "remove the link, or name another target"
        )
    if not task.replaces or places.size_of(task.target) is None:
        return
    for path in {path for it in keys for path in (it.path, it.master) if path not in (None, "-")}:
        if os.path.exists(path) and os.path.samefile(path, task.target):
            raise TaskError(f"{task.target}: it is a file of keys, which is not replaced: name another target")


def is_utf8(path: str) -> bool:
    try:
        path.encode()
    except UnicodeEncodeError:
        return False
    return True


def remedy(e: OSError) -> str:
    if e.errno in (errno.ENOSPC, errno.EDQUOT):
        return "make room there and run again"
    if e.errno in (errno.EACCES, errno.EPERM, errno.EROFS):
        return "give the worker the right to it and run again"
    if e.errno == errno.ENAMETOOLONG:
        return "shorten the name and run again"
    if e.errno in (errno.EEXIST, errno.EISDIR, errno.ENOTDIR, errno.ENOTEMPTY, errno.ELOOP):
        return "move what is there away, or name another target, and run again"
    return "see that the file is there for this worker, and run again"


def failed(task: Task, outcome: Outcome, line: str, status: int | None, retry: bool) -> None:
    outcome.state, outcome.line, outcome.status, outcome.retry = "failed", line, status, retry
    outcome.sha256 = outcome.size = outcome.key = None
    try:
        there = task.target is not None and places.size_of(task.target) is not None
    except OSError:
        there = False
    outcome.target = "old" if there else "absent"


@contextmanager
def opened(place: str, scratch: str | None):
    """A file's path for the program, and its descriptor. An object is copied first, whole, into a file without a name."""
    if is_url(place):
        fd = places.fetch(place, scratch)
        file = f"/dev/fd/{fd}"
    else:
        fd = os.open(place, os.O_RDONLY | os.O_CLOEXEC)
        # The program opens names in UTF-8 alone. A file of another name it gets by the descriptor.
        file = place if is_utf8(place) else f"/dev/fd/{fd}"
    try:
        yield file, fd
    except TaskError as e:
        e.line = e.line.replace(f"/dev/fd/{fd}:", f"{place}:")
        raise
    finally:
        os.close(fd)


def fds_of(file: str, fd: int) -> tuple[int, ...]:
    """The descriptors that the program needs to read the file."""
    return (fd,) if file.startswith("/dev/fd/") else ()


def plain_digest(path: str, words: list[str], keys: Keys, fds: tuple[int, ...]) -> str:
    """The SHA-256 of what the program writes to standard output, which is stored nowhere.

    # Errors
    `TaskError` with the program's line, where its status is not 0.
    """
    held = fds + ((keys.fd,) if keys.fd is not None else ())
    made = hashlib.sha256()
    # The line that the program says on an error is less than a pipe holds.
    with subprocess.Popen(
        [path, words[0], *keys.master_words(), *words[1:]],
        stdin=subprocess.DEVNULL,
        stdout=subprocess.PIPE,
        stderr=subprocess.PIPE,
        pass_fds=held,
    ) as running:
        while block := running.stdout.read(places.BLOCK):
            made.update(block)
        said = running.stderr.read().decode("utf-8", "replace").strip()
    if running.returncode != 0:
        raise program.failure(said, running.returncode)
    return made.hexdigest()
