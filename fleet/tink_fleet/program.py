"""The program `tink`: where it is, what it can do, and how it is run."""
import os
import re
import shutil
import subprocess
from dataclasses import dataclass
from functools import cache

from tink_fleet.errors import FleetError, TaskError

NEEDS = {"encrypt": [], "decrypt": [], "check": ["check"], "rewrap": []}
# Out of memory, a failed read, a failed write, no random bytes: another try, or another worker, may do it.
PASSING = (10, 11, 12, 35)
KEYS_FD = "TINK_FLEET_KEYS_FD"


@dataclass(frozen=True)
class Keys:
    """A file of keys, which may be wrapped under the keys of a file `master`. The path `-` is the inherited descriptor."""

    path: str
    master: str | None = None
    master_aad: str = ""

    @property
    def fd(self) -> int | None:
        if self.path != "-":
            return None
        try:
            return int(os.environ[KEYS_FD])
        except (KeyError, ValueError):
            raise TaskError("the keys of standard input did not reach this worker: name a file of keys") from None

    def words(self, option: str) -> list[str]:
        """The words that name these keys behind an option, or as the first word of a command where it is empty."""
        fd = self.fd
        return ([option] if option else []) + [self.path if fd is None else f"/dev/fd/{fd}"]

    def master_words(self) -> list[str]:
        if self.master is None:
            return []
        return ["--master", self.master, *(["--master-aad", self.master_aad] if self.master_aad else [])]

    def state(self) -> tuple[int, ...]:
        """Changes where the file of keys is changed."""
        if self.path == "-":
            return ()
        try:
            found = os.stat(self.path)
        except OSError as e:
            raise TaskError(f"{self.path}: {e.strerror}: bring the file of keys to this worker") from e
        return found.st_ino, found.st_size, found.st_mtime_ns


def find_program(name: str | None) -> str:
    """The path of the program: as it is named, else by TINK, PATH, or the repository that this file is in."""
    named = name or os.environ.get("TINK")
    if named:
        found = shutil.which(os.path.expanduser(named))
        if found is None:
            raise FleetError(f"{named}: it is no program: build it by `./tink --version`, or give another --program")
        return os.path.abspath(found)
    root = os.path.dirname(os.path.dirname(os.path.dirname(os.path.realpath(__file__))))
    built = os.path.join(root, "crates", "tink_tool", "out", "tink_tool")
    found = shutil.which("tink") or (built if os.access(built, os.X_OK) else None)
    if found is None:
        raise FleetError("tink: the program is not in PATH: install it by `make install`, or give --program")
    return found


@cache
def commands(program: str) -> frozenset[str]:
    """The commands that `tink help` names, and the long options of `encrypt`."""
    names: set[str] = set(re.findall(r"--[a-z-]+", said_by(program, "help", "encrypt")))
    for line in said_by(program, "help").splitlines():
        # A line of a command, as `  enable, disable KEYS ID ..`, or in older ones `  tink enable|disable KEYS ID ..`.
        found = re.match(r" {2}(?:tink )?([a-z]+(?:(?:, |\|)[a-z]+)*)\b", line)
        if found:
            names.update(re.split(r", |\|", found.group(1)))
    return frozenset(names)


def said_by(program: str, *words: str) -> str:
    done = subprocess.run(
        [program, *words], stdin=subprocess.DEVNULL, capture_output=True, text=True, errors="replace", check=False
    )
    return done.stdout


def version(program: str) -> str:
    return said_by(program, "--version").strip()


def require(program: str, names: list[str], why: str) -> None:
    missing = [name for name in names if name not in commands(program)]
    if missing:
        raise FleetError(
            f"{program}: this program is too old: {why} needs `{'`, `'.join(missing)}`, which `tink help` does not name; install a newer one"
        )


def run(
    program: str,
    words: list[str],
    *,
    keys: list[Keys],
    stdout: int = subprocess.DEVNULL,
    more_fds: tuple[int, ...] = (),
) -> subprocess.CompletedProcess:
    """Runs the program. `stdout` is the descriptor of a file, or `subprocess.PIPE`.

    # Errors
    `TaskError` with the program's line, where its status is not 0.
    """
    line = [program, *words[:1], *(keys[0].master_words() if keys else []), *words[1:]]
    fds = more_fds + tuple({it.fd for it in keys if it.fd is not None})
    try:
        done = subprocess.run(
            line, stdin=subprocess.DEVNULL, stdout=stdout, stderr=subprocess.PIPE, pass_fds=fds, check=False
        )
    except OSError as e:
        raise TaskError(f"{program}: {e.strerror}: the program cannot be run on this worker", retry=True) from e
    except ValueError as e:
        raise TaskError(f"{words[-1]!r}: {e}") from e
    if done.returncode != 0:
        said = done.stderr.decode("utf-8", "replace").strip()
        for it in keys:
            if it.fd is not None:
                said = said.replace(f"/dev/fd/{it.fd}", "the keys of standard input")
        raise failure(said, done.returncode)
    return done


def failure(said: str, status: int) -> TaskError:
    if status < 0:
        return TaskError(f"tink: it was ended by signal {-status}", status, retry=True)
    return TaskError(said.splitlines()[-1] if said else f"tink: status {status}", status, status in PASSING)


def output(program: str, words: list[str], keys: list[Keys], more_fds: tuple[int, ...] = ()) -> str:
    """Runs the program, and returns what it writes to standard output."""
    done = run(program, words, keys=keys, stdout=subprocess.PIPE, more_fds=more_fds)
    return done.stdout.decode("utf-8", "replace")


@dataclass(frozen=True)
class KeyList:
    """The ids of a file of keys, with the status of each, and the primary one."""

    primary: int
    statuses: dict[int, str]

    @property
    def enabled(self) -> list[int]:
        return [id_ for id_, status in self.statuses.items() if status == "enabled"]


def list_keys(program: str, keys: Keys) -> KeyList:
    """Lists a file of keys by `tink keys`, which shows no key material. A wrapped one is unwrapped into memory alone."""
    if keys.master is None:
        lines = output(program, ["keys", *keys.words("")], [keys]).splitlines()
    else:
        held = os.memfd_create("tink-fleet-keys")
        try:
            run(
                program,
                ["unwrap", "-k", keys.master, "--aad", keys.master_aad, "-o", "-", keys.path],
                keys=[],
                stdout=held,
            )
            lines = output(program, ["keys", f"/dev/fd/{held}"], [], (held,)).splitlines()
        finally:
            os.close(held)
    rows = [line.split("\t") for line in lines if line.strip()]
    primary = [int(row[0]) for row in rows if row[-1] == "primary"]
    if len(primary) != 1:
        raise TaskError(f"{keys.path}: `tink keys` shows no primary key: promote one")
    return KeyList(primary[0], {int(row[0]): row[1] for row in rows})


@dataclass(frozen=True)
class StreamInfo:
    key: int
    segments: int
    plaintext: int


def info(program: str, keys: Keys, aad: str, file: str, more_fds: tuple[int, ...] = ()) -> StreamInfo:
    """The key, the segments and the bytes of plaintext of a stream, whose first and last segments are opened."""
    said = output(program, ["info", *keys.words("-k"), "--aad", aad, file], [keys], more_fds)
    found = {line.split()[0]: int(line.split()[1]) for line in said.splitlines() if len(line.split()) > 1}
    return StreamInfo(found["key"], found["segments"], found["plaintext"])
