"""Where files lie: folders of this machine, and what fsspec reaches."""
import errno
import hashlib
import os
import re
from collections.abc import Iterator
from dataclasses import dataclass

from tink_fleet.errors import FleetError, TaskError

DRAFT = ".fleet-"
BLOCK = 1 << 20
# A file system that has no files without a name answers one of these.
NO_NAMELESS = (errno.EOPNOTSUPP, errno.EISDIR, errno.EINVAL, errno.ENOENT)


@dataclass(frozen=True)
class Item:
    """A file below a folder: its path from there, its bytes, and the time of its last change where it is known."""

    path: str
    size: int
    mtime: int


def is_url(place: str) -> bool:
    return "://" in place


def filesystem(url: str):
    """The file system of fsspec for a URL, and the path in it."""
    try:
        import fsspec
    except ImportError:
        raise FleetError(f"{url}: this Python has no fsspec: install python3-fsspec, or give a folder") from None
    return fsspec.core.url_to_fs(url)


def items(root: str, include: list[str], exclude: list[str], skip: str) -> Iterator[Item]:
    """The regular files below a folder, by name. The folder `skip` and drafts are left out."""
    import fnmatch

    found = remote_items(root) if is_url(root) else local_items(root, skip)
    for item in found:
        if include and not any(fnmatch.fnmatchcase(item.path, it) for it in include):
            continue
        if any(fnmatch.fnmatchcase(item.path, it) for it in exclude):
            continue
        yield item


def local_items(root: str, skip: str) -> Iterator[Item]:
    if not os.path.isdir(root):
        raise FleetError(f"{root}: there is no such folder: correct `source`, or mount it")
    # Folders that are still to be read, the next one last.
    waiting = [""]
    while waiting:
        folder = waiting.pop()
        try:
            with os.scandir(os.path.join(root, folder)) as entries:
                found = sorted(entries, key=lambda it: it.name)
        except FileNotFoundError:
            # It was removed since it was listed, and has no files.
            continue
        except OSError as e:
            raise FleetError(f"{os.path.join(root, folder)}: {e.strerror}: the folder cannot be listed") from e
        inner = []
        for entry in found:
            if entry.is_dir(follow_symlinks=False):
                if entry.path != skip:
                    inner.append(os.path.join(folder, entry.name))
            elif entry.is_file(follow_symlinks=False) and not entry.name.startswith(DRAFT):
                try:
                    state = entry.stat(follow_symlinks=False)
                except FileNotFoundError:
                    continue
                yield Item(os.path.join(folder, entry.name), state.st_size, state.st_mtime_ns)
        waiting.extend(reversed(inner))


def remote_items(root: str) -> Iterator[Item]:
    system, base = filesystem(root)
    for path, found in sorted(system.find(base, detail=True).items()):
        yield Item(path[len(base.rstrip("/")) + 1 :], int(found["size"]), stamp(found))


def stamp(found: dict) -> int:
    """What changes when an object is written again, as a number of 48 bits."""
    for name in ("ETag", "etag", "mtime", "LastModified", "last_modified", "created"):
        if found.get(name) is not None:
            return int.from_bytes(hashlib.sha256(str(found[name]).encode()).digest()[:6], "big")
    return 0


def join(root: str, path: str) -> str:
    return root.rstrip("/") + "/" + path


def size_of(place: str) -> int | None:
    """The bytes of a file, or None where there is none."""
    if is_url(place):
        system, path = filesystem(place)
        return int(system.info(path)["size"]) if system.exists(path) else None
    try:
        return os.stat(place).st_size
    except (FileNotFoundError, NotADirectoryError):
        return None


def identity(place: str) -> tuple[int, ...]:
    """Changes where a file is replaced or written to."""
    if is_url(place):
        system, path = filesystem(place)
        found = system.info(path)
        return int(found["size"]), stamp(found)
    found = os.stat(place)
    return found.st_ino, found.st_size, found.st_mtime_ns


def take_over(fd: int, target: str) -> None:
    """Gives a draft the owner and the mode of the file that it is to replace.

    # Errors
    `PermissionError` where that file has no write permission, or its owner cannot be given.
    """
    try:
        found = os.stat(target)
    except FileNotFoundError:
        return
    if not found.st_mode & 0o222:
        raise PermissionError(errno.EACCES, "it has no write permission, so that it is not replaced", target)
    own = os.fstat(fd)
    if (own.st_uid, own.st_gid) != (found.st_uid, found.st_gid):
        os.fchown(fd, found.st_uid, found.st_gid)
    os.fchmod(fd, found.st_mode & 0o7777)


class Draft:
    """A file of this machine without a name, or with a name of its own where the file system needs one.

    It is gone when its process ends, except under a name; `sweep` takes such names away.
    """

    def __init__(self, folder: str, fleet: str):
        self.folder = folder
        self.fleet = fleet
        self.path: str | None = None
        try:
            self.fd = os.open(folder, os.O_TMPFILE | os.O_RDWR | os.O_CLOEXEC, 0o600)
        except OSError as e:
            if e.errno not in NO_NAMELESS:
                raise
            self.path = self.fresh_name()
            self.fd = os.open(self.path, os.O_CREAT | os.O_EXCL | os.O_RDWR | os.O_CLOEXEC, 0o600)

    def fresh_name(self) -> str:
        return os.path.join(self.folder, f"{DRAFT}{self.fleet}-{os.urandom(8).hex()}")

    def publish(self, target: str, replaces: bool) -> None:
        """Lets the draft reach the disk, and gives it the name of the target.

        A target that is replaced hands on its owner and mode, as by the program.

        # Errors
        `FileExistsError` where there is a target and it is not to be replaced. `PermissionError` where it may not be.
        """
        if replaces:
            take_over(self.fd, target)
        os.fsync(self.fd)
        if replaces:
            path = self.path or self.link(self.fresh_name())
            self.path = path
            os.replace(path, target)
        elif self.path is None:
            self.link(target)
        else:
            os.link(self.path, target)
            os.unlink(self.path)
        self.path = None

    def link(self, name: str) -> str:
        folder = os.open(self.folder, os.O_RDONLY | os.O_DIRECTORY)
        try:
            # Python calls linkat, which follows the link of /proc, where a folder is handed in alone.
            os.link(f"/proc/self/fd/{self.fd}", name, src_dir_fd=folder, follow_symlinks=True)
        finally:
            os.close(folder)
        return name

    def close(self) -> None:
        if self.path is not None:
            try:
                os.unlink(self.path)
            except FileNotFoundError:
                pass
        os.close(self.fd)

    def __enter__(self) -> "Draft":
        return self

    def __exit__(self, *_: object) -> None:
        self.close()


def sync_folders(folders: set[str]) -> None:
    for folder in folders:
        fd = os.open(folder, os.O_RDONLY | os.O_DIRECTORY)
        try:
            os.fsync(fd)
        finally:
            os.close(fd)


def sweep(root: str, fleet: str) -> int:
    """Removes the drafts of a fleet whose workers have all ended. Returns how many there were."""
    drafts = re.compile(re.escape(f"{DRAFT}{fleet}-") + "[0-9a-f]{16}")
    count = 0
    for folder, _, names in os.walk(root):
        for name in filter(drafts.fullmatch, names):
            os.unlink(os.path.join(folder, name))
            count += 1
    return count


def digest(fd: int, place: str) -> str:
    """The SHA-256 of a file from its first byte on, in lower-case hexadecimal. An error names the place."""
    made, block = hashlib.sha256(), bytearray(BLOCK)
    view = memoryview(block)
    try:
        os.lseek(fd, 0, os.SEEK_SET)
        while count := os.readv(fd, [block]):
            made.update(view[:count])
    except OSError as e:
        raise OSError(e.errno, e.strerror, place) from e
    return made.hexdigest()


def link_on_the_way(place: str, depth: int) -> str | None:
    """The last `depth` parts of a path that are a link, as the path of it."""
    for _ in range(depth):
        if os.path.islink(place):
            return place
        place = os.path.dirname(place)
    return None


def fetch(url: str, scratch: str | None) -> int:
    """Copies an object into a file of the scratch folder without a name. Returns its descriptor."""
    import tempfile

    system, path = filesystem(url)
    held = tempfile.TemporaryFile(dir=scratch)
    with held:
        expected = int(system.info(path)["size"])
        with system.open(path, "rb") as source:
            while block := source.read(BLOCK):
                held.write(block)
        held.flush()
        if os.fstat(held.fileno()).st_size != expected:
            raise TaskError(
                f"{url}: it has {expected} bytes, and {os.fstat(held.fileno()).st_size} came: try again", retry=True
            )
        return os.dup(held.fileno())


def store(fd: int, url: str) -> None:
    """Copies a whole file to an object, which appears when the last byte was sent."""
    system, path = filesystem(url)
    os.lseek(fd, 0, os.SEEK_SET)
    if "/" in path:
        system.makedirs(path.rsplit("/", 1)[0], exist_ok=True)
    # In a transaction an object gets its name at the end, and none where an error comes before.
    with os.fdopen(os.dup(fd), "rb") as source, system.transaction, system.open(path, "wb") as target:
        while block := source.read(BLOCK):
            target.write(block)
    size, sent = os.fstat(fd).st_size, int(system.info(path)["size"])
    if sent != size:
        raise TaskError(f"{url}: {size} bytes were sent, and it has {sent}: try again", retry=True)
