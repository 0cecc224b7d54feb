"""The manifest: a TOML file that describes the work."""
import os
import string
import tomllib
from dataclasses import dataclass, field, fields, replace

from tink_fleet.errors import FleetError
from tink_fleet.places import is_url

OPERATIONS = ("encrypt", "decrypt", "check", "rewrap")
STREAM_SUFFIX = ".tink"
FIELDS_OF_AAD = ("path", "name")
GIB = 1 << 30


@dataclass(frozen=True)
class Manifest:
    """What is done to which files. Paths are absolute, or URLs of fsspec."""

    file: str
    operation: str
    source: str
    target: str | None = None
    keys: str | None = None
    master: str | None = None
    master_aad: str = ""
    to_keys: str | None = None
    aad: str = ""
    to_aad: str | None = None
    suffix: str = STREAM_SUFFIX
    include: list[str] = field(default_factory=list)
    exclude: list[str] = field(default_factory=list)
    replace: bool = False
    state: str = ""
    program: str | None = None
    scratch: str | None = None
    batch_files: int = 64
    batch_bytes: int = 64 << 20
    split_bytes: int = GIB
    part_bytes: int | None = None

    @property
    def in_place(self) -> bool:
        """Whether each file takes the place of the one that it is made of."""
        return self.operation == "rewrap" and self.target is None

    def target_path(self, path: str) -> str | None:
        """The path of a file below the target folder, for the path of its source below the source folder.

        A stream to decrypt has none if its name lacks the suffix: two streams could come to the same file.
        """
        if self.operation == "encrypt":
            return path + self.suffix
        if self.operation == "decrypt":
            return path.removesuffix(self.suffix) if path.endswith(self.suffix) else None
        return path

    def plain_path(self, path: str) -> str:
        """The path of the plain file, which `{path}` stands for in every operation."""
        return path if self.operation == "encrypt" else path.removesuffix(self.suffix)

    def aad_of(self, path: str) -> str:
        return rendered(self.aad, self.plain_path(path))

    def to_aad_of(self, path: str) -> str:
        return rendered(self.aad if self.to_aad is None else self.to_aad, self.plain_path(path))


def rendered(pattern: str, path: str) -> str:
    return pattern.format(path=path, name=path.rsplit("/", 1)[-1])


def read_manifest(file: str) -> Manifest:
    """Reads a manifest and checks it.

    # Errors
    `FleetError` where the file is not there, is no TOML, has an unknown word, or lacks one.
    """
    try:
        with open(file, "rb") as text:
            words = tomllib.load(text)
    except OSError as e:
        raise FleetError(f"{file}: {e.strerror}: give the path of a manifest") from e
    except (tomllib.TOMLDecodeError, UnicodeDecodeError) as e:
        raise FleetError(f"{file}: it is no TOML: {e}") from e
    known = {it.name: getattr(it.type, "__name__", str(it.type)) for it in fields(Manifest) if it.name != "file"}
    for word, value in words.items():
        if word not in known:
            raise FleetError(f"{file}: unknown word `{word}`: the words are {', '.join(known)}")
        if not has_type(value, known[word]):
            raise FleetError(f"{file}: `{word}` has a value of the wrong type: {value!r}")
    for word in ("operation", "source"):
        if word not in words:
            raise FleetError(f"{file}: `{word}` is missing: add a line `{word} = ..`")
    return checked(Manifest(file=os.path.abspath(file), **words))


def has_type(value: object, wanted: str) -> bool:
    if wanted.startswith("list"):
        return isinstance(value, list) and all(isinstance(it, str) for it in value)
    if wanted == "bool":
        return isinstance(value, bool)
    if wanted.startswith("int"):
        return isinstance(value, int) and not isinstance(value, bool) and value > 0
    return isinstance(value, str)


def checked(manifest: Manifest) -> Manifest:
    file, operation = manifest.file, manifest.operation
    if operation not in OPERATIONS:
        raise FleetError(f"{file}: unknown operation `{operation}`: take one of {', '.join(OPERATIONS)}")
    if operation in ("encrypt", "decrypt") and manifest.target is None:
        raise FleetError(f"{file}: `target` is missing: {operation} needs a folder for what it makes")
    if operation == "check" and manifest.target is not None:
        raise FleetError(f"{file}: `target` is too much: check writes no file")
    if operation != "rewrap" and (manifest.to_keys or manifest.to_aad is not None):
        raise FleetError(f"{file}: `to_keys` and `to_aad` belong to rewrap alone")
    for pattern in (manifest.aad, manifest.to_aad or ""):
        check_pattern(file, pattern)
    base = os.path.dirname(file)
    made = replace(
        manifest,
        state=manifest.state or os.path.splitext(file)[0] + ".fleet",
        **{
            word: located(base, getattr(manifest, word))
            for word in ("source", "target", "keys", "master", "to_keys", "scratch")
        },
    )
    made = replace(made, state=located(base, made.state))
    check_apart(made)
    return made


def check_apart(manifest: Manifest) -> None:
    """Sees that no target can be a source, whatever links lead to the two folders."""
    if manifest.target is None or is_url(manifest.source) != is_url(manifest.target):
        return
    source, target = (it if is_url(it) else os.path.realpath(it) for it in (manifest.source, manifest.target))
    source, target = source.rstrip("/") + "/", target.rstrip("/") + "/"
    if target == source:
        raise FleetError(
            f"{manifest.file}: `target` is `source`: leave `target` out of a rewrap in place, else name another folder"
        )
    if target.startswith(source):
        raise FleetError(
            f"{manifest.file}: `target` is inside of `source`, so that what is made would be a source too: name another folder"
        )
    if source.startswith(target):
        raise FleetError(
            f"{manifest.file}: `source` is inside of `target`, so that what is made could take the place of a source: name another folder"
        )


def located(base: str, place: str | None) -> str | None:
    """A path is taken from the manifest's folder on."""
    if place is None or place == "-":
        return place
    place = place.removeprefix("file://")
    if is_url(place):
        return place
    return os.path.normpath(os.path.join(base, os.path.expanduser(place)))


def check_pattern(file: str, pattern: str) -> None:
    try:
        parts = list(string.Formatter().parse(pattern))
    except ValueError as e:
        raise FleetError(f"{file}: the pattern {pattern!r} of associated data is wrong: {e}") from e
    for _, name, form, conversion in parts:
        if name is not None and (name not in FIELDS_OF_AAD or form or conversion):
            raise FleetError(
                f"{file}: the pattern {pattern!r} has an unknown field: take {{path}} or {{name}}; a brace is written twice"
            )
