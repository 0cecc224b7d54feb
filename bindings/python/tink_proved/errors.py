"""An exception for each status of the library."""

from typing import Dict, Type


class TinkError(Exception):
    """A call was refused. `status` is its number, and `text` says why."""

    status: int = 255
    text: str = "the call was refused"

    def __str__(self) -> str:
        return self.text


class OutOfMemory(TinkError):
    status = 10
    text = "there is no memory"


class BadKeyset(TinkError):
    status = 13
    text = "it is no keyset in JSON or in the binary format"


class InvalidKeyset(TinkError):
    status = 14
    text = "the keyset is not valid: it has no primary key that is enabled"


class UnsupportedKeyType(TinkError):
    status = 15
    text = "the keyset has a key of a type that is not known"


class InvalidKey(TinkError):
    status = 16
    text = "the keyset has a key with a value that is none of its type"


class NoPrimary(TinkError):
    status = 17
    text = "no enabled key is the primary key: promote one"


class WrongPrimitive(TinkError):
    status = 18
    text = "the keyset has a key for another use"


class UnsupportedHash(TinkError):
    status = 19
    text = "the primary key derives by a hash that no stream takes"


class TooManySegments(TinkError):
    status = 20
    text = "the stream has more than 2^32 segments"


class NoMatchingKey(TinkError):
    status = 21
    text = "no key opens this stream: other keys, other associated data or a damaged beginning"


class BadSegment(TinkError):
    status = 22
    text = "a segment of the stream was changed"


class Truncated(TinkError):
    status = 23
    text = "the stream was cut off"


class UnknownTemplate(TinkError):
    status = 24
    text = "no template has this name"


class NoFreshId(TinkError):
    status = 25
    text = "no unused key id was drawn: try again"


class BadToken(TinkError):
    status = 27
    text = "it is no token"


class MacMismatch(TinkError):
    status = 28
    text = "no key accepts this MAC"


class BadJson(TinkError):
    status = 30
    text = "it begins as JSON and is no keyset"


class KeyNotFound(TinkError):
    status = 31
    text = "no key has this id"


class IsPrimary(TinkError):
    status = 32
    text = "it is the primary key: promote another one first"


class WrongKeyStatus(TinkError):
    status = 33
    text = "the key's status does not allow this"


class MasterFailed(TinkError):
    status = 34
    text = "the master keyset refuses it: other keys or other associated data"


class RandomFault(TinkError):
    status = 35
    text = "too few random bytes were handed in"


class TooLittleRoom(TinkError):
    status = 42
    text = "the buffer is too small"


class Closed(TinkError):
    status = 43
    text = "the object holds nothing: it was closed"


class DecryptFailed(TinkError):
    status = 44
    text = "no key decrypts it with this associated data"


class FailedBefore(TinkError):
    status = 45
    text = "a call before was refused: the writer or reader takes no more"


class TextTooLong(TinkError):
    status = 46
    text = "the plaintext is longer than the cipher takes"


class DataTooLong(TinkError):
    status = 47
    text = "the associated data is longer than the cipher takes"


class NotRaw(TinkError):
    status = 48
    text = "a pseudorandom function has a key with an output prefix"


class BadOutputLength(TinkError):
    status = 49
    text = "the function gives no output of this length"


class Unread(TinkError):
    status = 50
    text = "text of the reader waits"


BY_STATUS: Dict[int, Type[TinkError]] = {error.status: error for error in TinkError.__subclasses__()}


def error_of(status: int) -> TinkError:
    """The exception of a status."""
    if status in BY_STATUS:
        return BY_STATUS[status]()
    error = TinkError()
    error.status = status
    error.text = f"the call was refused: status {status}"
    return error
