"""The C library by ctypes. Every output goes into a buffer of ours, which is made longer where the library asks for it."""

import ctypes
import operator
import os
from typing import Any, Dict, List, Union

from .errors import error_of

# What is taken as an input.
Data = Union[bytes, bytearray, memoryview]

# What each function takes, in order. `in` is a pointer and a length; `out` a pointer, its room and where the length goes;
# `object` a pointer to a Handle; `length` a pointer to where a length goes.
FUNCTIONS: Dict[str, str] = {
    "tink_keyset_create": "in bool in out",
    "tink_keyset_rotate": "in in bool in out",
    "tink_keyset_add": "in in in out",
    "tink_keyset_promote": "in u32 out",
    "tink_keyset_enable": "in u32 out",
    "tink_keyset_disable": "in u32 out",
    "tink_keyset_destroy": "in u32 out",
    "tink_keyset_delete": "in u32 out",
    "tink_keyset_convert": "in bool out",
    "tink_keyset_list": "in out",
    "tink_keyset_list_json": "in out",
    "tink_keyset_wrap": "in in in bool in out",
    "tink_keyset_unwrap": "in in in bool out",
    "tink_encrypt": "in in in in out",
    "tink_decrypt": "in in in out",
    "tink_encrypt_deterministically": "in in in out",
    "tink_decrypt_deterministically": "in in in out",
    "tink_compute_mac": "in in out",
    "tink_verify_mac": "in in in",
    "tink_compute_prf": "in in size out",
    "tink_sign_token": "in in out",
    "tink_verify_token": "in in out",
    "tink_seal_stream": "in in in in out",
    "tink_open_stream": "in in in out",
    "tink_read_range": "in in in u64 u64 out",
    "tink_rewrap_stream": "in in in in in in out",
    "tink_aead_new": "in object",
    "tink_aead_encrypt": "object in in in out",
    "tink_aead_decrypt": "object in in out",
    "tink_aead_free": "object",
    "tink_daead_new": "in object",
    "tink_daead_encrypt": "object in in out",
    "tink_daead_decrypt": "object in in out",
    "tink_daead_free": "object",
    "tink_mac_new": "in object",
    "tink_mac_compute": "object in out",
    "tink_mac_verify": "object in in",
    "tink_mac_free": "object",
    "tink_prf_new": "in object",
    "tink_prf_compute": "object in size out",
    "tink_prf_free": "object",
    "tink_signer_new": "in object",
    "tink_signer_sign": "object in out",
    "tink_signer_verify": "object in out",
    "tink_signer_free": "object",
    "tink_writer_new": "in in in object",
    "tink_writer_bound": "object size length",
    "tink_writer_write": "object in out",
    "tink_writer_close": "object out",
    "tink_writer_free": "object",
    "tink_reader_new": "in in object",
    "tink_reader_feed": "object in length",
    "tink_reader_read": "object out",
    "tink_reader_end": "object",
    "tink_reader_free": "object",
    "tink_range_reader_new": "in in object",
    "tink_range_reader_read": "object in u64 u64 out",
    "tink_range_reader_free": "object",
}

# Enough random bytes for each call that takes some.
RANDOM_KEY = 576
RANDOM_ENCRYPT = 16
RANDOM_STREAM = 39

_TOO_LITTLE_ROOM = 42
_UNREAD = 50


class Handle(ctypes.Structure):
    """An object of the library. It begins as TINK_NONE."""

    _fields_ = [("at", ctypes.c_void_p), ("full", ctypes.c_bool)]


# Where a call writes a length.
Length = ctypes.c_size_t

_NUMBERS: Dict[str, Any] = {"u32": ctypes.c_uint32, "u64": ctypes.c_uint64, "size": ctypes.c_size_t}

_TYPES: Dict[str, List[Any]] = {
    "in": [ctypes.c_char_p, ctypes.c_size_t],
    "out": [ctypes.c_char_p, ctypes.c_size_t, ctypes.POINTER(ctypes.c_size_t)],
    "bool": [ctypes.c_bool],
    "object": [ctypes.POINTER(Handle)],
    "length": [ctypes.POINTER(ctypes.c_size_t)],
    **{kind: [number] for kind, number in _NUMBERS.items()},
}


def _opened() -> ctypes.CDLL:
    given = os.environ.get("TINK_LIBRARY")
    beside = os.path.join(os.path.dirname(os.path.abspath(__file__)), "libtink.so")
    places = [given] if given else [beside] * os.path.exists(beside) + ["libtink.so", "/usr/local/lib/libtink.so"]
    causes = []
    for place in places:
        try:
            return ctypes.CDLL(place)
        except OSError as error:
            causes.append(str(error))
    raise ImportError(
        f"libtink.so was not loaded ({'; '.join(causes)}): run `make install`, or give its path in TINK_LIBRARY"
    )


def _load() -> ctypes.CDLL:
    library = _opened()
    for name, kinds in FUNCTIONS.items():
        try:
            function = getattr(library, name)
        except AttributeError:
            raise ImportError(
                f"{library._name} has no {name}: it is another or an older library. Give the path of this one in TINK_LIBRARY"
            ) from None
        function.argtypes = [each for kind in kinds.split() for each in _TYPES[kind]]
        function.restype = None if name.endswith("_free") else ctypes.c_uint8
    return library


_lib = _load()


def random(count: int) -> bytes:
    """Fresh bytes of the system's random source."""
    return os.urandom(count)


def data_of(value: Data) -> bytes:
    """The bytes of an input. A text is none: it has to be encoded."""
    if not isinstance(value, (bytes, bytearray, memoryview)):
        raise TypeError(f"bytes are wanted, not {type(value).__name__}")
    return bytes(value)


class Rest:
    """An input of which a call takes bytes from the beginning on. The rest of it is no copy."""

    def __init__(self, data: Data = b"") -> None:
        self._data, self._at = data_of(data), 0
        self._start = ctypes.c_char_p(self._data)

    def __len__(self) -> int:
        return len(self._data) - self._at

    def take(self, count: int) -> None:
        """The rest begins so many bytes later."""
        self._at += count

    def passed(self) -> List[Any]:
        """The pointer and the length."""
        start = ctypes.cast(self._start, ctypes.c_void_p).value or 0
        return [ctypes.c_char_p(start + self._at), len(self)]


def number_of(kind: str, value: int) -> int:
    """A number that the library's type has."""
    number = operator.index(value)
    if not 0 <= number < 1 << 8 * ctypes.sizeof(_NUMBERS[kind]):
        raise ValueError(f"{number} is no number from 0 to 2^{8 * ctypes.sizeof(_NUMBERS[kind])} - 1")
    return number


def _passed(name: str, values: Any) -> List[Any]:
    kinds = [kind for kind in FUNCTIONS[name].split() if kind != "out"]
    if len(kinds) != len(values):
        raise TypeError(f"{name} takes {len(kinds)} values, not {len(values)}")
    passed: List[Any] = []
    for kind, value in zip(kinds, values):
        if kind == "in" and isinstance(value, Rest):
            passed += value.passed()
        elif kind == "in":
            data = data_of(value)
            passed += [data, len(data)]
        elif kind in ("object", "length"):
            passed.append(ctypes.byref(value))
        else:
            passed.append(bool(value) if kind == "bool" else number_of(kind, value))
    return passed


def done(name: str, *values: Any) -> None:
    """Does a call that gives no output, or raises its error."""
    status = getattr(_lib, name)(*_passed(name, values))
    if status != 0:
        raise error_of(status)


def is_read(name: str, *values: Any) -> bool:
    """Does a call of a reader that gives no output, or raises its error. Whether no text waits."""
    status = getattr(_lib, name)(*_passed(name, values))
    if status not in (0, _UNREAD):
        raise error_of(status)
    return status == 0


def into(name: str, buffer: memoryview, *values: Any) -> int:
    """The length of the output of a call, for which the buffer of the caller has room."""
    passed, written = _passed(name, values), ctypes.c_size_t(0)
    out = (ctypes.c_char * len(buffer)).from_buffer(buffer)
    status = getattr(_lib, name)(*passed, out, len(buffer), ctypes.byref(written))
    # An error does not keep the buffer.
    del out
    if status != 0:
        raise error_of(status)
    return written.value


def free(name: str, handle: Handle) -> None:
    """Frees what an object holds."""
    getattr(_lib, name)(ctypes.byref(handle))


def output(name: str, room: int, *values: Any) -> bytes:
    """The output of a call. `room` is how long it is, as far as we know."""
    passed, call = _passed(name, values), getattr(_lib, name)
    written = ctypes.c_size_t(0)
    while True:
        out = ctypes.create_string_buffer(max(room, 1))
        status = call(*passed, out, len(out), ctypes.byref(written))
        if status == 0:
            return bytes(memoryview(out)[: written.value])
        if status != _TOO_LITTLE_ROOM:
            raise error_of(status)
        room = written.value


class Place:
    """A buffer for outputs, which is kept from one call to the next."""

    def __init__(self) -> None:
        self._buffer = ctypes.create_string_buffer(1)

    def output(self, name: str, *values: Any) -> memoryview:
        """The output of a call, until the next one. A call that wants more room is made again."""
        passed, call = _passed(name, values), getattr(_lib, name)
        written = ctypes.c_size_t(0)
        while True:
            status = call(*passed, self._buffer, len(self._buffer), ctypes.byref(written))
            if status == 0:
                return memoryview(self._buffer).cast("B")[: written.value]
            if status != _TOO_LITTLE_ROOM:
                raise error_of(status)
            self._buffer = ctypes.create_string_buffer(written.value + written.value // 8)
