"""Streams: written in pieces, or held whole and sealed, opened, read by ranges, and moved to another keyset."""

import io
import threading
from typing import Any, BinaryIO

from . import _library as lib
from .keysets import Keyset


def seal_stream(keyset: Keyset, plaintext: bytes, associated_data: bytes = b"") -> bytes:
    """The stream of a plaintext under the primary key. The program `tink decrypt` opens it."""
    random = lib.random(lib.RANDOM_STREAM)
    room = len(plaintext) + len(plaintext) // 64 + 1024
    return lib.output("tink_seal_stream", room, bytes(keyset), plaintext, associated_data, random)


def open_stream(keyset: Keyset, stream: bytes, associated_data: bytes = b"") -> bytes:
    """The plaintext of a stream."""
    return lib.output("tink_open_stream", len(stream), bytes(keyset), stream, associated_data)


def read_range(keyset: Keyset, stream: bytes, associated_data: bytes, start: int, length: int) -> bytes:
    """The bytes of the plaintext from the place `start` on, at most `length` of them."""
    room = min(length, len(stream))
    return lib.output("tink_read_range", room, bytes(keyset), stream, associated_data, start, length)


def rewrap_stream(keyset: Keyset, associated_data: bytes, to: Keyset, to_associated_data: bytes, stream: bytes) -> bytes:
    """The stream of the same plaintext under the primary key of the keyset `to`."""
    random = lib.random(lib.RANDOM_STREAM)
    room = len(stream) + len(stream) // 64 + 1024
    return lib.output(
        "tink_rewrap_stream", room, bytes(keyset), associated_data, bytes(to), to_associated_data, stream, random
    )


class EncryptingWriter(io.RawIOBase):
    """A file whose bytes are encrypted into another file, in the memory of a segment. `close`, or the end of a `with`, writes
    the last segment; the other file stays open. If an exception ends the `with`, the last segment is not written, so that the
    stream does not pass for whole. The same holds of a writer that is dropped."""

    def __init__(self, file: BinaryIO, keyset: Keyset, associated_data: bytes = b"") -> None:
        self._file, self._handle, self._place, self._lock = file, lib.Handle(), lib.Place(), threading.Lock()
        lib.done("tink_writer_new", bytes(keyset), associated_data, lib.random(lib.RANDOM_STREAM), self._handle)

    def writable(self) -> bool:
        return True

    def write(self, data: Any) -> int:
        """Encrypts all of the data, and writes the segments that are full."""
        with self._lock:
            if self.closed:
                raise ValueError("write to a closed file")
            self._put(self._place.output("tink_writer_write", self._handle, data))
        return len(memoryview(data).cast("B"))

    def close(self) -> None:
        """Writes the last segment. A second call does nothing."""
        with self._lock:
            if self.closed:
                return
            try:
                self._put(self._place.output("tink_writer_close", self._handle))
            finally:
                self._free()

    def _put(self, part: memoryview) -> None:
        while part:
            count = self._file.write(part)
            part = part[len(part) if count is None else count :]

    def _free(self) -> None:
        lib.free("tink_writer_free", self._handle)
        super().close()

    def __exit__(self, kind: Any, *_: Any) -> None:
        if kind is None:
            self.close()
            return
        with self._lock:
            if not self.closed:
                self._free()

    def __del__(self) -> None:
        if not self.closed:
            self._free()


def encrypting_writer(file: BinaryIO, keyset: Keyset, associated_data: bytes = b"") -> EncryptingWriter:
    """A file whose bytes are encrypted into another file, under the primary key. The program `tink decrypt` opens it."""
    return EncryptingWriter(file, keyset, associated_data)
