"""Streams that are read: in pieces from a file, or at any place from memory."""

import io
import threading
from typing import Any, BinaryIO

from . import _library as lib
from .keysets import Keyset

# How many bytes of a file are read at once.
_PIECE = 1 << 16


class StreamReader(io.RawIOBase):
    """The plaintext of a stream, which is read from another file in the memory of a segment. A read gives b"" at the end of a
    whole stream alone. Else it raises `Truncated`, `BadSegment` or `NoMatchingKey`, and each later read raises `FailedBefore`.
    What was read before is then the start of the plaintext. The other file stays open, and is read to its end."""

    def __init__(self, file: BinaryIO, keyset: Keyset, associated_data: bytes = b"") -> None:
        self._lock, self._handle = threading.Lock(), lib.Handle()
        if isinstance(file, io.TextIOBase):
            raise TypeError("a stream is bytes, and the file gives text: open it in binary mode")
        self._file, self._piece, self._is_last, self._is_whole = file, lib.Rest(), False, False
        lib.done("tink_reader_new", bytes(keyset), associated_data, self._handle)

    def readable(self) -> bool:
        return True

    def readinto(self, buffer: Any) -> int:
        """Fills the buffer with plaintext, or a part of it. 0 says that the stream was read to its end, and is whole."""
        with self._lock, memoryview(buffer) as view, view.cast("B") as place:
            if self.closed:
                raise ValueError("read of a closed file")
            count = 0
            while place and count == 0 and not self._is_whole:
                count = lib.into("tink_reader_read", place, self._handle)
                if count == 0:
                    self._go_on()
            return count

    def close(self) -> None:
        """Frees the keys. A second call does nothing."""
        with self._lock:
            if not self.closed:
                lib.free("tink_reader_free", self._handle)
                super().close()

    def _go_on(self) -> None:
        """Hands in what follows, or says that nothing does."""
        if not self._piece and not self._is_last:
            piece = self._file.read(_PIECE)
            if piece is None:
                raise BlockingIOError("the file has no bytes yet: a stream is read from a file that waits for them")
            if isinstance(piece, str):
                raise TypeError("a stream is bytes, and the file gives text: open it in binary mode")
            self._piece, self._is_last = lib.Rest(piece), len(piece) == 0
        if self._is_last:
            self._is_whole = lib.is_read("tink_reader_end", self._handle)
        else:
            taken = lib.Length(0)
            lib.is_read("tink_reader_feed", self._handle, self._piece, taken)
            self._piece.take(taken.value)


class RangeReader(io.RawIOBase):
    """The plaintext of a stream in memory as a file that is read at any place. The keyset is loaded once. Each read opens the
    first segment, the last one and those that it reads."""

    def __init__(self, keyset: Keyset, stream: Any, associated_data: bytes = b"") -> None:
        self._lock, self._handle, self._at = threading.Lock(), lib.Handle(), 0
        self._stream = stream if isinstance(stream, bytes) else bytes(memoryview(stream))
        lib.done("tink_range_reader_new", bytes(keyset), associated_data, self._handle)

    def readable(self) -> bool:
        return True

    def seekable(self) -> bool:
        return True

    def tell(self) -> int:
        return self._at

    def seek(self, offset: int, whence: int = io.SEEK_SET) -> int:
        """Moves to a place from the beginning or from here. The end is not known before it is read."""
        if whence == io.SEEK_END:
            raise io.UnsupportedOperation("the length of the plaintext is not known")
        place = offset + (self._at if whence == io.SEEK_CUR else 0)
        if place < 0:
            raise ValueError(f"there is no place {place}")
        self._at = place
        return self._at

    def readinto(self, buffer: Any) -> int:
        with self._lock, memoryview(buffer) as view, view.cast("B") as place:
            self._is_open()
            count = 0
            if place:
                count = lib.into("tink_range_reader_read", place, self._handle, self._stream, self._at, len(place))
            self._at += count
            return count

    def readall(self) -> bytes:
        """All that is left, by one call."""
        with self._lock:
            self._is_open()
            room = max(len(self._stream) - self._at, 0)
            part = lib.output("tink_range_reader_read", room, self._handle, self._stream, self._at, len(self._stream))
            self._at += len(part)
            return part

    def close(self) -> None:
        """Frees the keys. A second call does nothing."""
        with self._lock:
            if not self.closed:
                lib.free("tink_range_reader_free", self._handle)
                super().close()

    def _is_open(self) -> None:
        if self.closed:
            raise ValueError("read of a closed file")
