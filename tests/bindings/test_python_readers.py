"""The readers of the Python package: whole streams in any pieces, refused ones, sources that are none, and threads."""

import array
import gc
import io
import mmap
import os
import random
import resource
import shutil
import sys
import tempfile
import threading
import unittest

sys.path.insert(0, os.path.join(os.path.dirname(os.path.abspath(__file__)), "../../bindings/python"))

import tink_proved  # noqa: E402
from tink_proved import Keyset, RangeReader, StreamReader  # noqa: E402


class Source:
    """A file of which each read gives so many bytes at most. It counts its reads."""

    def __init__(self, data, most):
        self.data, self.most, self.at, self.reads = data, most, 0, 0

    def read(self, count):
        self.reads += 1
        part = self.data[self.at : self.at + min(self.most, count)]
        self.at += len(part)
        return part


def streams():
    """The streams of the vectors: keys, associated data, stream and text."""
    with open(os.environ["TINK_VECTORS"]) as file:
        for line in file:
            kind, *parts = line.split() if line.strip() else ("#",)
            if kind in ("stream", "seal"):
                parts = [b"" if part == "-" else bytes.fromhex(part) for part in parts]
                keys, data, stream, text = parts if kind == "stream" else (parts[0], parts[2], parts[4], parts[1])
                yield Keyset(keys), data, stream, text


def drained(keys, stream, data=b"", most=1 << 16, size=1 << 16):
    """What a reader gave, and the error that ended it or none."""
    text = b""
    with StreamReader(Source(stream, most), keys, data) as reader:
        try:
            while True:
                part = reader.read(size)
                if part == b"":
                    assert reader.read(size) == b"", "text behind the end"
                    return text, None
                text += part
        except tink_proved.TinkError as error:
            for _ in range(2):
                try:
                    raise AssertionError(f"a read after an error gives {reader.read(size)}")
                except tink_proved.FailedBefore:
                    pass
            return text, type(error)


class Streams(unittest.TestCase):
    def refuses(self, keys, stream, data, text, *errors):
        """A reader gives at most the start of the text, and then the error of an opening."""
        got, error = drained(keys, stream, data)
        with self.assertRaises(tink_proved.TinkError) as raised:
            tink_proved.open_stream(keys, stream, data)
        self.assertIs(error, type(raised.exception))
        self.assertTrue(text.startswith(got))
        if errors:
            self.assertIn(error, errors)

    def test_vectors(self):
        checked = 0
        for keys, data, stream, text in streams():
            for most in (1, 3, 7, 1 << 16):
                for size in (1, 5, 1 << 16):
                    self.assertEqual(drained(keys, stream, data, most, size), (text, None))
            for cut in range(len(stream)):
                self.refuses(keys, stream[:cut], data, text)
            for at in range(len(stream)):
                self.refuses(keys, stream[:at] + bytes([stream[at] ^ 1]) + stream[at + 1 :], data, text)
            for more in (b"\0", bytes(16), bytes(17), stream):
                self.refuses(keys, stream + more, data, text)
            self.refuses(keys, stream, data + b"x", b"", tink_proved.NoMatchingKey)
            foreign = Keyset.create("AES128_CTR_HMAC_SHA256_4KB")
            self.refuses(foreign, stream, data, b"", tink_proved.NoMatchingKey)
            checked += 1
        self.assertEqual(checked, 6)

    def test_segments(self):
        chance = random.Random(5)
        keys = Keyset.create("AES128_GCM_HKDF_4KB").rotate("AES256_GCM_HKDF_1MB")
        for each in (keys, Keyset.create("AES128_GCM_HKDF_4KB"), Keyset.create("AES256_CTR_HMAC_SHA256_4KB")):
            for length in (0, 1, 4000, 4056, 9000, 100_000):
                text = chance.randbytes(length)
                stream = tink_proved.seal_stream(each, text, b"its name")
                for most, size in ((1000, 1 << 20), (4096, 999), (1 << 16, 4096)):
                    self.assertEqual(drained(each, stream, b"its name", most, size), (text, None))
                for cut in {4096, 4097, 8192, 12288, len(stream) - 1} & set(range(len(stream))):
                    self.refuses(each, stream[:cut], b"its name", text)
        stream = tink_proved.seal_stream(each, text)
        self.assertIs(drained(each, stream[: 2 * 4096 + 5])[1], tink_proved.Truncated)
        self.assertIs(drained(each, b"")[1], tink_proved.NoMatchingKey)

    def test_random_pieces(self):
        chance, keys = random.Random(9), Keyset.create("AES128_GCM_HKDF_4KB")
        for _ in range(60):
            text = chance.randbytes(chance.randrange(30_000))
            stream = bytearray(tink_proved.seal_stream(keys, text))
            most, size = chance.randrange(1, 6000), chance.randrange(1, 6000)
            self.assertEqual(drained(keys, bytes(stream), b"", most, size), (text, None))
            stream[chance.randrange(len(stream))] ^= 1 << chance.randrange(8)
            self.refuses(keys, bytes(stream), b"", text)

    def test_written_and_read(self):
        """A file of 3 MiB by a writer, read by each way to read a file."""
        keys, text = Keyset.create("AES256_GCM_HKDF_1MB"), random.randbytes(1 << 20) * 3
        with tempfile.TemporaryFile() as file, tempfile.TemporaryFile() as copy:
            with tink_proved.encrypting_writer(file, keys, b"its name") as writer:
                shutil.copyfileobj(io.BytesIO(text), writer)
            ways = [
                lambda reader: reader.read(),
                lambda reader: reader.readall(),
                lambda reader: b"".join(iter(lambda: reader.read(10_000), b"")),
                lambda reader: io.BufferedReader(reader).read(),
                lambda reader: (shutil.copyfileobj(reader, copy), copy.seek(0), copy.read())[2],
            ]
            for way in ways:
                file.seek(0)
                with StreamReader(file, keys, b"its name") as reader:
                    self.assertEqual(way(reader), text)
            file.seek(0)
            self.assertEqual(file.read(1)[0], 40)

    def test_lines(self):
        keys = Keyset.create("AES128_GCM_HKDF_4KB")
        lines = [f"line {number} of the file\n" for number in range(2000)]
        stream = tink_proved.seal_stream(keys, "".join(lines).encode())
        with io.TextIOWrapper(io.BufferedReader(StreamReader(io.BytesIO(stream), keys))) as reader:
            self.assertEqual(list(reader), lines)
        with io.TextIOWrapper(io.BufferedReader(StreamReader(io.BytesIO(stream[:-1]), keys))) as reader:
            self.assertRaises(tink_proved.BadSegment, list, reader)


class Sources(unittest.TestCase):
    keys = Keyset.create("AES128_GCM_HKDF_4KB")
    text = bytes(range(256)) * 64
    stream = tink_proved.seal_stream(keys, text)

    def test_text_mode(self):
        for file in (io.StringIO("text"), io.TextIOWrapper(io.BytesIO(self.stream))):
            with self.assertRaisesRegex(TypeError, "binary mode"):
                StreamReader(file, self.keys)
        with self.assertRaisesRegex(TypeError, "binary mode"):
            StreamReader(Source("a text", 3), self.keys).read()
        with self.assertRaises(TypeError):
            StreamReader(Source([1, 2], 3), self.keys).read()

    def test_a_file_that_does_not_wait(self):
        """It is refused while it has no bytes. The reader is as before, and goes on where bytes come."""
        ours, theirs = os.pipe()
        os.set_blocking(ours, False)
        with open(ours, "rb", buffering=0) as file, StreamReader(file, self.keys) as reader:
            for _ in range(2):
                with self.assertRaisesRegex(BlockingIOError, "waits"):
                    reader.read()
            os.write(theirs, self.stream[:9000])
            self.assertEqual(reader.read(100), self.text[:100])
            with self.assertRaises(BlockingIOError):
                while reader.read(4096):
                    pass
            os.write(theirs, self.stream[9000:])
            os.close(theirs)
            rest = reader.read()
            self.assertTrue(len(rest) > 4096 and self.text.endswith(rest))

    def test_a_file_that_fails(self):
        """Its error goes through, and is no end. The reader goes on afterwards."""

        class Failing(Source):
            def read(self, count):
                if self.reads % 2 == 0:
                    self.reads += 1
                    raise OSError("a fault")
                return super().read(count)

        text, faults = b"", 0
        with StreamReader(Failing(self.stream, 1000), self.keys) as reader:
            while True:
                try:
                    part = reader.read(5000)
                except OSError:
                    faults += 1
                    continue
                if not part:
                    break
                text += part
        self.assertEqual(text, self.text)
        self.assertGreater(faults, 16)

    def test_places(self):
        file = Source(self.stream, 1 << 16)
        reader = StreamReader(file, self.keys)
        self.assertTrue(reader.readable() and not reader.writable() and not reader.seekable())
        self.assertEqual((reader.readinto(bytearray()), reader.read(0), file.reads), (0, b"", 0))
        numbers = array.array("I", [0] * 50)
        self.assertEqual(reader.readinto(numbers), 200)
        self.assertEqual(numbers.tobytes(), self.text[:200])
        self.assertRaises(TypeError, reader.readinto, bytes(10))
        place = bytearray(100)
        self.assertEqual(reader.readinto(memoryview(place)[10:20]), 10)
        self.assertEqual(place, bytes(10) + self.text[200:210] + bytes(80))
        reader.close()
        reader.close()
        self.assertRaises(ValueError, reader.read)
        self.assertRaises(ValueError, reader.readinto, place)
        # An error leaves the buffer as it was.
        reader = StreamReader(io.BytesIO(self.stream[:-1]), self.keys)
        for _ in range(100):
            try:
                place = bytearray(b"x" * 5000)
                place[reader.readinto(place) :] = b""
            except tink_proved.TinkError as error:
                kept = error
                break
        self.assertEqual((type(kept), place), (tink_proved.BadSegment, b"x" * 5000))

    def test_refused(self):
        for make in (lambda keys: StreamReader(Source(b"", 1), keys), lambda keys: RangeReader(keys, self.stream)):
            self.assertRaises(tink_proved.BadKeyset, make, Keyset(b"no keyset"))
            self.assertRaises(tink_proved.WrongPrimitive, make, Keyset.create("AES128_GCM"))
        self.assertRaises(TypeError, StreamReader, Source(b"", 1), self.keys, "data")
        self.assertRaises(TypeError, RangeReader, self.keys, "a text")
        self.assertRaises(TypeError, RangeReader, self.keys, 5)

    def test_memory(self):
        """Readers that are dropped in the middle of a stream give their memory back: those here would hold 2 GiB."""
        keys = Keyset.create("AES256_GCM_HKDF_1MB")
        stream = tink_proved.seal_stream(keys, bytes(10))
        StreamReader(io.BytesIO(stream), keys).read()
        before = resource.getrusage(resource.RUSAGE_SELF).ru_maxrss
        for _ in range(1000):
            StreamReader(io.BytesIO(stream), keys).read(3)
            RangeReader(keys, stream).read(3)
        gc.collect()
        self.assertLess(resource.getrusage(resource.RUSAGE_SELF).ru_maxrss - before, 64 << 10)


class Ranges(unittest.TestCase):
    keys = Keyset.create("AES128_GCM_HKDF_4KB")
    text = random.Random(3).randbytes(20_000)
    stream = tink_proved.seal_stream(keys, text, b"its name")

    def test_any_place(self):
        chance = random.Random(4)
        with tempfile.TemporaryFile() as file:
            file.write(self.stream)
            file.flush()
            with mmap.mmap(file.fileno(), 0, access=mmap.ACCESS_READ) as mapped:
                held = [self.stream, bytearray(self.stream), memoryview(self.stream), mapped]
                for stream in held:
                    with RangeReader(self.keys, stream, b"its name") as reader:
                        for _ in range(50):
                            start, length = chance.randrange(21_000), chance.randrange(6000)
                            self.assertEqual(reader.seek(start), start)
                            self.assertEqual(reader.read(length), self.text[start : start + length])
                            self.assertEqual(reader.tell(), start + len(self.text[start : start + length]))
                        reader.seek(7)
                        self.assertEqual(reader.read(), self.text[7:])
                        self.assertEqual((reader.read(), reader.read(5)), (b"", b""))

    def test_refused(self):
        changed = bytearray(self.stream)
        changed[9000] ^= 1
        for stream, data, error in (
            (changed, b"its name", tink_proved.BadSegment),
            (self.stream[:-4000], b"its name", tink_proved.BadSegment),
            (self.stream, b"another", tink_proved.NoMatchingKey),
            (b"", b"its name", tink_proved.NoMatchingKey),
        ):
            reader, place = RangeReader(self.keys, stream, data), bytearray(b"x" * 100)
            reader.seek(9000)
            self.assertRaises(error, reader.read, 100)
            self.assertRaises(error, reader.readinto, place)
            self.assertEqual((place, reader.tell()), (b"x" * 100, 9000))
            # An error keeps no buffer: it may grow.
            try:
                reader.readinto(place)
            except tink_proved.TinkError as raised:
                kept = raised
            place += b"y"
            self.assertIs(type(kept), error)
        reader = RangeReader(self.keys, changed, b"its name")
        self.assertEqual((reader.read(1000), reader._handle.full), (self.text[:1000], True))
        reader.close()
        reader.close()
        self.assertFalse(reader._handle.full)
        self.assertRaises(ValueError, reader.read)
        self.assertRaises(ValueError, reader.read, 5)


class Threads(unittest.TestCase):
    def together(self, works):
        """Does these works at once, each in a thread, and raises what one of them raised."""
        failed = []

        def do(work):
            try:
                work()
            except BaseException as error:  # noqa: B902
                failed.append(error)

        threads = [threading.Thread(target=do, args=(work,)) for work in works]
        for thread in threads:
            thread.start()
        for thread in threads:
            thread.join()
        self.assertEqual(failed, [])

    def test_a_reader_each(self):
        keys, text = Keyset.create("AES128_GCM_HKDF_4KB"), random.randbytes(200_000)
        stream = tink_proved.seal_stream(keys, text)

        def work():
            for _ in range(5):
                assert drained(keys, stream, b"", 5000, 7000) == (text, None)
                with RangeReader(keys, stream) as reader:
                    reader.seek(100_000)
                    assert reader.read(100) == text[100_000:100_100]

        self.together([work, work])

    def test_a_shared_one(self):
        """Reads of more threads come one after another: each byte is given once. A close waits for them."""
        keys = Keyset.create("AES128_GCM_HKDF_4KB")
        stream = tink_proved.seal_stream(keys, bytes(range(256)) * 4000)
        reader, parts = StreamReader(Source(stream, 3000), keys), []
        ranges, writer = RangeReader(keys, stream), tink_proved.encrypting_writer(io.BytesIO(), keys)

        def work():
            while True:
                part = reader.read(1000)
                if not part:
                    return
                parts.append(part)
                writer.write(part)
                ranges.seek(0)
                ranges.read(100)

        self.together([work, work, work])
        self.assertEqual(sorted(b"".join(parts)), sorted(bytes(range(256)) * 4000))

        def read_on():
            try:
                while True:
                    ranges.seek(0)
                    ranges.read(5000)
            except ValueError:
                pass

        self.together([read_on, read_on, ranges.close])


if __name__ == "__main__":
    unittest.main()
