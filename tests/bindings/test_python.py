"""The Python package: the vectors, keysets, errors, buffers and streams."""

import ctypes
import ctypes.util
import io
import json
import os
import pickle
import random
import re
import subprocess
import sys
import threading
import unittest

sys.path.insert(0, os.path.join(os.path.dirname(os.path.abspath(__file__)), "../../bindings/python"))

import tink_proved  # noqa: E402
from tink_proved import Aead, DeterministicAead, Keyset, Mac, Prf, Signer  # noqa: E402
from tink_proved import _library as lib  # noqa: E402


def vectors():
    with open(os.environ["TINK_VECTORS"]) as file:
        for line in file:
            if line.strip() and not line.startswith("#"):
                kind, *parts = line.split()
                yield kind, [b"" if part == "-" else bytes.fromhex(part) for part in parts]


class Vectors(unittest.TestCase):
    def test_vectors(self):
        seen = set()
        for kind, parts in vectors():
            seen.add(kind)
            getattr(self, kind)(*parts)
        self.assertEqual(seen, {"aead", "daead", "mac", "prf", "token", "stream", "seal", "create"})

    def aead(self, keyset, plaintext, data, random, ciphertext):
        self.assertEqual(lib.output("tink_encrypt", 0, keyset, plaintext, data, random), ciphertext)
        self.assertEqual(lib.output("tink_decrypt", 0, keyset, ciphertext, data), plaintext)
        aead = Aead(Keyset(keyset))
        self.assertEqual(aead._output("encrypt", 0, plaintext, data, random), ciphertext)
        self.assertEqual(aead.decrypt(ciphertext, data), plaintext)
        with self.assertRaises(tink_proved.DecryptFailed):
            aead.decrypt(ciphertext, data + b"x")

    def daead(self, keyset, plaintext, data, ciphertext):
        self.assertEqual(lib.output("tink_encrypt_deterministically", 0, keyset, plaintext, data), ciphertext)
        self.assertEqual(lib.output("tink_decrypt_deterministically", 0, keyset, ciphertext, data), plaintext)
        daead = DeterministicAead(Keyset(keyset))
        self.assertEqual(daead.encrypt_deterministically(plaintext, data), ciphertext)
        self.assertEqual(daead.decrypt_deterministically(ciphertext, data), plaintext)

    def mac(self, keyset, message, tag):
        self.assertEqual(lib.output("tink_compute_mac", 0, keyset, message), tag)
        lib.done("tink_verify_mac", keyset, tag, message)
        mac = Mac(Keyset(keyset))
        self.assertEqual(mac.compute_mac(message), tag)
        mac.verify_mac(tag, message)
        with self.assertRaises(tink_proved.MacMismatch):
            mac.verify_mac(tag, message + b"x")

    def prf(self, keyset, value, output):
        self.assertEqual(lib.output("tink_compute_prf", 0, keyset, value, len(output)), output)
        self.assertEqual(Prf(Keyset(keyset)).compute(value, len(output)), output)

    def token(self, keyset, token, payload):
        self.assertEqual(tink_proved.sign_token(Keyset(keyset), payload), token)
        self.assertEqual(tink_proved.verify_token(Keyset(keyset), token), payload)
        with Signer(Keyset(keyset)) as signer:
            self.assertEqual(signer.sign(payload), token)
            self.assertEqual(signer.verify(token), payload)

    def stream(self, keyset, data, stream, text):
        keys = Keyset(keyset)
        self.assertEqual(tink_proved.open_stream(keys, stream, data), text)
        reader = tink_proved.RangeReader(keys, stream, data)
        reader.seek(1)
        self.assertEqual(reader.read(), text[1:])

    def seal(self, keyset, text, data, random, stream):
        self.assertEqual(lib.output("tink_seal_stream", 0, keyset, text, data, random), stream)
        for length in (1, 3, len(text) + 1):
            handle, place = lib.Handle(), lib.Place()
            lib.done("tink_writer_new", keyset, data, random, handle)
            parts = [text[at : at + length] for at in range(0, len(text), length)]
            given = [bytes(place.output("tink_writer_write", handle, part)) for part in parts]
            given.append(bytes(place.output("tink_writer_close", handle)))
            self.assertEqual(b"".join(given), stream)
            lib.free("tink_writer_free", handle)

    def create(self, template, random, keyset):
        self.assertEqual(lib.output("tink_keyset_create", 0, template, False, random), keyset)


class Writers(unittest.TestCase):
    keys = Keyset.create("AES128_GCM_HKDF_4KB")

    def test_pieces(self):
        text = random.randbytes(30_000)
        for length in (1000, 4096, 65536):
            file = io.BytesIO()
            with tink_proved.encrypting_writer(file, self.keys, b"its name") as writer:
                for at in range(0, len(text), length):
                    part = memoryview(text)[at : at + length]
                    self.assertEqual(writer.write(part), len(part))
            self.assertEqual(tink_proved.open_stream(self.keys, file.getvalue(), b"its name"), text)

    def test_a_file_that_takes_little(self):
        class Slow(io.BytesIO):
            def write(self, data):
                return super().write(data[:100])

        file = Slow()
        with io.BufferedWriter(tink_proved.encrypting_writer(file, self.keys)) as writer:
            writer.write(bytes(10_000))
        self.assertEqual(tink_proved.open_stream(self.keys, file.getvalue()), bytes(10_000))

    def test_the_end(self):
        file = io.BytesIO()
        writer = tink_proved.encrypting_writer(file, self.keys)
        self.assertTrue(writer.writable() and not writer.readable() and file.getvalue() == b"")
        writer.close()
        writer.close()
        self.assertEqual(tink_proved.open_stream(self.keys, file.getvalue()), b"")
        self.assertRaises(ValueError, writer.write, b"more")

    def test_no_end(self):
        """A stream whose writer was not closed does not open."""
        first, second = io.BytesIO(), io.BytesIO()
        with self.assertRaises(KeyError):
            with tink_proved.encrypting_writer(first, self.keys) as writer:
                writer.write(bytes(10_000))
                raise KeyError
        writer = tink_proved.encrypting_writer(second, self.keys)
        writer.write(bytes(10_000))
        del writer
        for file in (first, second):
            self.assertGreater(len(file.getvalue()), 4096)
            with self.assertRaises((tink_proved.Truncated, tink_proved.BadSegment)):
                tink_proved.open_stream(self.keys, file.getvalue())

    def test_refused(self):
        file = io.BytesIO()
        self.assertRaises(tink_proved.BadKeyset, tink_proved.encrypting_writer, file, Keyset(b"no keyset"))
        self.assertRaises(TypeError, tink_proved.encrypting_writer(file, self.keys).write, "a text")
        self.assertEqual(file.getvalue(), b"")


class Keysets(unittest.TestCase):
    def test_rotation(self):
        keyset = Keyset.create("AES128_GCM")
        sealed = Aead(keyset).encrypt(b"a value", b"its column")
        old = keyset.primary_id
        keyset = keyset.rotate("AES128_GCM")
        self.assertNotEqual(keyset.primary_id, old)
        self.assertEqual(Aead(keyset).decrypt(sealed, b"its column"), b"a value")
        self.assertEqual([key.status for key in keyset.disable(old).keys()], ["disabled", "enabled"])
        with self.assertRaises(tink_proved.DecryptFailed):
            Aead(keyset.delete(old)).decrypt(sealed, b"its column")
        self.assertEqual(keyset.promote(old).primary_id, old)
        with self.assertRaises(tink_proved.IsPrimary):
            keyset.promote(old).destroy(old)
        self.assertEqual(len(keyset.disable(old).enable(old).add("AES128_GCM").keys()), 3)
        with self.assertRaises(tink_proved.WrongPrimitive):
            keyset.rotate("AES256_SIV")
        self.assertEqual(len(keyset.rotate("AES256_SIV", to_any=True).keys()), 3)
        self.assertEqual([key["id"] for key in json.loads(keyset.keys_json())], [key.id for key in keyset.keys()])

    def test_formats(self):
        keyset = Keyset.create("AES256_GCM", json=True)
        self.assertEqual(Keyset(keyset.to_binary()).to_json(), bytes(keyset))
        with self.assertRaises(tink_proved.BadKeyset):
            Keyset(b"\x0b").keys()
        with self.assertRaises(tink_proved.BadJson):
            Keyset(b"{").keys()
        with self.assertRaises(tink_proved.UnknownTemplate):
            Keyset.create("none")
        self.assertEqual(repr(keyset), "<Keyset>")

    def test_wrapping(self):
        master, keyset = Keyset.create("AES256_GCM"), Keyset.create("HMAC_SHA256_128BITTAG")
        wrapped = keyset.wrap(master, b"machine-1")
        self.assertEqual(Keyset.unwrap(wrapped, master, b"machine-1").to_json(), keyset.to_json())
        with self.assertRaises(tink_proved.MasterFailed):
            Keyset.unwrap(wrapped, master, b"machine-2")

    def test_closed(self):
        macs = Keyset.create("HMAC_SHA256_128BITTAG")
        calls = [
            (Aead(Keyset.create("AES128_GCM")), [lambda it: it.encrypt(b""), lambda it: it.decrypt(b"")]),
            (
                DeterministicAead(Keyset.create("AES256_SIV")),
                [lambda it: it.encrypt_deterministically(b""), lambda it: it.decrypt_deterministically(b"")],
            ),
            (Mac(macs), [lambda it: it.compute_mac(b""), lambda it: it.verify_mac(b"", b"")]),
            (Prf(Keyset.create("HKDF_SHA256")), [lambda it: it.compute(b"", 16)]),
            (Signer(macs), [lambda it: it.sign(b""), lambda it: it.verify(b"")]),
        ]
        for it, its in calls:
            it.close()
            it.close()
            for call in its:
                self.assertRaises(tink_proved.Closed, call, it)

    def test_shared(self):
        aead, failed = Aead(Keyset.create("AES256_GCM")), []

        def work(byte):
            try:
                for i in range(100):
                    assert aead.decrypt(aead.encrypt(byte * i), b"") == byte * i
            except BaseException as error:  # noqa: B902
                failed.append(error)

        threads = [threading.Thread(target=work, args=(byte,)) for byte in (b"a", b"b", b"c")]
        for thread in threads:
            thread.start()
        for thread in threads:
            thread.join()
        self.assertEqual(failed, [])

    def test_wrong_keys(self):
        with self.assertRaises(tink_proved.WrongPrimitive):
            Mac(Keyset.create("AES256_GCM")).compute_mac(b"")

    def test_prf(self):
        prf = Prf(Keyset.create("HKDF_SHA256"))
        self.assertEqual(prf.compute(b"input", 16), prf.compute(b"input", 32)[:16])
        with self.assertRaises(tink_proved.BadOutputLength):
            prf.compute(b"input", 1 << 20)

    def test_threads(self):
        keyset, failed = Keyset.create("AES256_GCM"), []

        def work():
            try:
                for i in range(50):
                    assert Aead(keyset).decrypt(Aead(keyset).encrypt(bytes(i)), b"") == bytes(i)
            except BaseException as error:  # noqa: B902
                failed.append(error)

        threads = [threading.Thread(target=work) for _ in range(2)]
        for thread in threads:
            thread.start()
        for thread in threads:
            thread.join()
        self.assertEqual(failed, [])


class Buffers(unittest.TestCase):
    def test_an_error_leaves_the_buffer(self):
        keyset = bytes(Keyset.create("AES256_GCM"))
        call = lib._lib.tink_decrypt
        out, written = ctypes.create_string_buffer(b"before", 64), ctypes.c_size_t(7)
        passed = lib._passed("tink_decrypt", [keyset, b"no ciphertext", b""])
        status = call(*passed, out, 64, ctypes.byref(written))
        self.assertEqual((status, out.value, written.value), (tink_proved.DecryptFailed.status, b"before", 0))

    def refuses(self, error, name, *values):
        """A call answers this status, writes 0 as the length, and leaves the buffer."""
        before = bytes(range(256)) * 16
        out, written = ctypes.create_string_buffer(before, len(before)), ctypes.c_size_t(7)
        passed = lib._passed(name, values)
        status = getattr(lib._lib, name)(*passed, out, len(before), ctypes.byref(written))
        self.assertEqual((status, written.value), (error.status, 0), error)
        self.assertEqual(bytes(out), before)
        self.seen.add(error)

    def test_every_error_leaves_the_buffer(self):
        """Each error but those of memory, of room and of more than 2^32 bytes."""
        t, self.seen = tink_proved, {tink_proved.OutOfMemory, tink_proved.TooLittleRoom}
        gcm, mac = bytes(Keyset.create("AES128_GCM")), bytes(Keyset.create("HMAC_SHA256_128BITTAG"))
        keys, prf = Keyset.create("AES128_GCM_HKDF_4KB"), bytes(Keyset.create("HKDF_SHA256"))
        ciphertext, key = Aead(Keyset(gcm)).encrypt(b"text"), Keyset(gcm).primary_id
        token, stream = tink_proved.sign_token(Keyset(mac), b"{}"), tink_proved.seal_stream(keys, bytes(9000))
        changed = stream[:5000] + bytes([stream[5000] ^ 1]) + stream[5001:]
        public = gcm.replace(b"SYMMETRIC", b"ASYMMETRIC_PUBLIC").replace(b'"primaryKeyId": %d' % key, b'"primaryKeyId": 0')
        two = bytes(Keyset(gcm).rotate("AES128_GCM").disable(key))
        with open(os.environ["TINK_VECTORS"]) as file:
            ctr = next(line.split()[1] for line in file if line.startswith("stream "))
        sha224 = bytes.fromhex(ctr.replace("10101803", "10101805"))
        for error, name, *values in (
            (t.BadKeyset, "tink_decrypt", b"\x0b", ciphertext, b""),
            (t.BadJson, "tink_decrypt", b"{", ciphertext, b""),
            (t.InvalidKeyset, "tink_decrypt", b"", ciphertext, b""),
            (t.UnsupportedKeyType, "tink_decrypt", gcm.replace(b"AesGcmKey", b"AnotherKey"), ciphertext, b""),
            (t.InvalidKey, "tink_decrypt", gcm.replace(b"AesGcmKey", b"HmacKey"), ciphertext, b""),
            (t.NoPrimary, "tink_decrypt", public, ciphertext, b""),
            (t.WrongPrimitive, "tink_decrypt", mac, ciphertext, b""),
            (t.UnsupportedHash, "tink_seal_stream", sha224, b"text", b"", os.urandom(39)),
            (t.NoMatchingKey, "tink_open_stream", bytes(keys), stream, b"another"),
            (t.BadSegment, "tink_open_stream", bytes(keys), changed, b""),
            (t.Truncated, "tink_open_stream", bytes(keys), stream[: 2 * 4096 + 5], b""),
            (t.UnknownTemplate, "tink_keyset_create", b"none", True, os.urandom(576)),
            (t.NoFreshId, "tink_keyset_create", b"AES128_GCM", True, bytes(576)),
            (t.BadToken, "tink_verify_token", mac, b"{}"),
            (t.MacMismatch, "tink_verify_token", bytes(Keyset.create("HMAC_SHA256_128BITTAG")), token),
            (t.KeyNotFound, "tink_keyset_promote", gcm, key ^ 1),
            (t.IsPrimary, "tink_keyset_delete", gcm, key),
            (t.WrongKeyStatus, "tink_keyset_promote", two, key),
            (t.MasterFailed, "tink_keyset_unwrap", gcm, Keyset(mac).wrap(Keyset(gcm)), b"another", True),
            (t.RandomFault, "tink_encrypt", gcm, b"text", b"", bytes(11)),
            (t.DecryptFailed, "tink_decrypt", gcm, ciphertext, b"another"),
            (t.NotRaw, "tink_compute_prf", prf.replace(b"RAW", b"TINK"), b"", 16),
            (t.BadOutputLength, "tink_compute_prf", prf, b"", 1 << 20),
            (t.Closed, "tink_aead_encrypt", lib.Handle(), b"text", b"", bytes(12)),
        ):
            with self.subTest(name=name, error=error):
                self.refuses(error, name, *values)
        huge = {tink_proved.TooManySegments, tink_proved.FailedBefore, tink_proved.TextTooLong, tink_proved.DataTooLong}
        # No call with a buffer answers Unread.
        self.assertEqual(set(tink_proved.errors.BY_STATUS.values()) - self.seen, huge | {tink_proved.Unread})

    def test_exceptions(self):
        self.assertEqual(len(tink_proved.errors.BY_STATUS), 31)
        for status, made in tink_proved.errors.BY_STATUS.items():
            error = tink_proved.errors.error_of(status)
            self.assertIs(type(error), made)
            self.assertIs(getattr(tink_proved, made.__name__), made)
            self.assertEqual(str(pickle.loads(pickle.dumps(error))), made.text)
        self.assertIn("status 99", str(tink_proved.errors.error_of(99)))


class Misuse(unittest.TestCase):
    """What the library's types do not have is refused before the call, since a wrong argument would break its memory."""

    def setUp(self):
        self.keyset = Keyset.create("AES256_GCM")
        self.keys = Keyset.create("AES128_GCM_HKDF_4KB")

    def test_no_bytes(self):
        for value in ("text", None, 5, [1, 2]):
            for call in (
                lambda: Aead(self.keyset).encrypt(b"", value),
                lambda: Aead(self.keyset).decrypt(b"", value),
                lambda: tink_proved.seal_stream(self.keys, b"", value),
                lambda: Keyset(value),
            ):
                self.assertRaises(TypeError, call)
        self.assertRaises(TypeError, Aead(self.keyset).encrypt, "text")
        sealed = Aead(self.keyset).encrypt(bytearray(b"text"), memoryview(b"data"))
        self.assertEqual(Aead(self.keyset).decrypt(memoryview(sealed), b"data"), b"text")

    def test_numbers(self):
        stream = tink_proved.seal_stream(self.keys, bytes(20000))
        for start, length in ((0, -1), (-1, 5), (1 << 64, 5), (0, 1 << 64)):
            self.assertRaises(ValueError, tink_proved.read_range, self.keys, stream, b"", start, length)
        self.assertEqual(tink_proved.read_range(self.keys, stream, b"", (1 << 64) - 1, (1 << 64) - 1), b"")
        for key_id in (-1, self.keyset.primary_id + (1 << 32)):
            self.assertRaises(ValueError, self.keyset.promote, key_id)
        self.assertRaises(TypeError, self.keyset.promote, 1.5)
        prf = Prf(Keyset.create("HKDF_SHA256"))
        self.assertRaises(ValueError, prf.compute, b"", -1)
        for length in (1 << 20, 1 << 45):
            self.assertRaises(tink_proved.BadOutputLength, prf.compute, b"", length)

    def test_places(self):
        reader = tink_proved.RangeReader(self.keys, tink_proved.seal_stream(self.keys, b"0123456789"))
        self.assertEqual((reader.seek(3), reader.seek(2, 1), reader.read(2), reader.read()), (3, 5, b"56", b"789"))
        self.assertRaises(ValueError, reader.seek, -1)
        self.assertRaises(OSError, reader.seek, 0, 2)
        self.assertEqual((reader.seek(100), reader.read(5), reader.read()), (100, b"", b""))

    def test_another_library(self):
        for place, word in (("/no/libtink.so", "make install"), (ctypes.util.find_library("m"), "no tink_")):
            environment = {**os.environ, "TINK_LIBRARY": place, "PYTHONPATH": os.pathsep.join(sys.path)}
            answer = subprocess.run(
                [sys.executable, "-c", "import tink_proved"], env=environment, stderr=subprocess.PIPE, text=True
            )
            self.assertNotEqual(answer.returncode, 0)
            for part in ("ImportError", place, word, "TINK_LIBRARY"):
                self.assertIn(part, answer.stderr)


OF_A_KEYSET = {"TINK_BAD_KEYSET", "TINK_BAD_JSON", "TINK_INVALID_KEYSET"}
OF_KEYS = OF_A_KEYSET | {"TINK_INVALID_KEY", "TINK_UNSUPPORTED_KEY_TYPE", "TINK_NO_PRIMARY", "TINK_WRONG_PRIMITIVE"}


# What is replaced in a file of keys, and by what.
WORDS = [(b"AesGcmKey", b"HmacKey"), (b"Key", b"Kez"), (b"ENABLED", b"DISABLED"), (b"TINK", b"RAW"), (b"RAW", b"TINK")]
WORDS += [(b"SYMMETRIC", b"ASYMMETRIC_PUBLIC"), (b'Id": ', b'Id": 1'), (b'"value": "', b'"value": "AA')]


class Statuses(unittest.TestCase):
    """No call answers a status that its comment in tink.h does not have. The calls are random, and their inputs mostly damaged."""

    def setUp(self):
        header = os.path.join(os.path.dirname(os.path.abspath(__file__)), "../../bindings/c/tink.h")
        with open(header) as file:
            text = file.read()
        self.names = {int(number): name for name, number in re.findall(r"(TINK_(?!RANDOM_[KES])\w+) = (\d+)", text)}
        self.comments, self.arguments = {}, {}
        for name, arguments in re.findall(r"^tink_status (tink_\w+)\((.*?)\);", text, re.M | re.S):
            before = text[: text.index(f" {name}(")].split("/*")[-1]
            self.comments[name] = before[before.index("Statuses:") : before.index("*/")]
            words = [argument.split()[-1].lstrip("*") for argument in arguments.split(",")]
            self.arguments[name] = [word for word in words if not re.search(r"_len$|^out$|^out_room$|^written$", word)]

    def allowed(self, name):
        comment = self.comments[name]
        allowed = set(re.findall(r"TINK_\w+", comment)) | {"TINK_OK", "TINK_TOO_LITTLE_ROOM"}
        for other in re.findall(r"those of (tink_\w+)", comment):
            allowed |= self.allowed(other)
        allowed |= OF_A_KEYSET if "of a keyset" in comment else set()
        return allowed | (OF_KEYS if "of keys" in comment else set())

    def made(self, chance):
        """Inputs by the name of the argument: first those that fit, by a word of the call's name, and then any."""
        templates = {"_mac": "HMAC_SHA256_128BITTAG", "_token": "HMAC_SHA256_128BITTAG", "_prf": "HKDF_SHA256"}
        templates.update(dict.fromkeys(("_stream", "_range", "_writer", "_reader"), "AES128_GCM_HKDF_4KB"), _deterministically="AES256_SIV")
        fits = {"": {"keyset": Keyset.create("AES128_GCM").rotate("AES128_GCM")}}
        for word, template in templates.items():
            fits[word] = {"keyset": Keyset.create(template)}
        gcm, siv, mac, keys = (fits[word]["keyset"] for word in ("", "_deterministically", "_mac", "_stream"))
        fits[""].update(ciphertext=Aead(gcm).encrypt(b"text", b"data"), wrapped=gcm.wrap(gcm, b"data"))
        fits["_deterministically"]["ciphertext"] = DeterministicAead(siv).encrypt_deterministically(b"text", b"data")
        fits["_mac"]["mac"] = Mac(mac).compute_mac(b"text")
        fits["_token"]["token"] = tink_proved.sign_token(fits["_token"]["keyset"], b"{}")
        fits["_stream"]["stream"] = tink_proved.seal_stream(keys, bytes(9000), b"data")
        fits["_stream"]["to_keyset"] = fits["_range"]["keyset"] = fits["_writer"]["keyset"] = fits["_reader"]["keyset"] = keys
        fits["_range"]["stream"] = fits["_reader"]["stream"] = fits["_stream"]["stream"]
        fits["_reader"]["piece"] = tink_proved.seal_stream(keys, b"text", b"data")
        keysets = [values["keyset"] for values in fits.values()] + [Keyset.create("AES128_CTR_HMAC_SHA256_4KB")]
        files = [bytes(keyset) for keyset in keysets] + [keyset.to_binary() for keyset in keysets] + [b"", b"{}"]
        files += [bytes(keyset.rotate("AES128_GCM", to_any=True).disable(keyset.primary_id)) for keyset in keysets]
        texts = [value for values in fits.values() for value in values.values() if isinstance(value, bytes)] + [b""]
        pools = dict.fromkeys(("keyset", "master", "to_keyset", "wrapped"), files)
        pools.update(dict.fromkeys(("ciphertext", "token", "mac", "stream", "associated_data", "to_associated_data"), texts))
        pools.update(dict.fromkeys(("plaintext", "message", "input", "payload", "piece"), texts))
        pools["needed"] = pools["taken"] = [ctypes.c_size_t(0)]
        pools["template_name"] = [name.encode() for name in templates.values()] + [b"none"]
        pools["random"] = [bytes(576)] + [os.urandom(count) for count in (0, 11, 12, 16, 39, 52)]
        pools["id"] = [key.id for keyset in keysets for key in keyset.keys()]
        pools["start"] = pools["length"] = pools["output_length"] = [0, 1, 16, 5000, 1 << 20, (1 << 64) - 1]
        pools["json"] = pools["to_any"] = [False, True]
        common = {"master": gcm, "template_name": b"AES128_GCM", "random": os.urandom(576), "start": 0, "length": 9, "output_length": 9}
        common.update(dict.fromkeys(("plaintext", "message", "input", "payload", "piece"), b"text"), id=gcm.keys()[0].id, json=True)
        common["needed"] = common["taken"] = ctypes.c_size_t(0)
        common.update(associated_data=b"data", to_associated_data=b"data", to_any=False)
        for kind in ("aead", "daead", "mac", "prf", "signer", "writer", "reader", "range_reader"):
            self.objects[f"tink_{kind}_free"] = lib.Handle()
        pools["object"] = list(self.objects.values())
        return fits, common, pools

    def values(self, chance, name, fits, common, pools):
        """Values for a call, of which some do not fit, or are damaged."""
        like = name.replace("_daead", "_deterministically").replace("_signer", "_token")
        word = next((word for word in reversed(list(fits)) if word in like), "")
        own = self.objects.get(re.sub(r"_[a-z]+$", "_free", name))
        for argument in self.arguments[name]:
            value = {**common, **fits[""], **fits[word], "object": own}.get(argument)
            if chance.randrange(4) == 0:
                value = chance.choice(pools[argument])
            value = bytes(value) if isinstance(value, Keyset) else value
            yield self.damage(chance, value) if isinstance(value, bytes) and chance.randrange(4) == 0 else value

    def damage(self, chance, data):
        """Bytes with a word of a keyset replaced, a byte changed, or the end cut off."""
        how = chance.randrange(3)
        if how == 0:
            was, new = chance.choice(WORDS)
            return data.replace(was, new)
        if how == 1 and data:
            place = chance.randrange(len(data))
            return data[:place] + bytes([data[place] ^ 1 << chance.randrange(8)]) + data[place + 1 :]
        return data[: chance.randrange(len(data) + 1)]

    def test_statuses(self):
        chance, seen, self.objects = random.Random(1), set(), {}
        made = self.made(chance)
        for _ in range(400):
            for name in self.arguments:
                values = list(self.values(chance, name, *made))
                try:
                    lib.output(name, 64, *values) if lib.FUNCTIONS[name].endswith("out") else lib.done(name, *values)
                    status = "TINK_OK"
                except tink_proved.TinkError as error:
                    status = self.names[error.status]
                self.assertIn(status, self.allowed(name), (name, values))
                seen.add((name, status))
        self.assertEqual({name for name, status in seen if status == "TINK_OK"}, set(self.arguments))
        self.assertGreater(len(seen), 100)
        for name, handle in self.objects.items():
            lib.free(name, handle)


class Streams(unittest.TestCase):
    def test_whole(self):
        keys = Keyset.create("AES128_GCM_HKDF_4KB")
        text = bytes(range(256)) * 64
        stream = tink_proved.seal_stream(keys, text, b"data")
        self.assertEqual(tink_proved.open_stream(keys, stream, b"data"), text)
        for cut in (0, 1, 4096, len(stream) - 1):
            with self.assertRaises((tink_proved.NoMatchingKey, tink_proved.Truncated, tink_proved.BadSegment)):
                tink_proved.open_stream(keys, stream[:cut], b"data")
        self.assertEqual(tink_proved.read_range(keys, stream, b"data", 5000, 100), text[5000:5100])
        other = Keyset.create("AES256_GCM_HKDF_4KB")
        moved = tink_proved.rewrap_stream(keys, b"data", other, b"new", stream)
        self.assertEqual(tink_proved.open_stream(other, moved, b"new"), text)


if __name__ == "__main__":
    unittest.main()
