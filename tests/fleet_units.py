"""Parts of fleet alone: manifests, records, drafts, objects, addresses."""
import os
import unittest
from contextlib import ExitStack
from unittest.mock import patch

from fleet_lib import TINK, Yard, read, tink, write
from tink_fleet import locks, places, record
from tink_fleet.errors import FleetError, Refused
from tink_fleet.manifest import Manifest, read_manifest
from tink_fleet.tasks import Job, Outcome, Task, Worker


class Manifests(Yard):
    def refused(self, says: str, **words) -> None:
        with self.assertRaises(FleetError) as caught:
            read_manifest(self.manifest("m.toml", **words))
        self.assertIn(says, str(caught.exception))

    def test_wrong_manifests_are_refused(self):
        base = {"operation": "encrypt", "source": "plain", "target": "out"}
        self.refused("unknown operation `sign`", **base | {"operation": "sign"})
        self.refused("unknown word `sauce`", **base, sauce="x")
        self.refused("`target` is missing", **base | {"target": None})
        self.refused("`source` is missing", **base | {"source": None})
        self.refused("wrong type", **base, replace="yes")
        self.refused("wrong type", **base, batch_files=0)
        self.refused("unknown field", **base | {"aad": "{size}"})
        self.refused("unknown field", **base | {"aad": "{path!r}"})
        self.refused("is wrong", **base | {"aad": "{path"})
        self.refused("`target` is `source`", **base | {"target": "plain"})
        self.refused("inside of `source`", **base | {"target": "plain/sealed"})
        self.refused("belong to rewrap alone", **base, to_keys="k")
        self.refused("`target` is too much", **base | {"operation": "check"})
        with self.assertRaises(FleetError) as caught:
            read_manifest(self.at("none.toml"))
        self.assertIn("none.toml", str(caught.exception))
        write(self.at("m.toml"), b"operation = ")
        with self.assertRaisesRegex(FleetError, "no TOML"):
            read_manifest(self.at("m.toml"))

    def test_the_path_of_the_plain_file_is_bound_in_each_operation(self):
        for operation, path in (
            ("encrypt", "a/b"),
            ("decrypt", "a/b.tink"),
            ("check", "a/b.tink"),
            ("rewrap", "a/b.tink"),
        ):
            it = Manifest("m", operation, "s", aad="x {path} {name} {{y}}")
            self.assertEqual(it.aad_of(path), "x a/b b {y}")


class Records(Yard):
    def manifest_of(self) -> Manifest:
        return read_manifest(self.manifest("m.toml", operation="encrypt", source="plain", target="out"))

    def outcome(self, path: str) -> Outcome:
        return Outcome(path, "done", 1.0, 0.5, "here", "new", size=3, key=7, sha256="00")

    def test_a_torn_last_line_is_done_again_and_the_rest_is_kept(self):
        manifest = self.manifest_of()
        os.makedirs(manifest.state)
        made = record.Record(manifest)
        made.add([self.outcome("a"), self.outcome("b")])
        made.close()
        whole = read(record.record_path(manifest.state))
        last = whole.rstrip(b"\n").rfind(b"\n") + 1
        for cut in range(last + 1, len(whole)):
            write(record.record_path(manifest.state), whole[:cut])
            held = record.read_record(manifest.state)
            self.assertEqual((list(held.entries), held.torn), (["a"], cut - last))
        again = record.Record(manifest)
        again.add([self.outcome("c")])
        again.close()
        held = record.read_record(manifest.state)
        self.assertEqual((list(held.entries), held.torn, held.damaged), (["a", "c"], 0, []))

    def test_a_damaged_line_counts_as_not_written(self):
        manifest = self.manifest_of()
        os.makedirs(manifest.state)
        made = record.Record(manifest)
        made.add([self.outcome("a"), self.outcome("b")])
        made.close()
        path = record.record_path(manifest.state)
        write(path, read(path).replace(b'{"path":"a"', b'{"path":"a'))
        held = record.read_record(manifest.state)
        self.assertEqual((list(held.entries), held.damaged), (["b"], [3]))

    def test_the_record_of_other_work_is_refused(self):
        manifest = self.manifest_of()
        os.makedirs(manifest.state)
        record.Record(manifest).close()
        other = read_manifest(self.manifest("m.toml", operation="encrypt", source="plain", target="elsewhere"))
        with self.assertRaisesRegex(FleetError, "record of other work, whose `target`"):
            record.Record(other)
        record.Record(other, again=True).close()

    def test_a_name_that_is_no_utf8_is_recorded(self):
        manifest = self.manifest_of()
        os.makedirs(manifest.state)
        name = os.fsdecode(b'a\xff\n"b')
        made = record.Record(manifest)
        made.add([self.outcome(name)])
        made.close()
        self.assertEqual(list(record.read_record(manifest.state).entries), [name])

    def test_of_two_locks_the_second_is_refused(self):
        held = locks.Lock(self.at("state"))
        self.assertTrue(locks.is_driven(self.at("state")))
        with self.assertRaisesRegex(Refused, f"process {os.getpid()}"):
            locks.Lock(self.at("state"))
        held.close()
        self.assertFalse(locks.is_driven(self.at("state")))
        locks.Lock(self.at("state")).close()


class Drafts(Yard):
    def drafts(self):
        """A draft without a name, and one with a name, as a file system that has no other makes it."""
        yield places.Draft(self.folder, "f")
        kept, places.os.O_TMPFILE = places.os.O_TMPFILE, places.os.O_DIRECTORY | places.os.O_CREAT
        try:
            named = places.Draft(self.folder, "f")
        finally:
            places.os.O_TMPFILE = kept
        self.assertIsNotNone(named.path)
        yield named

    def test_a_draft_replaces_only_where_it_is_to(self):
        for number, draft in enumerate(self.drafts()):
            with draft:
                os.write(draft.fd, b"new")
                write(self.at("there"), b"old")
                os.chmod(self.at("there"), 0o640)
                with self.assertRaises(FileExistsError):
                    draft.publish(self.at("there"), False)
                self.assertEqual(read(self.at("there")), b"old")
                draft.publish(self.at(f"fresh{number}"), False)
            with next(it for n, it in enumerate(self.drafts()) if n == number) as other:
                os.write(other.fd, b"new")
                other.publish(self.at("there"), True)
            self.assertEqual((read(self.at("there")), read(self.at(f"fresh{number}"))), (b"new", b"new"))
            modes = [os.stat(self.at(name)).st_mode & 0o777 for name in ("there", f"fresh{number}")]
            self.assertEqual(modes, [0o640, 0o600])
            self.expect_no_drafts(self.folder)

    def test_the_bytes_reach_the_disk_before_the_name(self):
        """What the system is asked for, in its order."""
        for number, draft in enumerate([*self.drafts(), *self.drafts()]):
            replaces = number > 1
            asked = []
            write(self.at("there"), b"old")
            with draft, ExitStack() as held:
                for name in ("fsync", "link", "replace"):
                    real = getattr(os, name)

                    def noted(*words, name=name, real=real, **more):
                        asked.append(name)
                        return real(*words, **more)

                    held.enter_context(patch.object(os, name, noted))
                draft.publish(self.at("there") if replaces else self.at(f"fresh{number}"), replaces)
            self.assertEqual(asked[0], "fsync", asked)
            self.assertIn("replace" if replaces else "link", asked)

    def test_a_draft_that_is_not_published_is_gone(self):
        for draft in self.drafts():
            with draft:
                os.write(draft.fd, b"new")
            self.expect_no_drafts(self.folder)

    def test_only_drafts_of_the_fleet_are_swept(self):
        for name in (
            ".fleet-aa-0123456789abcdef",
            "a/.fleet-aa-0123456789abcdef",
            ".fleet-bb-0123456789abcdef",
            ".fleet-aa-x",
            "text",
        ):
            write(self.at(name), b"x")
        self.assertEqual(places.sweep(self.folder, "aa"), 2)
        self.assertEqual(files_left(self.folder), {".fleet-bb-0123456789abcdef", ".fleet-aa-x", "text", "keys"})


def files_left(folder: str) -> set[str]:
    return {name for _, _, names in os.walk(folder) for name in names}


class Listings(Yard):
    def test_files_come_by_name_without_links_and_drafts(self):
        for name in ("b/x", "a/y", "c", ".fleet-aa-0123456789abcdef", "state/z"):
            write(self.at("plain", name), b"x")
        os.symlink("c", self.at("plain", "link"))
        os.symlink("a", self.at("plain", "folder"))
        found = [it.path for it in places.items(self.at("plain"), [], [], self.at("plain", "state"))]
        self.assertEqual(sorted(found), ["a/y", "b/x", "c"])
        found = [it.path for it in places.items(self.at("plain"), ["*/*"], ["a/*"], self.at("plain", "state"))]
        self.assertEqual(found, ["b/x"])

    def test_a_source_that_is_not_there_is_named(self):
        with self.assertRaisesRegex(FleetError, "no such folder"):
            list(places.items(self.at("none"), [], [], ""))


class Objects(Yard):
    """An object store, by the memory of fsspec."""

    def setUp(self) -> None:
        super().setUp()
        try:
            import fsspec
        except ImportError:
            self.skipTest("fsspec is not installed")
        self.store = fsspec.filesystem("memory")
        self.store.store.clear()

    def test_objects_are_encrypted_and_decrypted(self):
        texts = {"a": b"", "b/c": os.urandom(10000)}
        for name, text in texts.items():
            self.store.pipe(f"/plain/{name}", text)
        listed = list(places.items("memory://plain", [], [], ""))
        self.assertEqual([(it.path, it.size) for it in listed], [("a", 0), ("b/c", 10000)])
        job = Job("f", "r", "encrypt", TINK, self.at("keys"), None, "", None, self.folder)
        for it in listed:
            made = Worker(job).one(
                Task(
                    it.path,
                    f"memory://plain/{it.path}",
                    f"memory://sealed/{it.path}",
                    it.path,
                    it.path,
                    it.size,
                    it.mtime,
                    False,
                )
            )
            self.assertEqual((made.state, made.line), ("done", None))
            stream = self.store.cat(f"/sealed/{it.path}")
            self.assertEqual(tink("decrypt", "-k", self.at("keys"), "--aad", it.path, input=stream), texts[it.path])
            self.assertEqual(made.size, len(stream))
        job = Job("f", "r", "decrypt", TINK, self.at("keys"), None, "", None, self.folder)
        again = Worker(job).one(Task("b/c", "memory://sealed/b/c", "memory://again/b/c", "b/c", "b/c", 0, 0, False))
        self.assertEqual((again.state, self.store.cat("/again/b/c")), ("done", texts["b/c"]))
        self.assertEqual(files_left(self.folder), {"keys"})

    def test_a_damaged_object_makes_none(self):
        stream = bytearray(tink("encrypt", "-k", self.at("keys"), input=os.urandom(20000)))
        stream[9000] ^= 1
        self.store.pipe("/sealed/x", bytes(stream))
        job = Job("f", "r", "decrypt", TINK, self.at("keys"), None, "", None, self.folder)
        made = Worker(job).one(Task("x", "memory://sealed/x", "memory://out/x", "", "", 0, 0, False))
        self.assertEqual((made.state, made.target, self.store.exists("/out/x")), ("failed", "absent", False))
        self.assertIn("memory://sealed/x: bad segment", made.line)


class Addresses(unittest.TestCase):
    def test_a_scheduler_beyond_this_machine_needs_tls(self):
        from tink_fleet.dask_engine import check_address

        for address in ("tcp://127.0.0.1:1", "tcp://[::1]:1", "localhost:1", "127.0.0.1:1", "tls://10.0.0.1:1"):
            check_address(address)
        for address in ("tcp://10.0.0.1:1", "10.0.0.1:1", "tcp://scheduler:1", "ws://10.0.0.1:1"):
            with self.assertRaisesRegex(FleetError, "TLS"):
                check_address(address)
