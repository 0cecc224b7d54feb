"""What a user, another process or a broken machine does to fleet: names, links, records, clocks, full and closed folders."""
import json
import os
import shutil
import subprocess
import sys
from dataclasses import replace
from unittest.mock import patch

from fleet_lib import FLEET, TINK, Yard, files_below, read, sha256, tink, write
from fleet_runs import ParallelYard
from tink_fleet import places, record, status
from tink_fleet.errors import FleetError, shown
from tink_fleet.manifest import read_manifest
from tink_fleet.tasks import Job, Outcome, Task, Worker


class Links(Yard):
    """No target is a source, and no two targets are one."""

    def worker(self, operation: str = "encrypt") -> Worker:
        return Worker(Job("f", "r", operation, TINK, self.at("keys"), None, "", None, None))

    def task(self, path: str, replaces: bool = True) -> Task:
        found = os.stat(self.at("plain", path))
        target = self.at("sealed", f"{path}.tink")
        return Task(path, self.at("plain", path), target, path, path, found.st_size, found.st_mtime_ns, replaces)

    def test_a_target_that_is_a_link_is_not_followed(self):
        write(self.at("plain/a"), b"text")
        write(self.at("plain/b/x"), b"text")
        os.makedirs(self.at("sealed"))
        os.symlink(self.at("plain/a"), self.at("sealed/a.tink"))
        os.symlink(self.at("plain"), self.at("sealed/b"))
        for path, link in (("a", "a.tink"), ("b/x", "b")):
            for replaces in (True, False):
                made = self.worker().one(self.task(path, replaces))
                self.assertEqual((made.state, made.retry), ("failed", False))
                self.assertIn(f"sealed/{path}.tink: {self.at('sealed', link)} is a link", made.line)
        self.assertEqual(files_below(self.at("plain")), ["a", "b/x"])
        self.assertEqual(read(self.at("plain/a")), b"text")

    def test_a_loop_of_links_fails_alone(self):
        write(self.at("plain/a"), b"text")
        write(self.at("plain/b"), b"text")
        os.symlink("loop", self.at("plain/loop"))
        os.makedirs(self.at("sealed"))
        os.symlink("a.tink", self.at("sealed/a.tink"))
        found = {it.path: self.worker().one(self.task(it.path)) for it in places.items(self.at("plain"), [], [], "")}
        self.assertEqual({path: it.state for path, it in found.items()}, {"a": "failed", "b": "done"})
        self.assertIn("sealed/a.tink is a link", found["a"].line)

    def test_a_file_of_keys_is_not_replaced(self):
        before = read(self.at("keys"))
        write(self.at("plain/keys"), b"text")
        tink("encrypt", "-k", self.at("keys"), "-o", self.at("sealed.tink"), self.at("plain/keys"))
        task = Task("keys.tink", self.at("sealed.tink"), self.at("keys"), "", "", 0, 0, True)
        made = self.worker("decrypt").one(task)
        self.assertEqual((made.state, read(self.at("keys"))), ("failed", before))
        self.assertIn("it is a file of keys", made.line)

    def test_folders_that_are_one_by_links_are_refused(self):
        os.makedirs(self.at("plain/inner/plain"))
        os.symlink("plain", self.at("same"))
        os.symlink("plain/inner", self.at("inside"))
        base = {"operation": "encrypt", "source": "plain"}
        for words, says in (
            ({"target": "same"}, "`target` is `source`"),
            ({"target": "inside"}, "`target` is inside of `source`"),
            ({"source": "same", "target": "plain/new"}, "`target` is inside of `source`"),
            ({"source": "plain/inner", "target": "same"}, "`source` is inside of `target`"),
        ):
            with self.assertRaisesRegex(FleetError, says):
                read_manifest(self.manifest("m.toml", **base | words))


class Names(Yard):
    def test_a_name_is_shown_in_one_line(self):
        self.assertEqual(shown("a\nb\x1b[2J\u2028é \udcff"), "a\\x0ab\\x1b[2J\\u2028é \udcff")

    def test_a_name_that_is_too_long_for_its_target_is_named(self):
        name = "n" * 253
        write(self.at("plain", name), b"x")
        task = Task(name, self.at("plain", name), self.at("sealed", f"{name}.tink"), "", "", 1, 0, False)
        made = Worker(Job("f", "r", "encrypt", TINK, self.at("keys"), None, "", None, None)).one(task)
        self.assertEqual((made.state, made.target), ("failed", "absent"))
        self.assertIn(f"sealed/{name}.tink: File name too long: shorten the name", made.line)

    def test_a_file_that_is_removed_while_it_is_listed_is_left_out(self):
        for name in ("a", "b", "c/d"):
            write(self.at("plain", name), b"x")
        found = []
        for item in places.items(self.at("plain"), [], [], ""):
            found.append(item.path)
            for gone in ("b", "c/d"):
                if os.path.exists(self.at("plain", gone)):
                    os.remove(self.at("plain", gone))
            if os.path.exists(self.at("plain/c")):
                os.rmdir(self.at("plain/c"))
        self.assertEqual(found, ["a"])


class OddRuns(ParallelYard):
    def test_names_with_newlines_braces_and_dashes(self):
        names = ["a\nb", "{path}", "{name} {}", "-rf", " two  ", "{= die =}", "{1}\n", "'\"$(id)`"]
        texts = {f"{{}} d\n/{name}" if number % 2 else name: b"%d" % number for number, name in enumerate(names)}
        for name, text in texts.items():
            write(self.at("st{} {= die =}\n/plain", name), text)
        self.folder = self.at("st{} {= die =}\n")
        shutil.copy(os.path.join(os.path.dirname(self.folder), "keys"), self.at("keys"))
        sealed = self.manifest("seal.toml", operation="encrypt", source="plain", target="sealed")
        self.run_all(sealed, says=f"{len(texts)} done, 0 failed")
        self.expect_streams(sealed, texts, "sealed")
        for name in ("a\nb", "{} d\n/{path}"):
            stream = read(self.at("sealed", f"{name}.tink"))
            write(self.at("sealed", f"{name}.tink"), stream[:-1] + bytes([stream[-1] ^ 1]))
        opened = self.manifest("open.toml", operation="decrypt", source="sealed", target="again")
        said = self.run_all(opened, status=1, says=f"{len(texts) - 2} done, 2 failed")
        self.assertIn("fleet: a\\x0ab.tink: tink: ", said)
        self.assertIn("FAILED   a\\x0ab.tink: tink: ", self.fleet("status", opened, status=1))
        self.assertIn("no key of", self.record(opened)["a\nb.tink"]["line"])

    def test_a_folder_that_may_not_be_written_is_named(self):
        if os.geteuid() == 0 and subprocess.run(["setpriv", "--version"], capture_output=True).returncode != 0:
            self.skipTest("root may write everywhere, and setpriv is not installed")
        write(self.at("plain/x"), b"x")
        os.makedirs(self.at("sealed"))
        sealed = self.manifest("seal.toml", operation="encrypt", source="plain", target="sealed")
        os.chmod(self.at("sealed"), 0o555)
        os.makedirs(self.at("seal.fleet"))
        words = []
        if os.geteuid() == 0:
            subprocess.run(["chown", "-R", "65534:65534", self.folder], check=True)
            words = ["setpriv", "--reuid=65534", "--regid=65534", "--clear-groups"]
        done = subprocess.run(
            [*words, sys.executable, FLEET, "run", sealed, *self.engine],
            capture_output=True,
            text=True,
            check=False,
            env={**os.environ, "HOME": self.folder, "TMPDIR": self.folder},
        )
        self.assertEqual(done.returncode, 1, done.stdout + done.stderr)
        self.assertIn(f"x: {self.at('sealed')}: Permission denied: give the worker the right to it", done.stderr)
        self.assertEqual(files_below(self.at("sealed")), [])

    def test_a_driver_that_died_between_the_target_and_its_line(self):
        """The record loses the lines of all, then of a large file."""
        texts = self.make_texts(4, 3000) | {"large": self.random.randbytes(100_000)}
        write(self.at("plain/large"), texts["large"])
        self.encrypt_all(texts)
        opened = self.manifest(
            "open.toml", operation="decrypt", source="sealed", target="again", split_bytes=60_000, part_bytes=30_000
        )
        self.run_all(opened, says="5 done, 0 failed")
        path = self.at("open.fleet/record.jsonl")
        lines = read(path).splitlines(keepends=True)
        write(path, b"".join(it for it in lines if b'"path"' not in it and b'"end"' not in it))
        write(self.at("again/.fleet-0123abcd-0123456789abcdef"), b"the draft of another fleet")
        self.run_all(opened, says="5 done, 0 failed")
        os.remove(self.at("again/.fleet-0123abcd-0123456789abcdef"))
        self.expect_texts(opened, texts, "again")
        for name, entry in self.record(opened).items():
            self.assertEqual((entry["sha256"], entry["adopted"]), (sha256(read(self.at("sealed", name))), True))


class Records(Yard):
    def read_after(self, *lines: bytes) -> tuple[list[str], list[int]]:
        manifest = read_manifest(self.manifest("m.toml", operation="encrypt", source="plain", target="out"))
        shutil.rmtree(manifest.state, ignore_errors=True)
        os.makedirs(manifest.state)
        made = record.Record(manifest)
        made.add([Outcome("a", "done", 1.0, 0.5, "here", "new", size=3, key=7, sha256="00")])
        made.close()
        with open(record.record_path(manifest.state), "ab") as file:
            file.write(b"".join(it + b"\n" for it in lines))
        write(self.at("plain/a"), b"")
        status.lines_of(status.status_of(manifest))
        again = record.Record(manifest)
        again.close()
        return list(again.history.entries), again.history.damaged

    def test_foreign_lines_are_named_and_change_nothing(self):
        line = {"path": "b", "state": "done", "time": 1.0, "target": "new", "size": 3}
        foreign = [
            *(b"5", b'"fleet"', b'["fleet"]', b"null", b"{}", b"\xff\xfe", b"", b"[" * 100_000, b"9" * 5000),
            *(b'{"end":5}', b'{"total":"x"}', b'{"run":"x"}', b'{"run":"x","time":"y"}', b'{"end":[]}'),
            *(b'{"fleet":7,"work":{}}', b'{"fleet":"0123abcd","work":{}}', b'{"fleet":"../..","work":{}}'),
            *(json.dumps(line | {word: []}).encode() for word in line),
            *(json.dumps(line | {word: True}).encode() for word in line),
            json.dumps(line | {"state": "lost"}).encode(),
        ]
        for it in foreign:
            self.assertEqual(self.read_after(it), (["a"], [4]), it[:80])
        self.assertEqual(self.read_after(json.dumps(line).encode()), (["a", "b"], []))
        # Before any line of its own.
        write(self.at("other/record.jsonl"), b'{"end":{}}\n{"total":1}\n{"path":1}\n')
        self.assertEqual(record.read_record(self.at("other")).damaged, [1, 2, 3])

    def test_a_full_disk_under_the_record_is_named(self):
        manifest = read_manifest(self.manifest("m.toml", operation="encrypt", source="plain", target="out"))
        os.makedirs(manifest.state)
        made = record.Record(manifest)
        held, made.file = made.file, os.open("/dev/full", os.O_WRONLY)
        with self.assertRaisesRegex(FleetError, "record.jsonl: No space left on device: make room there, and run again"):
            made.end({})
        made.close()
        os.close(held)


class Clocks(Yard):
    def speeds(self, *lines: dict, now: float = 1000.0, is_running: bool = False) -> tuple:
        history = record.History()
        for it in lines:
            record.read_line(history, it)
        made = status.Status(left=10, left_bytes=10, is_running=is_running)
        with patch.object(status.time, "time", lambda: now):
            status.speeds(made, history)
        return made.files_per_second, made.seconds_left, status.lines_of(made)[3]

    def test_a_clock_that_goes_back_makes_no_speed(self):
        begun = {"run": "r", "time": 1000.0}
        line = {"path": "a", "state": "done", "time": 900.0, "target": "new", "size": 1}
        self.assertEqual(self.speeds(begun, line), (None, None, "speed    unknown"))
        self.assertEqual(self.speeds(begun, line, now=10.0, is_running=True), (None, None, "speed    unknown"))
        self.assertEqual(self.speeds(begun, line, {"end": {"seconds": 4.0}})[:2], (0.25, 40.0))
        self.assertEqual(self.speeds(begun, line | {"time": 1002.0})[0], 0.5)


class Changes(Yard):
    def test_a_hash_is_that_of_what_was_read(self):
        """A source that gets another file's name between the open and the end is no longer that file."""
        write(self.at("plain/x"), b"one")
        worker = Worker(Job("f", "r", "encrypt", TINK, self.at("keys"), None, "", None, None))
        found = os.stat(self.at("plain/x"))
        task = Task("x", self.at("plain/x"), self.at("out/x.tink"), "", "", 3, found.st_mtime_ns, False)
        real = worker.fill

        def moved(*words):
            real(*words)
            write(self.at("other"), b"two")
            os.utime(self.at("other"), ns=(found.st_atime_ns, found.st_mtime_ns))
            os.replace(self.at("other"), self.at("plain/x"))

        with patch.object(worker, "fill", moved):
            made = worker.one(task)
        self.assertEqual((made.state, made.retry, made.target), ("failed", True, "absent"))
        self.assertIn("plain/x: it, or a file of keys, was changed while it was read", made.line)
        self.assertEqual(worker.one(replace(task)).state, "done")
