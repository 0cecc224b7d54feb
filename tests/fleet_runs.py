"""Runs on one machine, by GNU parallel: what is made, killed, full, damaged, refused."""
import json
import os
import shutil
import signal
import subprocess

from fleet_lib import (
    SECONDS,
    TINK,
    Killer,
    Targets,
    Watcher,
    Yard,
    files_below,
    has_listed,
    lines_of,
    local_workers,
    needs,
    processes,
    read,
    secrets_of,
    sha256,
    tink,
    wait_for,
    write,
)
from tink_fleet.program import Keys as KeyFile
from tink_fleet.program import list_keys


class ParallelYard(Yard):
    def setUp(self) -> None:
        super().setUp()
        if shutil.which("parallel") is None:
            self.skipTest("GNU parallel is not installed")

    def workers(self, manifest: str) -> list[int]:
        return local_workers(os.path.splitext(manifest)[0] + ".fleet")


class Operations(Targets, ParallelYard):
    def test_each_operation_over_names_of_all_kinds(self):
        texts = self.make_texts(12, 9000)
        texts["empty"] = b""
        texts["-o"] = b"dash"
        for name in ("empty", "-o"):
            write(self.at("plain", name), texts[name])
        sealed = self.manifest("seal.toml", operation="encrypt", source="plain", target="sealed")
        self.run_all(sealed, says=f"{len(texts)} done, 0 failed")
        self.expect_streams(sealed, texts, "sealed")
        before = {name: os.stat(self.at("sealed", f"{name}.tink")).st_mtime_ns for name in texts}
        self.run_all(sealed, says=f"0 done, 0 failed, {len(texts)} were done before")
        self.assertEqual(before, {name: os.stat(self.at("sealed", f"{name}.tink")).st_mtime_ns for name in texts})
        opened = self.manifest("open.toml", operation="decrypt", source="sealed", target="again")
        self.run_all(opened)
        self.expect_texts(opened, texts, "again")
        tink("new", self.template, "-o", self.at("new"))
        moved = self.manifest("move.toml", operation="rewrap", source="sealed", target="moved", to_keys="new")
        self.run_all(moved)
        self.expect_streams(moved, texts, "moved", keys="new")
        self.expect_streams(sealed, texts, "sealed")
        self.assertEqual(json.loads(self.fleet("status", moved, "--json"))["done"], len(texts))

    def test_a_source_that_changed_is_done_again(self):
        texts = self.make_texts(5, 3000)
        sealed = self.manifest("seal.toml", operation="encrypt", source="plain", target="sealed")
        self.run_all(sealed)
        texts["0.txt"] = b"another text"
        write(self.at("plain", "0.txt"), texts["0.txt"])
        os.remove(self.at("sealed", "3.txt.tink"))
        self.run_all(sealed, says="2 done, 0 failed, 3 were done before")
        self.expect_streams(sealed, texts, "sealed")

    def test_a_source_of_the_same_size_that_changed_is_done_again(self):
        texts = self.make_texts(2, 3000)
        sealed = self.manifest("seal.toml", operation="encrypt", source="plain", target="sealed")
        self.run_all(sealed)
        texts["0.txt"] = texts["0.txt"][::-1]
        write(self.at("plain", "0.txt"), texts["0.txt"])
        self.run_all(sealed, says="1 done, 0 failed, 1 were done before")
        self.expect_streams(sealed, texts, "sealed")

    def test_a_target_that_changed_its_size_is_looked_at_again(self):
        texts = self.make_texts(2, 3000)
        sealed = self.manifest("seal.toml", operation="encrypt", source="plain", target="sealed")
        self.run_all(sealed)
        with open(self.at("sealed/0.txt.tink"), "ab") as target:
            target.write(b"x")
        self.run_all(sealed, status=1, says="0.txt.tink: it is there already and has not the text of")
        self.expect_streams(
            sealed, texts, "sealed", old={"0.txt": read(self.at("sealed/0.txt.tink"))}, all_done=False
        )

    def test_what_changes_while_it_is_read_makes_no_target(self):
        """The source, then the file of keys, is written to by the program itself, before it ends."""
        write(self.at("plain/x"), b"text")
        for name in ("plain/x", "keys"):
            script = f'#!/bin/sh\n{TINK} "$@" || exit\n[ $1 != encrypt ] || echo >> {self.at(name)}\n'
            write(self.at("program"), script.encode())
            os.chmod(self.at("program"), 0o700)
            sealed = self.manifest(
                "seal.toml", operation="encrypt", source="plain", target="sealed", program=self.at("program")
            )
            self.run_all(sealed, status=1, says="was changed while it was read")
            self.assertEqual(files_below(self.at("sealed")), [])
            self.assertEqual(self.record(sealed)["x"]["target"], "absent")

    def test_a_target_that_appears_meanwhile_is_kept(self):
        """The program itself makes the target, before it ends."""
        write(self.at("plain/x"), b"text")
        script = f'#!/bin/sh\n{TINK} "$@" || exit\n[ $1 != encrypt ] || echo theirs > {self.at("sealed/x.tink")}\n'
        write(self.at("program"), script.encode())
        os.chmod(self.at("program"), 0o700)
        sealed = self.manifest(
            "seal.toml", operation="encrypt", source="plain", target="sealed", program=self.at("program")
        )
        self.run_all(sealed, status=1, says="x.tink: it is there already and has not the text of")
        self.assertEqual(read(self.at("sealed/x.tink")), b"theirs\n")
        self.assertEqual(self.record(sealed)["x"]["target"], "old")

    def test_the_driver_alone_appends_to_the_record(self):
        """The record gets another name while the run goes on, so that who opens it by its path misses it."""
        texts = self.make_texts(40, 20_000)
        sealed = self.manifest("seal.toml", operation="encrypt", source="plain", target="sealed", batch_files=2)
        running, record = self.start("run", sealed, *self.engine), self.at("seal.fleet/record.jsonl")
        self.assertTrue(wait_for(lambda: lines_of(record) > 0))
        running.send_signal(signal.SIGSTOP)
        self.assertLess(lines_of(record), len(texts))
        os.rename(record, self.at("moved"))
        write(record, b"")
        running.send_signal(signal.SIGCONT)
        self.assertIn("40 done, 0 failed", running.communicate(timeout=SECONDS)[0])
        self.assertEqual(read(record), b"", "another process appended to the record")
        paths = [it["path"] for it in map(json.loads, read(self.at("moved")).splitlines()) if "path" in it]
        self.assertEqual(sorted(paths), sorted(texts), "one line for each task")

    def test_a_rewrap_that_no_record_has_is_understood(self):
        texts = self.make_texts(3, 3000)
        self.encrypt_all(texts)
        tink("new", self.template, "-o", self.at("new"))
        moved = self.manifest("move.toml", operation="rewrap", source="sealed", to_keys="new")
        self.run_all(moved, says="3 done, 0 failed")
        before = {name: read(self.at("sealed", f"{name}.tink")) for name in texts}
        shutil.rmtree(self.at("move.fleet"))
        self.run_all(moved, says="3 done, 0 failed")
        self.expect_streams(moved, texts, "sealed", keys="new")
        self.assertTrue(all(it["adopted"] for it in self.record(moved).values()))
        self.assertEqual(before, {name: read(self.at("sealed", f"{name}.tink")) for name in texts})

    def test_a_rewrap_in_place_of_what_does_not_open_is_not_believed(self):
        """Neither key opens the streams: one is under a third key, and one was moved and damaged afterwards."""
        texts = {name: self.random.randbytes(9000) for name in ("damaged", "foreign", "right")}
        for name, text in texts.items():
            write(self.at("plain", name), text)
        tink("new", self.template, "-o", self.at("new"))
        tink("new", self.template, "-o", self.at("other"))
        for name, keys in (("damaged", "new"), ("foreign", "other"), ("right", "keys")):
            self.encrypt_all({name: texts[name]}, keys=keys)
        stream = read(self.at("sealed/damaged.tink"))
        write(self.at("sealed/damaged.tink"), stream[:-1] + bytes([stream[-1] ^ 1]))
        old = {name: read(self.at("sealed", f"{name}.tink")) for name in ("damaged", "foreign")}
        moved = self.manifest("move.toml", operation="rewrap", source="sealed", to_keys="new")
        said = self.run_all(moved, status=1, says="1 done, 2 failed")
        for name in old:
            self.assertRegex(said, f"{name}.tink: tink: .*{name}.tink: no key of .*keys opens this stream")
            self.assertEqual(self.record(moved)[f"{name}.tink"]["state"], "failed")
        self.expect_streams(moved, texts, "sealed", keys="new", old=old, all_done=False)

    def test_a_rewrap_under_a_later_primary_key_is_done_again(self):
        """Sources, targets and record are the same, and only the primary key is another."""
        texts = self.make_texts(3, 3000)
        self.encrypt_all(texts)
        moved = self.manifest("move.toml", operation="rewrap", source="sealed", target="moved")
        self.run_all(moved, says="3 done, 0 failed")
        tink("rotate", self.at("keys"), self.template)
        self.run_all(moved, says="3 done, 0 failed")
        primary = list_keys(TINK, KeyFile(self.at("keys"))).primary
        self.assertEqual({it["key"] for it in self.record(moved).values()}, {primary})
        self.expect_streams(moved, texts, "moved")
        self.run_all(moved, says="0 done, 0 failed, 3 were done before")

    def test_a_status_counts_what_is_left(self):
        texts = self.make_texts(4, 3000)
        self.encrypt_all(texts)
        write(self.at("sealed/0.txt.tink"), read(self.at("sealed/0.txt.tink"))[:-1])
        opened = self.manifest("open.toml", operation="decrypt", source="sealed", target="again")
        self.run_all(opened, status=1, says="3 done, 1 failed")
        write(self.at("sealed/late.tink"), b"x" * 1000)
        made = json.loads(self.fleet("status", opened, "--json", status=1))
        self.assertEqual([made[it] for it in ("done", "failed", "left", "left_bytes")], [3, 1, 1, 1000])
        self.assertGreater(min(made["bytes_per_second"], made["files_per_second"], made["seconds_left"]), 0)
        line = self.record(opened)["0.txt.tink"]["line"]
        self.assertRegex(line, "^tink: .*0.txt.tink: ")
        said = self.fleet("status", opened, status=1)
        self.assertIn(f"FAILED   0.txt.tink: {line} (target: absent)\n", said)
        for row in ("done     3\n", "failed   1\n", "left     1 (0.0 MB)\n", "driver   none\n", "time left "):
            self.assertIn(row, said)

    def test_names_of_any_bytes_and_a_stream_without_the_suffix(self):
        texts = {"right": b"x", os.fsdecode(b"wrong\xff"): b"y"}
        for name, text in texts.items():
            write(self.at("plain", name), text)
        sealed = self.manifest("seal.toml", operation="encrypt", source="plain", target="sealed")
        self.run_all(sealed, says="2 done, 0 failed")
        self.run_all(sealed, says="0 done, 0 failed, 2 were done before")
        tink("new", self.template, "-o", self.at("new"))
        self.run_all(self.manifest("move.toml", operation="rewrap", source="sealed", to_keys="new"))
        write(self.at("sealed/other"), read(self.at("sealed/right.tink")))
        opened = self.manifest("open.toml", operation="decrypt", source="sealed", target="again", keys="new")
        self.run_all(opened, status=1, says="other: its name has not the suffix of streams")
        self.fleet("status", opened, status=1, says="other: its name has not the suffix of streams")
        self.assertEqual({name: read(self.at("again", name)) for name in files_below(self.at("again"))}, texts)
        stream = read(self.at("sealed", os.fsdecode(b"wrong\xff.tink")))
        write(self.at("sealed", os.fsdecode(b"wrong\xff.tink")), stream[:-1] + bytes([stream[-1] ^ 1]))
        os.remove(self.at("again", os.fsdecode(b"wrong\xff")))
        self.run_all(opened, status=1, says="wrong\\udcff.tink: tink: ")

    def test_a_file_that_is_replaced_hands_on_its_mode(self):
        texts = self.make_texts(3, 3000)
        self.encrypt_all(texts)
        for name, mode in (("0.txt.tink", 0o640), ("part 1/é1.txt.tink", 0o444)):
            os.chmod(self.at("sealed", name), mode)
        moved = self.manifest("move.toml", operation="rewrap", source="sealed")
        said = self.run_all(moved, status=1, says="2 done, 1 failed")
        self.assertIn("part 1/é1.txt.tink: it has no write permission", said)
        self.assertEqual(os.stat(self.at("sealed/0.txt.tink")).st_mode & 0o777, 0o640)
        self.expect_no_drafts(self.at("sealed"))

    def test_a_check_writes_nothing_and_names_the_damaged(self):
        needs("check")
        texts = self.make_texts(10, 9000)
        self.encrypt_all(texts)
        before = {name: read(self.at("sealed", f"{name}.tink")) for name in texts}
        checked = self.manifest("check.toml", operation="check", source="sealed")
        self.run_all(checked, says="10 done, 0 failed")
        for name, entry in self.record(checked).items():
            self.assertEqual((entry["sha256"], entry["target"]), (sha256(before[name.removesuffix(".tink")]), "same"))
        self.assertEqual(before, {name: read(self.at("sealed", f"{name}.tink")) for name in texts})

    def test_one_damaged_file_among_a_thousand_alone_fails_and_is_named(self):
        texts = {f"{number // 100}/{number}": self.random.randbytes(4096) for number in range(1000)}
        for name, text in texts.items():
            write(self.at("plain", name), text)
        sealed = self.manifest("seal.toml", operation="encrypt", source="plain", target="sealed")
        self.run_all(sealed, says="1000 done, 0 failed")
        stream = bytearray(read(self.at("sealed/7/777.tink")))
        stream[-1] ^= 1
        write(self.at("sealed/7/777.tink"), bytes(stream))
        opened = self.manifest("open.toml", operation="decrypt", source="sealed", target="again")
        said = self.run_all(opened, status=1, says="999 done, 1 failed")
        self.assertIn("7/777.tink: tink: " + self.at("sealed/7/777.tink") + ": ", said)
        self.assertFalse(os.path.exists(self.at("again/7/777")))
        del texts["7/777"]
        self.expect_texts(opened, texts, "again")
        status = json.loads(self.fleet("status", opened, "--json", status=1))
        self.assertEqual((status["done"], status["failed"], status["left"]), (999, 1, 0))
        self.assertEqual(list(status["failures"]), ["7/777.tink"])
        self.assertEqual(self.record(opened)["7/777.tink"]["target"], "absent")

    def test_a_large_file_goes_in_parts(self):
        needs("info")
        texts = {"large": self.random.randbytes(300_000), "small": b"small"}
        for name, text in texts.items():
            write(self.at("plain", name), text)
        self.encrypt_all(texts)
        opened = self.manifest(
            "open.toml", operation="decrypt", source="sealed", target="again", split_bytes=100_000, part_bytes=50_000
        )
        self.run_all(opened, says="2 done, 0 failed")
        for name, text in texts.items():
            self.assertTrue(read(self.at("again", name)) == text, f"{name}: another text")
        entry = self.record(opened)["large.tink"]
        self.assertEqual((entry["size"], entry["sha256"]), (300_000, sha256(read(self.at("sealed/large.tink")))))
        self.assertNotIn("front", entry)
        stream = bytearray(read(self.at("sealed/large.tink")))
        stream[150_000] ^= 1
        write(self.at("sealed/large.tink"), bytes(stream))
        shutil.rmtree(self.at("again"))
        self.run_all(opened, status=1, says="large.tink: bad segment")
        self.assertFalse(os.path.exists(self.at("again/large")))
        self.expect_no_drafts(self.at("again"))


class Keys(ParallelYard):
    def test_keys_on_standard_input_are_nowhere_else(self):
        texts = self.make_texts(20, 3000)
        sealed = self.manifest("seal.toml", operation="encrypt", source="plain", target="sealed", keys=None)
        os.makedirs(self.at("seal.fleet"))
        with open(self.at("keys"), "rb") as keys, Watcher(self.at("seal.fleet")) as watcher:
            said = self.fleet("run", sealed, "--workers", "2", "-k", "-", stdin=keys)
        self.expect_streams(sealed, texts, "sealed")
        self.assertTrue(any(b"worker" in it for it in watcher.seen), "no worker was seen")
        for secret in secrets_of(self.at("keys")):
            self.assertFalse(any(secret in it for it in watcher.seen))
            self.assertNotIn(secret, said.encode())

    def test_keys_on_standard_input_do_not_go_to_a_cluster(self):
        sealed = self.manifest("seal.toml", operation="encrypt", source="plain", target="sealed", keys=None)
        self.fleet(
            "run",
            sealed,
            "-k",
            "-",
            "--scheduler",
            "tcp://127.0.0.1:9",
            status=2,
            says="keys on standard input stay on this machine",
            input="x",
        )
        self.fleet("run", sealed, status=2, says="`keys` is missing")

    def test_wrapped_keys_and_a_master(self):
        needs("--master")
        tink("new", "AES256_GCM", "-o", self.at("master"))
        tink("wrap", "-k", self.at("master"), "--aad", "here", "-o", self.at("wrapped"), self.at("keys"))
        texts = self.make_texts(8, 3000)
        sealed = self.manifest(
            "seal.toml",
            operation="encrypt",
            source="plain",
            target="sealed",
            keys="wrapped",
            master="master",
            master_aad="here",
        )
        self.run_all(sealed)
        self.expect_streams(sealed, texts, "sealed")
        tink("new", "AES256_GCM", "-o", self.at("other"))
        opened = self.manifest(
            "open.toml", operation="decrypt", source="sealed", target="again", keys="wrapped", master_aad="here"
        )
        self.fleet("run", opened, "--master", self.at("other"), status=2, says="master failed")
        self.fleet("run", opened, "--master", self.at("master"))
        self.expect_texts(opened, texts, "again")
        tink("new", self.template, "-o", self.at("new"))
        tink("wrap", "-k", self.at("master"), "--aad", "here", "-o", self.at("newly"), self.at("new"))
        moved = self.manifest(
            "move.toml",
            operation="rewrap",
            source="sealed",
            keys="wrapped",
            to_keys="newly",
            master="master",
            master_aad="here",
        )
        self.run_all(moved)
        self.expect_streams(moved, texts, "sealed", keys="new")

    def test_a_program_that_is_too_old_is_named(self):
        write(self.at("old"), f'#!/bin/sh\n[ $1 = help ] && exit 0\nexec {TINK} "$@"\n'.encode())
        os.chmod(self.at("old"), 0o700)
        write(self.at("sealed/x"), b"")
        checked = self.manifest("check.toml", operation="check", source="sealed", program=self.at("old"))
        self.run_all(checked, status=2, says="is too old for this")

    def test_keys_that_are_not_there_are_named(self):
        write(self.at("plain/x"), b"")
        sealed = self.manifest("seal.toml", operation="encrypt", source="plain", target="sealed", keys="none")
        self.run_all(sealed, status=2, says=f"{self.at('none')}: there is no such file")


class Deaths(ParallelYard):
    """Workers are killed at random, and drivers."""

    def with_kills(self, manifest: str, kills: int = 6) -> None:
        """A run, some of whose workers are killed: more than two only before repetitions, of which there are two."""
        running, record = (
            self.start("run", manifest, *self.engine),
            os.path.splitext(manifest)[0] + ".fleet/record.jsonl",
        )
        with Killer(
            lambda: [] if kills > 2 and has_listed(record) else self.workers(manifest), kills, 0.4, self.id()
        ) as killer:
            out, err = running.communicate(timeout=SECONDS)
        self.assertEqual(running.returncode, 0, out + err)
        self.assertGreater(killer.killed, 0, "no worker was killed")

    def test_workers_are_killed_in_each_operation(self):
        texts = self.make_texts(80, 60_000)
        sealed = self.manifest("seal.toml", operation="encrypt", source="plain", target="sealed", batch_files=12)
        self.with_kills(sealed)
        self.expect_streams(sealed, texts, "sealed")
        opened = self.manifest("open.toml", operation="decrypt", source="sealed", target="again", batch_files=12)
        self.with_kills(opened)
        self.expect_texts(opened, texts, "again")
        tink("new", self.template, "-o", self.at("new"))
        moved = self.manifest("move.toml", operation="rewrap", source="sealed", to_keys="new", batch_files=12)
        self.with_kills(moved)
        self.expect_streams(moved, texts, "sealed", keys="new")

    def test_workers_are_killed_in_a_check(self):
        needs("check")
        texts = self.make_texts(60, 60_000)
        self.encrypt_all(texts)
        checked = self.manifest("check.toml", operation="check", source="sealed", batch_files=12)
        self.with_kills(checked)
        self.assertEqual(
            {entry["sha256"] for entry in self.record(checked).values()},
            {sha256(read(self.at("sealed", f"{name}.tink"))) for name in texts},
        )

    def test_workers_are_killed_in_parts(self):
        needs("info")
        write(self.at("plain/large"), self.random.randbytes(8 << 20))
        self.encrypt_all({"large": b""})
        opened = self.manifest(
            "open.toml", operation="decrypt", source="sealed", target="again", split_bytes=1, part_bytes=1 << 20
        )
        self.with_kills(opened, kills=2)
        self.assertEqual(read(self.at("again/large")), read(self.at("plain/large")))
        self.expect_no_drafts(self.at("again"))

    def test_the_driver_is_killed_and_started_again(self):
        texts = self.make_texts(80, 60_000)
        sealed = self.manifest("seal.toml", operation="encrypt", source="plain", target="sealed", batch_files=6)
        self.die_and_go_on(sealed, texts, "sealed", "keys", {})
        tink("new", self.template, "-o", self.at("new"))
        moved = self.manifest("move.toml", operation="rewrap", source="sealed", to_keys="new", batch_files=6)
        old = {name: read(self.at("sealed", f"{name}.tink")) for name in texts}
        self.die_and_go_on(moved, texts, "sealed", "new", old)

    def die_and_go_on(self, manifest: str, texts: dict, folder: str, keys: str, old: dict) -> None:
        record = os.path.splitext(manifest)[0] + ".fleet/record.jsonl"
        for lines in (5, 25):
            running = self.start("run", manifest, *self.engine)
            self.assertTrue(wait_for(lambda: lines_of(record) >= lines), "the driver records nothing")
            running.send_signal(signal.SIGKILL)
            running.communicate()
            with open(record, "ab") as torn:
                torn.write(b'{"path":"0.t')
            status = json.loads(self.fleet("status", manifest, "--json"))
            self.assertEqual((status["done"] >= lines, status["is_running"]), (True, False))
        said = self.run_all(manifest)
        self.assertIn("the last line was torn", said)
        self.expect_streams(manifest, texts, folder, keys=keys, old=old)
        self.assertEqual(self.workers(manifest), [], "no worker is left")

    def test_of_two_drivers_the_second_is_refused(self):
        self.make_texts(60, 60_000)
        sealed = self.manifest("seal.toml", operation="encrypt", source="plain", target="sealed", batch_files=1)
        running = self.start("run", sealed, *self.engine)
        self.assertTrue(wait_for(lambda: lines_of(self.at("seal.fleet/record.jsonl")) > 0))
        # It is stopped, so that it is at work until the second one has ended.
        running.send_signal(signal.SIGSTOP)
        self.run_all(sealed, status=3, says=f"another driver is at work (process {running.pid} of ")
        self.assertTrue(json.loads(self.fleet("status", sealed, "--json"))["is_running"])
        running.send_signal(signal.SIGKILL)
        running.communicate()
        self.run_all(sealed, says=" 0 failed")

    def killed_driver(self) -> tuple[str, dict[str, bytes], int]:
        """A driver was killed while its worker is held at the first of two files of a call. Gives that worker."""
        texts = {str(number): self.random.randbytes(3000) for number in range(10)}
        for name, text in texts.items():
            write(self.at("plain", name), text)
        sealed = self.manifest(
            "seal.toml", operation="encrypt", source="plain", target="sealed", program=self.holding_program("4")
        )
        self.killed_at_a_held_file(sealed, "--workers", "1")
        # One process gets four calls of one file before calls of two.
        call = json.loads(read(self.at("seal.fleet/calls/4.json")))
        self.assertEqual([it["path"] for it in call["tasks"]], ["4", "5"])
        [worker] = [pid for pid, name in self.began() if name == "4"]
        self.assertEqual(self.workers(sealed), [worker])
        return sealed, texts, worker

    def test_a_worker_of_a_killed_driver_ends_after_its_file(self):
        sealed, _, worker = self.killed_driver()
        [parallel] = [parent for pid, parent, _ in processes() if pid == worker]
        write(self.at("go"), b"")
        ends = {worker, parallel}
        self.assertTrue(wait_for(lambda: not any(line for pid, _, line in processes() if pid in ends)))
        self.assertEqual([name for _, name in self.began()], ["0", "1", "2", "3", "4"])
        self.assertEqual(files_below(self.at("sealed")), [f"{number}.tink" for number in range(5)])

    def test_a_new_driver_waits_for_the_worker_of_a_killed_one(self):
        sealed, texts, worker = self.killed_driver()
        running = self.waiting_driver(sealed, "--workers", "1")
        self.assertEqual(self.workers(sealed), [worker])
        write(self.at("go"), b"")
        running.communicate(timeout=SECONDS)
        self.assertEqual(running.returncode, 0, read(self.at("said")))
        self.assertEqual([name for pid, name in self.began() if pid == worker], ["4"])
        record = self.record(sealed)
        self.assertEqual([record[name].get("adopted", False) for name in ("4", "5")], [True, False])
        self.expect_streams(sealed, texts, "sealed")

    def test_a_file_at_which_each_worker_dies_is_named(self):
        """The program kills the worker that runs it for one file: before it makes a stream, and after that."""
        texts = self.make_texts(4, 3000)
        self.encrypt_all(texts)
        old = {name: read(self.at("sealed", f"{name}.tink")) for name in texts}
        tink("new", self.template, "-o", self.at("new"))
        for kill in ("kill -9 $PPID; exit 1", f'{TINK} "$@"; kill -9 $PPID'):
            script = f'#!/bin/sh\ncase "$*" in *plain/0.txt|*sealed/3.txt.tink) {kill} ;; esac\nexec {TINK} "$@"\n'
            write(self.at("program"), script.encode())
            os.chmod(self.at("program"), 0o700)
            sealed = self.manifest(
                "seal.toml", operation="encrypt", source="plain", target="out", program=self.at("program")
            )
            self.run_all(sealed, status=1, says="0.txt: its worker died 3 times: read ")
            self.expect_streams(sealed, texts, "out", all_done=False)
            self.assertEqual(self.record(sealed)["0.txt"]["target"], "absent")
            moved = self.manifest(
                "move.toml", operation="rewrap", source="sealed", to_keys="new", program=self.at("program")
            )
            self.run_all(moved, status=1, says="3.txt.tink: its worker died 3 times: read ")
            self.expect_streams(moved, texts, "sealed", keys="new", old=old, all_done=False)
            self.assertEqual(self.record(moved)["3.txt.tink"]["target"], "old")

    def test_an_interrupted_driver_leaves_no_worker(self):
        texts = self.make_texts(60, 60_000)
        sealed = self.manifest("seal.toml", operation="encrypt", source="plain", target="sealed", batch_files=2)
        running = self.start("run", sealed, *self.engine)
        self.assertTrue(wait_for(lambda: lines_of(self.at("seal.fleet/record.jsonl")) > 0))
        running.send_signal(signal.SIGTERM)
        running.communicate(timeout=60)
        self.assertTrue(wait_for(lambda: not self.workers(sealed), 10), "workers are left")
        self.expect_streams(sealed, texts, "sealed", all_done=False)
        self.run_all(sealed)
        self.expect_streams(sealed, texts, "sealed")


class FullDisks(ParallelYard):
    def setUp(self) -> None:
        super().setUp()
        os.mkdir(self.at("sealed"))
        mounted = subprocess.run(
            ["mount", "-t", "tmpfs", "-o", "size=400k", "tmpfs", self.at("sealed")], capture_output=True, check=False
        )
        if mounted.returncode != 0:
            self.skipTest("a small file system may not be mounted here")
        self.addCleanup(subprocess.run, ["umount", "-l", self.at("sealed")], check=False)

    def test_a_full_disk_fails_what_has_no_room_and_no_more(self):
        texts = self.make_texts(40, 40_000)
        sealed = self.manifest("seal.toml", operation="encrypt", source="plain", target="sealed")
        said = self.run_all(sealed, status=1)
        self.assertRegex(said, r"sealed/.*: it could not be written: a full disk")
        self.expect_streams(sealed, texts, "sealed", all_done=False)
        states = [it["state"] for it in self.record(sealed).values()]
        self.assertEqual((len(states), set(states)), (40, {"done", "failed"}))
        subprocess.run(["mount", "-o", "remount,size=8m", self.at("sealed")], check=True)
        self.run_all(sealed, says=f"{states.count('failed')} done, 0 failed")
        self.expect_streams(sealed, texts, "sealed")


SHELF = b"""
from fsspec.implementations.local import LocalFileSystem


class Shelf(LocalFileSystem):
    protocol = "shelf"

    @classmethod
    def _strip_protocol(cls, path):
        return super()._strip_protocol(str(path).removeprefix("shelf://"))
"""


class ObjectRuns(ParallelYard):
    """Whole runs over a file system of fsspec, which all processes reach by a plug-in."""

    def setUp(self) -> None:
        super().setUp()
        try:
            import fsspec  # noqa: F401
        except ImportError:
            self.skipTest("fsspec is not installed")
        write(self.at("plugin/shelf.py"), SHELF)
        write(self.at("plugin/shelf-1.dist-info/entry_points.txt"), b"[fsspec.specs]\nshelf = shelf:Shelf\n")
        write(self.at("plugin/shelf-1.dist-info/METADATA"), b"Metadata-Version: 2.1\nName: shelf\nVersion: 1\n")
        os.environ["PYTHONPATH"] = self.at("plugin")
        self.addCleanup(os.environ.pop, "PYTHONPATH")

    def url(self, name: str) -> str:
        return f"shelf://{self.at(name)}"

    def test_each_operation_over_objects(self):
        texts = self.make_texts(30, 9000)
        sealed = self.manifest("seal.toml", operation="encrypt", source=self.url("plain"), target=self.url("sealed"))
        self.run_all(sealed, says="30 done, 0 failed")
        self.expect_streams(sealed, texts, "sealed")
        self.run_all(sealed, says="0 done, 0 failed, 30 were done before")
        tink("new", self.template, "-o", self.at("new"))
        moved = self.manifest("move.toml", operation="rewrap", source=self.url("sealed"), to_keys="new", batch_files=4)
        with Killer(lambda: self.workers(moved), 2, 0.4, self.id()) as killer:
            self.run_all(moved, says="30 done, 0 failed")
        self.assertGreater(killer.killed, 0, "no worker was killed")
        self.expect_streams(moved, texts, "sealed", keys="new")
        stream = read(self.at("sealed/3.txt.tink"))
        write(self.at("sealed/3.txt.tink"), stream[:-1] + bytes([stream[-1] ^ 1]))
        words = {"source": self.url("sealed"), "keys": "new"}
        checked = self.manifest("check.toml", operation="check", **words)
        self.run_all(checked, status=1, says="29 done, 1 failed")
        opened = self.manifest("open.toml", operation="decrypt", target=self.url("again"), **words)
        said = self.run_all(opened, status=1, says="29 done, 1 failed")
        self.assertIn(f"3.txt.tink: tink: {self.url('sealed')}/3.txt.tink: ", said)
        self.assertFalse(os.path.exists(self.at("again/3.txt")))
        del texts["3.txt"]
        self.expect_texts(opened, texts, "again")
