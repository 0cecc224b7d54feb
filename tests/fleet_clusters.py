"""Runs by a Dask cluster on 127.0.0.1: workers and drivers killed, a full disk on one worker, parts, wrapped keys."""
import json
import os
import shutil
import signal
import subprocess
import sys
import tempfile
import unittest
from contextlib import contextmanager

from fleet_lib import (
    SECONDS,
    TINK,
    Killer,
    Targets,
    Watcher,
    Yard,
    files_below,
    has_listed,
    lines_of,
    memory_of,
    needs,
    processes,
    read,
    secrets_of,
    sha256,
    tink,
    wait_for,
    write,
)
from tink_fleet.calls import batch_call
from tink_fleet.program import Keys, list_keys
from tink_fleet.tasks import Job, Task

WORKERS = 3


class Cluster:
    """A scheduler and workers on the loopback. Each worker has one thread, and a nanny that starts it again."""

    def __init__(self):
        self.folder = tempfile.mkdtemp(prefix="fleet-cluster-")
        self.log = open(os.path.join(self.folder, "log"), "wb")
        self.running: list[subprocess.Popen] = []
        file = os.path.join(self.folder, "scheduler.json")
        self.spawn("distributed.cli.dask_scheduler", "--host", "127.0.0.1", "--port", "0", "--scheduler-file", file)
        if not wait_for(lambda: os.path.exists(file) and read(file).strip().endswith(b"}")):
            raise AssertionError(f"no scheduler: {read(self.log.name).decode()}")
        self.address = json.loads(read(file))["address"]
        for _ in range(WORKERS):
            self.add_worker()
        self.wait(WORKERS)

    def spawn(self, module: str, *words: str, before: tuple[str, ...] = ()) -> subprocess.Popen:
        # The programs of the cluster by their modules, so that they run under this Python.
        words = (*before, sys.executable, "-c", f"from {module} import main; main()", *words, "--no-dashboard")
        env = {**os.environ, "TINK": TINK, "DASK_DISTRIBUTED__COMM__TIMEOUTS__CONNECT": "60s"}
        made = subprocess.Popen(
            words, cwd=self.folder, env=env, stdout=self.log, stderr=self.log, stdin=subprocess.DEVNULL
        )
        self.running.append(made)
        return made

    def add_worker(self, before: tuple[str, ...] = ()) -> subprocess.Popen:
        return self.spawn(
            "distributed.cli.dask_worker",
            self.address,
            "--host",
            "127.0.0.1",
            "--nthreads",
            "1",
            "--nworkers",
            "1",
            "--local-directory",
            self.folder,
            before=before,
        )

    def count(self) -> int:
        return len(self.client().nthreads())

    def client(self):
        from distributed import Client

        if not hasattr(self, "kept"):
            # On a busy machine a scheduler answers late.
            self.kept = Client(self.address, timeout=120)
        return self.kept

    def forget_client(self) -> None:
        if hasattr(self, "kept"):
            self.kept.close()
            del self.kept

    def wait(self, count: int) -> None:
        if not wait_for(lambda: self.count() == count):
            raise AssertionError(f"{self.count()} workers in place of {count}: {read(self.log.name).decode()[-3000:]}")

    def processes(self) -> list[int]:
        """The processes of workers, which nannies started."""
        nannies = {it.pid for it in self.running}
        return [pid for pid, parent, line in processes() if parent in nannies and "spawn_main" in line]

    def close(self) -> None:
        self.forget_client()
        for it in reversed(self.running):
            it.terminate()
        for it in reversed(self.running):
            try:
                it.wait(20)
            except subprocess.TimeoutExpired:
                it.kill()
                it.wait()
        self.log.close()
        shutil.rmtree(self.folder, ignore_errors=True)


class ClusterYard(Yard):
    @classmethod
    def setUpClass(cls) -> None:
        try:
            import distributed  # noqa: F401
        except ImportError:
            raise unittest.SkipTest("Dask distributed is not installed") from None
        cls.cluster = Cluster()
        cls.addClassCleanup(cls.cluster.close)
        cls.engine = ("--scheduler", cls.cluster.address)


class Clusters(Targets, ClusterYard):
    def with_kills(self, manifest: str, kills: int = 2) -> None:
        running, record = (
            self.start("run", manifest, *self.engine),
            os.path.splitext(manifest)[0] + ".fleet/record.jsonl",
        )
        self.assertTrue(wait_for(lambda: lines_of(record) > 0 or running.poll() is not None))
        with Killer(lambda: [] if has_listed(record) else self.cluster.processes(), kills, 0.2, self.id()) as killer:
            out, err = running.communicate(timeout=SECONDS)
        self.assertEqual(running.returncode, 0, out + err)
        self.assertGreater(killer.killed, 0, "no worker was killed")
        self.cluster.wait(WORKERS)

    def test_workers_are_killed_in_each_operation(self):
        texts = self.make_texts(200, 60_000)
        sealed = self.manifest("seal.toml", operation="encrypt", source="plain", target="sealed", batch_files=4)
        self.with_kills(sealed)
        self.expect_streams(sealed, texts, "sealed")
        opened = self.manifest("open.toml", operation="decrypt", source="sealed", target="again", batch_files=4)
        self.with_kills(opened)
        self.expect_texts(opened, texts, "again")
        tink("new", self.template, "-o", self.at("new"))
        moved = self.manifest("move.toml", operation="rewrap", source="sealed", to_keys="new", batch_files=4)
        self.with_kills(moved)
        self.expect_streams(moved, texts, "sealed", keys="new")
        if "check" not in self.commands():
            return
        checked = self.manifest("check.toml", operation="check", source="sealed", keys="new", batch_files=4)
        self.with_kills(checked)
        self.assertEqual(
            {entry["sha256"] for entry in self.record(checked).values()},
            {sha256(read(self.at("sealed", f"{name}.tink"))) for name in texts},
        )

    def commands(self) -> frozenset[str]:
        from tink_fleet import program

        return program.commands(TINK)

    def test_the_driver_is_killed_and_started_again(self):
        texts = self.make_texts(160, 60_000)
        sealed = self.manifest("seal.toml", operation="encrypt", source="plain", target="sealed", batch_files=4)
        record = self.at("seal.fleet/record.jsonl")
        for lines in (5, 40):
            running = self.start("run", sealed, *self.engine)
            self.assertTrue(wait_for(lambda: lines_of(record) >= lines))
            running.send_signal(signal.SIGKILL)
            running.communicate()
            held = read(record)
            write(record, held[: held.rstrip(b"\n").rfind(b"\n") + 9])
        self.run_all(sealed, says="the last line was torn")
        self.expect_streams(sealed, texts, "sealed")

    def test_a_new_driver_waits_for_the_worker_of_a_killed_one(self):
        """The worker is held at the first of two files of a call, and does not go on to the second."""
        self.cluster.wait(WORKERS)
        texts = {f"{number:02}": self.random.randbytes(3000) for number in range(24)}
        for name, text in texts.items():
            write(self.at("plain", name), text)
        # Three processes get twelve calls of one file before calls of two: 12 and 13 are one call.
        sealed = self.manifest(
            "seal.toml", operation="encrypt", source="plain", target="sealed", program=self.holding_program("12")
        )
        self.killed_at_a_held_file(sealed, *self.engine)
        running = self.waiting_driver(sealed, *self.engine)
        self.assertNotIn("13", [name for _, name in self.began()])
        write(self.at("go"), b"")
        running.communicate(timeout=SECONDS)
        self.assertEqual(running.returncode, 0, read(self.at("said")))
        record = self.record(sealed)
        self.assertEqual([record[name].get("adopted", False) for name in ("12", "13")], [True, False])
        self.expect_streams(sealed, texts, "sealed")

    def test_a_call_of_a_run_that_is_over_is_refused(self):
        from tink_fleet.dask_engine import DaskEngine

        write(self.at("plain/x"), b"text")
        task = Task("x", self.at("plain/x"), self.at("sealed/x.tink"), "x", "x", 4, 0, False)
        engine = DaskEngine(self.cluster.address)
        self.addCleanup(engine.close)
        for run, made in (("old", []), ("new", ["done"])):
            job = Job(self.id(), run, "encrypt", TINK, self.at("keys"), None, "", None, None)
            engine.begin(self.id(), "new", lambda _: None)
            results = engine.call(batch_call(job, [task]))
            self.assertEqual([it["state"] for it in results], made)
            self.assertEqual(os.path.exists(self.at("sealed/x.tink")), bool(made))

    def test_what_failed_by_one_machine_goes_to_another_worker(self):
        """The program cannot write a file on the first worker that tries it."""
        self.cluster.wait(WORKERS)
        texts = self.make_texts(30, 3000)
        script = f"""#!/bin/sh
for last; do :; done
if [ "$1" = encrypt ]; then
    echo "$PPID ${{last##*/}}" >> {self.at("began")}
    [ $PPID != "$(sed -n "s/ ${{last##*/}}$//p" {self.at("began")} | head -n 1)" ] || exit 12
fi
exec {TINK} "$@"
"""
        write(self.at("program"), script.encode())
        os.chmod(self.at("program"), 0o700)
        sealed = self.manifest(
            "seal.toml", operation="encrypt", source="plain", target="sealed", program=self.at("program")
        )
        self.run_all(sealed, says="30 done, 0 failed")
        tried = self.began()
        self.assertEqual((len(tried), len(set(tried))), (60, 60), "a file was tried by the same worker again")
        self.expect_streams(sealed, texts, "sealed")

    def test_of_two_drivers_the_second_is_refused(self):
        self.make_texts(100, 60_000)
        sealed = self.manifest("seal.toml", operation="encrypt", source="plain", target="sealed", batch_files=1)
        running = self.start("run", sealed, *self.engine)
        self.assertTrue(wait_for(lambda: lines_of(self.at("seal.fleet/record.jsonl")) > 0))
        # It is stopped, so that it is at work until the second one has ended.
        running.send_signal(signal.SIGSTOP)
        self.run_all(sealed, status=3, says="another driver is at work")
        running.send_signal(signal.SIGCONT)
        running.communicate(timeout=SECONDS)
        self.assertEqual(running.returncode, 0)

    def test_a_full_disk_on_one_worker(self):
        """One worker sees a full disk in place of the target: what it cannot write another worker does."""
        os.mkdir(self.at("sealed"))
        full = f"mount -t tmpfs -o size=16k tmpfs '{self.at('sealed')}' && head -c 100000 /dev/zero > '{self.at('sealed', 'full')}' 2>/dev/null; exec \"$@\""
        with self.another_worker("unshare", "-m", "sh", "-c", full, "sh"):
            texts = self.make_texts(60, 60_000)
            sealed = self.manifest("seal.toml", operation="encrypt", source="plain", target="sealed", batch_files=2)
            self.run_all(sealed, says="60 done, 0 failed")
            self.expect_streams(sealed, texts, "sealed")

    @contextmanager
    def another_worker(self, *before: str):
        """A worker more, which is started by these words and has a file system of its own."""
        if subprocess.run(["unshare", "-m", "true"], capture_output=True, check=False).returncode != 0:
            self.skipTest("a file system of its own may not be given to a worker here")
        self.cluster.wait(WORKERS)
        worker = self.cluster.add_worker(before)
        try:
            self.cluster.wait(WORKERS + 1)
            yield
        finally:
            worker.terminate()
            worker.wait(30)
            self.cluster.running.remove(worker)
        self.cluster.wait(WORKERS)

    def test_one_damaged_file_among_a_thousand(self):
        texts = {f"{number // 100}/{number}": self.random.randbytes(4096) for number in range(1000)}
        for name, text in texts.items():
            write(self.at("plain", name), text)
        sealed = self.manifest("seal.toml", operation="encrypt", source="plain", target="sealed")
        self.run_all(sealed, says="1000 done, 0 failed")
        stream = bytearray(read(self.at("sealed/3/333.tink")))
        stream[2000] ^= 1
        write(self.at("sealed/3/333.tink"), bytes(stream))
        opened = self.manifest("open.toml", operation="decrypt", source="sealed", target="again")
        self.run_all(opened, status=1, says="3/333.tink: tink: ")
        self.assertFalse(os.path.exists(self.at("again/3/333")))
        del texts["3/333"]
        self.expect_texts(opened, texts, "again")

    def test_parts_of_a_large_file(self):
        needs("info")
        write(self.at("plain/large"), self.random.randbytes(3_000_000))
        self.encrypt_all({"large": b""})
        opened = self.manifest(
            "open.toml", operation="decrypt", source="sealed", target="again", split_bytes=1, part_bytes=200_001
        )
        self.run_all(opened, says="1 done, 0 failed")
        self.assertEqual(read(self.at("again/large")), read(self.at("plain/large")))
        self.assertEqual(self.record(opened)["large.tink"]["sha256"], sha256(read(self.at("sealed/large.tink"))))

    def test_workers_are_killed_in_parts(self):
        needs("info")
        write(self.at("plain/large"), self.random.randbytes(6 << 20))
        self.encrypt_all({"large": b""})
        opened = self.manifest(
            "open.toml", operation="decrypt", source="sealed", target="again", split_bytes=1, part_bytes=1 << 18
        )
        running = self.start("run", opened, *self.engine)
        self.assertTrue(wait_for(lambda: os.path.isdir(self.at("again")) and files_below(self.at("again"))))
        with Killer(self.cluster.processes, 2, 0.3, self.id()) as killer:
            out, err = running.communicate(timeout=SECONDS)
        self.assertEqual((running.returncode, killer.killed > 0), (0, True), out + err)
        self.cluster.wait(WORKERS)
        self.assertEqual(read(self.at("again/large")), read(self.at("plain/large")))
        self.expect_no_drafts(self.at("again"))

    def test_a_rotation_of_a_thousand_files_with_workers_killed_in_the_middle(self):
        """Also the driver is killed, and started again."""
        needs("add", "check", "info")
        texts = {f"{number // 100}/{number}": self.random.randbytes(3000 + number) for number in range(1000)}
        for name, text in texts.items():
            write(self.at("plain", name), text)
        sealed = self.manifest("seal.toml", operation="encrypt", source="plain", target="sealed")
        self.run_all(sealed, says="1000 done, 0 failed")
        old = list_keys(TINK, Keys(self.at("keys"))).primary
        moved = self.manifest("move.toml", operation="rewrap", source="sealed", batch_files=8)
        words = ("rotate", moved, "--template", self.template, *self.engine)
        for step, lines, kills in (("rewrap", 100, 0), ("rewrap", 300, 2), ("check", 300, 2)):
            running = self.start(*words)
            self.assertTrue(wait_for(lambda: self.lines_of_step(step) >= lines or running.poll() is not None))
            self.assertIsNone(running.poll(), running.poll() is None or running.communicate())
            with Killer(self.cluster.processes, kills, 0.1, self.id()) as killer:
                wait_for(lambda: killer.killed == kills)
            self.assertEqual(killer.killed, kills, "no worker was killed")
            if step == "rewrap":
                running.send_signal(signal.SIGKILL)
            out, err = running.communicate(timeout=SECONDS)
        self.assertEqual(running.returncode, 0, out + err)
        self.assertIn(f"key {old} is disabled", out)
        self.cluster.wait(WORKERS)
        listed = list_keys(TINK, Keys(self.at("keys")))
        self.assertEqual((listed.statuses[old], listed.enabled), ("disabled", [listed.primary]))
        for name, text in texts.items():
            self.assertTrue(self.opens_to(self.at("sealed", f"{name}.tink"), text, name), name)
        self.assertEqual(len(files_below(self.at("sealed"))), 1000)

    def lines_of_step(self, step: str) -> int:
        found = [it for it in files_below(self.at("move.fleet")) if it.endswith(f"{step}/record.jsonl")]
        return sum(lines_of(self.at("move.fleet", it)) for it in found)

    def test_keys_reach_no_log_no_command_line_and_no_memory_of_the_cluster(self):
        needs("--master")
        tink("new", "AES256_GCM", "-o", self.at("master"))
        tink("wrap", "-k", self.at("master"), "-o", self.at("wrapped"), self.at("keys"))
        texts = self.make_texts(20, 3000)
        # A program that encrypts this one runs long enough to be seen.
        texts["large"] = bytes(64 << 20)
        write(self.at("plain/large"), texts["large"])
        sealed = self.manifest(
            "seal.toml", operation="encrypt", source="plain", target="sealed", keys="wrapped", master="master"
        )
        with Watcher(self.at("seal.fleet")) as watcher:
            self.run_all(sealed)
        self.expect_streams(sealed, texts, "sealed")
        self.assertTrue(any(b"--master" in it for it in watcher.seen), "no program was seen")
        secrets = [it for file in ("keys", "master") for it in secrets_of(self.at(file))]
        for place in (read(self.cluster.log.name), *watcher.seen):
            self.assertFalse(any(secret in place for secret in secrets))
        cluster = [it.pid for it in self.cluster.running] + self.cluster.processes()
        self.assertGreater(len(cluster), 2 * WORKERS)
        for pid in cluster:
            blocks = list(memory_of(pid))
            self.assertGreater(sum(map(len, blocks)), 1 << 20, "the memory was not read")
            self.assertFalse(any(secret in it for it in blocks for secret in secrets), f"a key is in process {pid}")

    def test_a_worker_without_the_keys_is_named(self):
        write(self.at("plain/x"), b"")
        sealed = self.manifest("seal.toml", operation="encrypt", source="plain", target="sealed", keys="none")
        self.run_all(sealed, status=2, says="there is no such file")

    def test_workers_with_different_keys_do_nothing(self):
        tink("new", self.template, "-o", self.at("other"))
        other = f"mount --bind '{self.at('other')}' '{self.at('keys')}' && exec \"$@\""
        with self.another_worker("unshare", "-m", "sh", "-c", other, "sh"):
            self.make_texts(3, 3000)
            sealed = self.manifest("seal.toml", operation="encrypt", source="plain", target="sealed")
            self.run_all(sealed, status=2, says="the workers have different primary keys")
            self.assertFalse(os.path.exists(self.at("sealed")))
            self.assertEqual(self.record(sealed), {})

    def test_a_scheduler_that_dies_is_named_and_a_later_run_goes_on(self):
        cluster, texts = Cluster(), self.make_texts(60, 20_000)
        try:
            sealed = self.manifest("seal.toml", operation="encrypt", source="plain", target="sealed", batch_files=1)
            running = self.start("run", sealed, "--scheduler", cluster.address)
            self.assertTrue(wait_for(lambda: lines_of(self.at("seal.fleet/record.jsonl")) > 0))
            running.send_signal(signal.SIGSTOP)
            self.assertLess(lines_of(self.at("seal.fleet/record.jsonl")), len(texts))
            cluster.forget_client()
            cluster.running[0].kill()
            running.send_signal(signal.SIGCONT)
            out, err = running.communicate(timeout=SECONDS)
        finally:
            cluster.close()
        self.assertEqual((running.returncode, out), (2, ""), err)
        self.assertEqual(
            err, f"fleet: {cluster.address}: the scheduler is gone: start it again, and run again; what is done stays done\n"
        )
        self.expect_streams(sealed, texts, "sealed", all_done=False)
        self.run_all(sealed, says=" were done before")
        self.expect_streams(sealed, texts, "sealed")

    def test_a_scheduler_that_is_not_there_is_named(self):
        sealed = self.manifest("seal.toml", operation="encrypt", source="plain", target="sealed")
        self.fleet("run", sealed, "--scheduler", "tcp://10.1.2.3:1", status=2, says="without TLS")
