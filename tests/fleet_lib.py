"""What the tests of fleet share: a folder with keys and files, runs of fleet, kills, and what has to hold afterwards."""
import base64
import hashlib
import json
import os
import random
import re
import shutil
import signal
import subprocess
import sys
import tempfile
import threading
import time
import unittest

from tink_fleet import program

ROOT = os.path.dirname(os.path.dirname(os.path.abspath(__file__)))
FLEET = os.path.join(ROOT, "fleet", "fleet")
TINK = os.environ["TINK"]
# Ends a run that hangs. It is far above what a run takes, also beside other work.
SECONDS = 900


def needs(*names: str) -> None:
    """Skips the test where the program has not these commands."""
    missing = [name for name in names if name not in program.commands(TINK)]
    if missing:
        raise unittest.SkipTest(f"{TINK} has no {', '.join(missing)}")


def tink(*words: str, status: int = 0, **more) -> bytes:
    done = subprocess.run([TINK, *words], capture_output=True, check=False, **more)
    assert done.returncode == status, f"{words}: status {done.returncode}: {done.stderr.decode()}"
    return done.stdout


def sha256(data: bytes) -> str:
    return hashlib.sha256(data).hexdigest()


def read(path: str) -> bytes:
    with open(path, "rb") as file:
        return file.read()


def write(path: str, data: bytes) -> None:
    os.makedirs(os.path.dirname(path), exist_ok=True)
    with open(path, "wb") as file:
        file.write(data)


def files_below(folder: str) -> list[str]:
    return sorted(os.path.relpath(os.path.join(at, name), folder) for at, _, names in os.walk(folder) for name in names)


class Yard(unittest.TestCase):
    """A folder for a test, with a file of keys."""

    template = "AES128_GCM_HKDF_4KB"
    engine = ("--workers", "3")

    def setUp(self) -> None:
        self.folder = tempfile.mkdtemp(prefix="fleet-test-")
        self.addCleanup(shutil.rmtree, self.folder, ignore_errors=True)
        self.random = random.Random(self.id())
        tink("new", self.template, "-o", self.at("keys"))

    def at(self, *names: str) -> str:
        return os.path.join(self.folder, *names)

    def make_texts(self, count: int, size: int) -> dict[str, bytes]:
        """Files of about a size, some in folders, with names that have blanks and letters of other scripts."""
        texts = {}
        for number in range(count):
            name = f"part {number % 7}/é{number}.txt" if number % 3 else f"{number}.txt"
            texts[name] = self.random.randbytes(self.random.randrange(size // 2, size + 1))
            write(self.at("plain", name), texts[name])
        return texts

    def encrypt_all(self, texts: dict[str, bytes], folder: str = "sealed", keys: str = "keys") -> None:
        for name in texts:
            os.makedirs(os.path.dirname(self.at(folder, name)), exist_ok=True)
            tink(
                "encrypt",
                "-k",
                self.at(keys),
                "--aad",
                name,
                "-o",
                self.at(folder, f"{name}.tink"),
                self.at("plain", name),
            )

    def manifest(self, name: str, **words) -> str:
        words = {"keys": "keys", "aad": "{path}"} | words
        lines = [f"{word} = {json.dumps(value)}" for word, value in words.items() if value is not None]
        write(self.at(name), "\n".join(lines).encode() + b"\n")
        return self.at(name)

    def start(self, *words: str, **more) -> subprocess.Popen:
        more = {"stdout": subprocess.PIPE, "stderr": subprocess.PIPE, "text": True} | more
        made = subprocess.Popen([sys.executable, FLEET, *words], **more)
        # It may be stopped where a test fails.
        self.addCleanup(made.kill)
        return made

    def holding_program(self, name: str) -> str:
        """A program that waits at its first encryption of a file `name` until there is a file `go`.

        While it waits, and later, there is a folder `held`. For each encryption it appends a line to `began`: the
        process that runs it, and the name of the file.
        """
        script = f"""#!/bin/sh
for last; do :; done
if [ "$1" = encrypt ]; then
    echo "$PPID ${{last##*/}}" >> {self.at("began")}
    if [ "${{last##*/}}" = {name} ] && mkdir {self.at("held")} 2> /dev/null; then
        while [ -e "$0" ] && [ ! -e {self.at("go")} ]; do sleep 0.1; done
    fi
fi
exec {TINK} "$@"
"""
        write(self.at("program"), script.encode())
        os.chmod(self.at("program"), 0o700)
        return self.at("program")

    def began(self) -> list[tuple[int, str]]:
        """The process and the name of each encryption that a program of `holding_program` began."""
        rows = [line.split() for line in read(self.at("began")).decode().splitlines()]
        return [(int(pid), name) for pid, name in rows]

    def killed_at_a_held_file(self, manifest: str, *engine: str) -> None:
        """Kills a driver while the program of one of its workers is held."""
        running = self.start("run", manifest, *engine)
        self.assertTrue(wait_for(lambda: os.path.isdir(self.at("held")) or running.poll() is not None))
        self.assertIsNone(running.poll(), "the driver ended before the file that is held")
        running.send_signal(signal.SIGKILL)
        running.communicate()

    def waiting_driver(self, manifest: str, *engine: str) -> subprocess.Popen:
        """A driver that says that it waits for the workers of an earlier one."""
        record = os.path.splitext(manifest)[0] + ".fleet/record.jsonl"
        before, line = lines_of(record), b"waiting for the workers of an earlier driver to end their files"
        with open(self.at("said"), "wb") as said:
            running = self.start("run", manifest, *engine, stderr=said)
        # One that does not wait ends a file, or ends itself.
        wait_for(
            lambda: line in read(self.at("said")) or lines_of(record) > before or running.poll() is not None
        )
        self.assertIn(line, read(self.at("said")))
        return running

    def fleet(self, *words: str, status: int = 0, says: str = "", **more) -> str:
        """Runs fleet, and compares its status and a part of what it says."""
        done = subprocess.run(
            [sys.executable, FLEET, *words], capture_output=True, text=True, timeout=SECONDS, check=False, **more
        )
        both = done.stdout + done.stderr
        self.assertEqual(done.returncode, status, both)
        self.assertIn(says, both)
        self.assertNotIn("Traceback", both)
        return both

    def run_all(self, manifest: str, status: int = 0, says: str = "", **more) -> str:
        return self.fleet("run", manifest, *self.engine, status=status, says=says, **more)

    def record(self, manifest: str) -> dict[str, dict]:
        """The last line of each path."""
        found = {}
        for line in read(os.path.splitext(manifest)[0] + ".fleet/record.jsonl").splitlines():
            made = json.loads(line)
            if "path" in made:
                found[made["path"]] = made
        return found

    def expect_no_drafts(self, folder: str) -> None:
        left = [it for it in files_below(folder) if ".fleet-" in it or it.endswith(".part")]
        self.assertEqual(left, [], "no draft is left")

    def opens_to(self, path: str, text: bytes, aad: str, keys: str = "keys") -> bool:
        done = subprocess.run(
            [TINK, "decrypt", "-k", self.at(keys), "--aad", aad, path], capture_output=True, check=False
        )
        return done.returncode == 0 and done.stdout == text

    def expect_streams(
        self,
        manifest: str,
        texts: dict[str, bytes],
        folder: str,
        *,
        keys: str = "keys",
        old: dict[str, bytes] | None = None,
        all_done: bool = True,
    ) -> None:
        """Each target is absent, old, or exactly a stream of its text, and the record says which."""
        record, old = self.record(manifest), old or {}
        for name, text in texts.items():
            path = self.at(folder, f"{name}.tink")
            entry = record.get(name) or record.get(f"{name}.tink")
            there = read(path) if os.path.exists(path) else None
            if entry is not None and entry["state"] == "done":
                self.assertIsNotNone(there, f"{name}: done and absent")
                self.assertEqual(
                    (len(there), sha256(there)),
                    (entry["size"], entry["sha256"]),
                    f"{name}: another file than the record says",
                )
                self.assertTrue(self.opens_to(path, text, name, keys), f"{name}: done and no stream of its text")
            elif entry is not None:
                self.assertEqual(entry["target"], "absent" if there is None else "old", f"{name}: {entry}")
                self.assertEqual(there, old.get(name), f"{name}: failed and changed")
            else:
                self.assertTrue(
                    there is None or there == old.get(name) or self.opens_to(path, text, name, keys),
                    f"{name}: neither absent nor old nor whole",
                )
            if all_done:
                self.assertEqual(entry and entry["state"], "done", f"{name}: {entry}")
        self.expect_no_drafts(self.at(folder))

    def expect_texts(self, manifest: str, texts: dict[str, bytes], folder: str) -> None:
        """Each target is exactly its text, and the record has the hash of its ciphertext."""
        record = self.record(manifest)
        for name, text in texts.items():
            entry = record[f"{name}.tink"]
            self.assertEqual(entry["state"], "done", f"{name}: {entry}")
            self.assertEqual(read(self.at(folder, name)), text, f"{name}: another text")
            self.assertEqual(entry["size"], len(text))
        self.expect_no_drafts(self.at(folder))


def processes() -> list[tuple[int, int, str]]:
    """The id, the parent and the command line of each process."""
    found = []
    for name in filter(str.isdigit, os.listdir("/proc")):
        try:
            stat = read(f"/proc/{name}/stat").decode()
            line = read(f"/proc/{name}/cmdline").replace(b"\0", b" ").decode(errors="replace")
        except (FileNotFoundError, ProcessLookupError):
            continue
        found.append((int(name), int(stat.rsplit(")", 1)[1].split()[1]), line))
    return found


def local_workers(state: str) -> list[int]:
    """The workers that GNU parallel started for a state folder of a test."""
    at_work = re.compile(rf"\S*python\S* {re.escape(FLEET)} worker {re.escape(state)} [0-9]")
    return [pid for pid, _, line in processes() if at_work.match(line)]


class Killer:
    """Kills workers at random, at most so many, while a run goes on."""

    def __init__(self, workers, most: int, pause: float, seed: str):
        self.workers, self.most, self.pause = workers, most, pause
        self.random = random.Random(seed)
        self.killed = 0
        self.is_ended = threading.Event()
        self.thread = threading.Thread(target=self.work, daemon=True)

    def work(self) -> None:
        while self.killed < self.most and not self.is_ended.wait(self.pause * self.random.random()):
            found = self.workers()
            if found:
                try:
                    os.kill(self.random.choice(found), signal.SIGKILL)
                    self.killed += 1
                except ProcessLookupError:
                    pass

    def __enter__(self) -> "Killer":
        self.thread.start()
        return self

    def __exit__(self, *_: object) -> None:
        self.is_ended.set()
        self.thread.join()


class Watcher:
    """Gathers, until it is ended, the command line of each process and each file below a folder."""

    def __init__(self, folder: str):
        self.folder = folder
        self.seen: set[bytes] = set()
        self.is_ended = threading.Event()
        self.thread = threading.Thread(target=self.work, daemon=True)

    def work(self) -> None:
        while not self.is_ended.wait(0.01):
            names = [f"/proc/{it}/cmdline" for it in filter(str.isdigit, os.listdir("/proc"))]
            names += [os.path.join(at, name) for at, _, found in os.walk(self.folder) for name in found]
            for name in names:
                try:
                    self.seen.add(read(name))
                except (FileNotFoundError, ProcessLookupError):
                    pass

    def __enter__(self) -> "Watcher":
        self.thread.start()
        return self

    def __exit__(self, *_: object) -> None:
        self.is_ended.set()
        self.thread.join()


def secrets_of(path: str) -> list[bytes]:
    """The material of the keys of a file in JSON: each as the file spells it, and its last 16 bytes, which are a key's."""
    texts = [it["keyData"]["value"] for it in json.loads(read(path))["key"]]
    return [it.encode() for it in texts] + [base64.b64decode(it)[-16:] for it in texts]


def memory_of(pid: int):
    """The memory of a process, one mapping that can be read after the other."""
    with open(f"/proc/{pid}/maps") as maps, open(f"/proc/{pid}/mem", "rb", 0) as memory:
        for line in maps:
            begin, end = (int(it, 16) for it in line.split()[0].split("-"))
            if line.split()[1].startswith("rw"):
                try:
                    memory.seek(begin)
                    yield memory.read(end - begin)
                except (OSError, ValueError, OverflowError):
                    pass


class Targets:
    """What holds of targets under each engine."""

    def test_a_target_that_exists(self):
        texts = self.make_texts(6, 3000)
        self.encrypt_all({name: texts[name] for name in ("0.txt", "3.txt")})
        right = read(self.at("sealed", "0.txt.tink"))
        write(self.at("plain", "3.txt"), b"not what was encrypted")
        texts["3.txt"] = b"not what was encrypted"
        wrong = read(self.at("sealed", "3.txt.tink"))
        write(self.at("sealed", "part 1/é1.txt.tink"), b"no stream")
        sealed = self.manifest("seal.toml", operation="encrypt", source="plain", target="sealed")
        said = self.run_all(sealed, status=1, says="4 done, 2 failed")
        self.assertIn("3.txt.tink: it is there already", said)
        self.expect_streams(
            sealed, texts, "sealed", old={"3.txt": wrong, "part 1/é1.txt": b"no stream"}, all_done=False
        )
        self.assertEqual(read(self.at("sealed", "0.txt.tink")), right, "a target that has the text stays")
        self.assertTrue(self.record(sealed)["0.txt"]["adopted"])
        sealed = self.manifest("seal.toml", operation="encrypt", source="plain", target="sealed", replace=True)
        self.run_all(sealed, says="2 done, 0 failed, 4 were done before")
        self.expect_streams(sealed, texts, "sealed")


def wait_for(holds, seconds: float = SECONDS) -> bool:
    end = time.monotonic() + seconds
    while time.monotonic() < end:
        if holds():
            return True
        time.sleep(0.02)
    return False


def has_listed(record: str) -> bool:
    """Whether each file was handed out once, and what follows are repetitions."""
    return os.path.exists(record) and b'{"total"' in read(record)


def lines_of(path: str) -> int:
    return read(path).count(b'"path"') if os.path.exists(path) else 0
