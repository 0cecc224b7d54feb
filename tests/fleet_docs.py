"""The example of docs/FLEETS.md as it is printed, under each engine."""
import os
import re
import shutil
import subprocess
import sys

from fleet_clusters import ClusterYard as Clustered
from fleet_lib import FLEET, ROOT, SECONDS, TINK, Yard, files_below, needs, read, tink, write


class Example(Yard):
    def setUp(self) -> None:
        super().setUp()
        needs("add", "check", "info", "--master")
        for name, words in (("tink", [TINK]), ("fleet", [sys.executable, FLEET])):
            write(self.at("bin", name), f"#!/bin/sh\nexec {' '.join(words)} \"$@\"\n".encode())
            os.chmod(self.at("bin", name), 0o700)
        self.texts = {f"{number % 3}/é {number}": self.random.randbytes(number * 1000) for number in range(12)}
        for name, text in self.texts.items():
            write(self.at("work", name), text)

    def run_example(self, *engine: str) -> None:
        """Runs each line, with words for the engine after each line that starts one."""
        found = re.search(r"```sh\n(# once:.*?)```", read(os.path.join(ROOT, "docs", "FLEETS.md")).decode(), re.DOTALL)
        lines = [
            " ".join((it, *engine)) if it.startswith(("fleet run", "fleet rotate")) else it
            for it in found.group(1).splitlines()
        ]
        self.assertEqual(sum(it.startswith("fleet ") for it in lines), 5)
        write(self.at("example.sh"), "\n".join(["set -e", *lines]).encode())
        env = {**os.environ, "PATH": f"{self.at('bin')}:{os.environ['PATH']}"}
        done = subprocess.run(
            ["sh", "example.sh"], cwd=self.folder, env=env, capture_output=True, text=True, timeout=SECONDS, check=False
        )
        self.assertEqual(done.returncode, 0, done.stdout + done.stderr)
        self.expect_all(done.stdout)

    def expect_all(self, said: str) -> None:
        new, old = re.search(r" is under key ([0-9]+); key ([0-9]+) is disabled", said).groups()
        tink("unwrap", "-k", self.at("master.json"), "-o", self.at("now"), self.at("backup.wrapped"))
        rows = sorted(it.split("\t")[:2] for it in tink("keys", self.at("now")).decode().splitlines())
        self.assertEqual(rows, sorted([[new, "enabled"], [old, "disabled"]]))
        self.assertEqual(files_below(self.at("restored")), sorted(self.texts))
        for name, text in self.texts.items():
            self.assertTrue(self.opens_to(self.at("backup", f"{name}.tink"), text, name, "now"), name)
            self.assertEqual(read(self.at("restored", name)), text)

    def test_by_gnu_parallel(self):
        if shutil.which("parallel") is None:
            self.skipTest("GNU parallel is not installed")
        self.run_example()


class ExampleOfClusters(Clustered, Example):
    test_by_gnu_parallel = None

    def test_by_a_cluster(self):
        self.run_example("--scheduler", self.cluster.address)
