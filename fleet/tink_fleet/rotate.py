"""A whole rotation: a plan of steps that is printed, then run, and stops at the first surprise. No key is deleted."""
import dataclasses
import hashlib
import json
import os
import shlex
import shutil
import subprocess
import tempfile
from collections.abc import Callable
from dataclasses import dataclass, field

from tink_fleet import calls, program
from tink_fleet.driver import Driver, Engine, Summary
from tink_fleet.errors import FleetError, Refused, TaskError
from tink_fleet.manifest import Manifest
from tink_fleet.parallel_engine import write_whole
from tink_fleet.program import KeyList, Keys
from tink_fleet.locks import Lock
from tink_fleet.tasks import Job

STEPS = ("add", "distribute", "promote", "rewrap", "check", "disable")
NEEDS = ["add", "check", "info"]
# A file system in memory, and the folders there that have keys in clear while a wrapped file of keys is changed.
MEMORY, FOLDER = "/dev/shm", "tink-fleet-keys-"


@dataclass
class Progress:
    """What a rotation did so far. It is kept in the state folder, so that a rotation goes on where it stopped."""

    old: int
    before: list[int]
    template: str
    new: int | None = None
    done: list[str] = field(default_factory=list)


class Rotation:
    """The rotation of the keys of a manifest that rewraps in place."""

    def __init__(
        self,
        manifest: Manifest,
        template: str,
        distribute: str | None,
        engine_of: Callable[[str], Engine],
        quiet: bool = False,
    ):
        if not manifest.in_place or manifest.to_keys or manifest.to_aad is not None:
            raise FleetError(
                f'{manifest.file}: a rotation needs `operation = "rewrap"` without `target`, `to_keys` and `to_aad`'
            )
        if manifest.keys in (None, "-"):
            raise FleetError(f"{manifest.file}: a rotation changes a file of keys: give `keys` a path")
        self.manifest = manifest
        self.template = template
        self.distribute_by = distribute
        self.engine_of = engine_of
        self.quiet = quiet
        self.keys = Keys(manifest.keys, manifest.master, manifest.master_aad)
        self.program = program.find_program(manifest.program)
        program.require(self.program, NEEDS + (["--master"] if manifest.master else []), "a rotation")
        self.path = os.path.join(manifest.state, "rotation.json")
        self.progress = self.read()

    def read(self) -> Progress:
        try:
            with open(self.path, encoding="ascii") as file:
                held = Progress(**json.load(file))
        except FileNotFoundError:
            listed = self.listed()
            return Progress(listed.primary, sorted(listed.statuses), self.template)
        if held.template != self.template:
            raise FleetError(
                f"{self.path}: a rotation to {held.template} is not done: end it first, or remove this file"
            )
        return held

    def write(self) -> None:
        write_whole(self.path, json.dumps(vars(self.progress)).encode())

    def listed(self) -> KeyList:
        try:
            return program.list_keys(self.program, self.keys)
        except TaskError as e:
            raise FleetError(e.line) from e

    def plan(self) -> list[str]:
        """The steps in words, those that are done marked."""
        keys, files, new = self.manifest.keys, self.manifest.source, self.progress.new or "NEW"
        bring = f"run `{self.distribute_by} {keys}`, and see" if self.distribute_by else "see"
        wrapped = f" (unwrapped into memory under {self.keys.master}, and wrapped again)" if self.keys.master else ""
        words = {
            "add": f"tink add {keys} {self.template}{wrapped}: the key NEW, which encrypts nothing yet",
            "distribute": f"{bring} that all workers have the key {new}",
            "promote": f"tink promote {keys} {new}; {bring} that it is the primary key of all workers",
            "rewrap": f"move every file below {files} to the key {new}, each whole or not at all",
            "check": f"open every file below {files} whole, and see that each is under the key {new}",
            "disable": f"tink disable {keys} {self.progress.old}; {bring} that all workers have it disabled; no key is deleted",
        }
        return [
            f"{number}. {name:<11}{words[name]}{' [done]' if name in self.progress.done else ''}"
            for number, name in enumerate(STEPS, 1)
        ]

    def way_back(self) -> str:
        """How a user enables the old key again. The program changes no wrapped file of keys."""
        if self.keys.master is None:
            return f"`tink enable {self.keys.path} {self.progress.old}`"
        return f"`tink unwrap`, `tink enable .. {self.progress.old}` and `tink wrap`"

    def run(self, say: Callable[[str], None]) -> None:
        """Runs the steps that are not done.

        # Errors
        `Refused` at the first surprise. What was done stays, and the same command goes on from the step that stopped.
        """
        lock = Lock(os.path.join(self.manifest.state, "rotation"))
        try:
            os.makedirs(self.manifest.state, mode=0o700, exist_ok=True)
            self.sweep()
            self.write()
            for number, name in enumerate(STEPS, 1):
                if name not in self.progress.done:
                    say(f"step {number}, {name}")
                    getattr(self, name)()
                    self.progress.done.append(name)
                    self.write()
            os.replace(self.path, os.path.join(self.manifest.state, f"rotation-{self.progress.new}.json"))
        finally:
            lock.close()

    def edit(self, command: str, *words: str) -> None:
        try:
            if self.keys.master is None:
                program.run(self.program, [command, self.keys.path, *words], keys=[])
            else:
                self.edit_wrapped(command, *words)
        except TaskError as e:
            raise Refused(f"{e.line}; the rotation stopped") from e

    def edit_wrapped(self, command: str, *words: str) -> None:
        """Changes a wrapped file of keys. In clear it is in a file system in memory alone, and only meanwhile."""
        before, held = self.listed(), self.keys.state()
        with open(self.keys.path, "rb") as file:
            form = "json" if file.read(200).lstrip().startswith(b"{") else "binary"
        master = ["-k", self.keys.master, "--aad", self.keys.master_aad, "--format", form]
        new = f"{self.keys.path}.fleet-{os.urandom(8).hex()}"
        with tempfile.TemporaryDirectory(dir=MEMORY, prefix=self.folder_prefix()) as folder:
            plain = os.path.join(folder, "keys")
            program.run(self.program, ["unwrap", *master, "-o", plain, self.keys.path], keys=[])
            program.run(self.program, [command, plain, *words], keys=[])
            program.run(self.program, ["wrap", *master, "-o", new, plain], keys=[])
        try:
            after = program.list_keys(self.program, dataclasses.replace(self.keys, path=new))
            if not before.statuses.keys() <= after.statuses.keys() or self.keys.state() != held:
                raise Refused(f"{self.keys.path}: it was changed meanwhile: run the rotation again")
            os.replace(new, self.keys.path)
        finally:
            if os.path.exists(new):
                os.unlink(new)

    def folder_prefix(self) -> str:
        """What the names of this rotation's folders in memory begin with."""
        return f"{FOLDER}{hashlib.sha256(os.fsencode(self.manifest.state)).hexdigest()[:16]}-"

    def sweep(self) -> None:
        """Removes the keys in clear that a killed rotation left in memory. The lock is held."""
        for name in os.listdir(MEMORY):
            if name.startswith(self.folder_prefix()):
                shutil.rmtree(os.path.join(MEMORY, name))

    def add(self) -> None:
        if not self.added():
            self.edit("add", self.template)
        new, listed = self.added(), self.listed()
        if len(new) != 1 or listed.statuses[new[0]] != "enabled" or listed.primary != self.progress.old:
            raise Refused(
                f"{self.keys.path}: after `tink add` there is no single new enabled key beside the primary one: see `tink keys`, and correct it"
            )
        self.progress.new = new[0]

    def added(self) -> list[int]:
        """The keys that were not there before the rotation."""
        return sorted(self.listed().statuses.keys() - set(self.progress.before))

    def distribute(self) -> None:
        self.bring()
        self.expect(
            lambda it: it["keys"].get(str(self.progress.new)) == "enabled", f"has no enabled key {self.progress.new}"
        )

    def promote(self) -> None:
        self.edit("promote", str(self.progress.new))
        self.bring()
        self.expect(lambda it: it["primary"] == self.progress.new, f"has another primary key than {self.progress.new}")

    def disable(self) -> None:
        self.edit("disable", str(self.progress.old))
        self.bring()
        self.expect(
            lambda it: it["keys"].get(str(self.progress.old)) != "enabled",
            f"has the key {self.progress.old} still enabled",
        )

    def bring(self) -> None:
        if self.distribute_by is None:
            return
        words = [*shlex.split(self.distribute_by), self.manifest.keys]
        status = subprocess.run(words, stdin=subprocess.DEVNULL, check=False).returncode
        if status != 0:
            raise Refused(f"`{shlex.join(words)}` ended with status {status}: correct it, and run the rotation again")

    def expect(self, holds: Callable[[dict], bool], lacks: str) -> None:
        it = self.manifest
        job = Job("0", "0", it.operation, it.program, it.keys, it.master, it.master_aad, None, it.scratch)
        engine = self.engine_of(os.path.join(it.state, "rotation"))
        try:
            engine.begin("rotation", "0", lambda _: None)
            for worker in engine.describe(calls.describe_call(job)):
                if "error" in worker:
                    raise Refused(f"worker {worker['worker']}: {worker['error']}")
                if not holds(worker):
                    raise Refused(
                        f"worker {worker['worker']}: its {it.keys} {lacks}: bring the file there, and run the rotation again"
                    )
        finally:
            engine.close()

    def over_all(self, operation: str) -> Summary:
        state = os.path.join(self.manifest.state, f"rotation-{self.progress.new}", operation)
        manifest = dataclasses.replace(self.manifest, operation=operation, state=state)
        made = Driver(manifest, self.engine_of, quiet=self.quiet).run()
        if made.failed:
            rows = "\n".join(f"  {it}" for it in made.failures)
            raise Refused(
                f"{self.manifest.source}: {made.failed} files failed in the step {operation}; the old key stays enabled:\n{rows}"
            )
        return made

    def rewrap(self) -> None:
        self.over_all("rewrap")

    def check(self) -> None:
        made = self.over_all("check")
        others = {key: count for key, count in made.keys.items() if key != self.progress.new}
        if others:
            rows = ", ".join(f"{count} under key {key}" for key, count in others.items())
            self.progress.done = [it for it in self.progress.done if it != "rewrap"]
            self.write()
            raise Refused(
                f"{self.manifest.source}: not all files are under the key {self.progress.new} ({rows}): who writes there has old keys? Run the rotation again"
            )
