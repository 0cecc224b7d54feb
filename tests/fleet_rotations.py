"""A whole rotation, its plan, its surprises."""
import hashlib
import json
import os
import shutil

from fleet_lib import TINK, Yard, needs, read, tink, write
from tink_fleet.program import Keys, list_keys


class Rotations(Yard):
    def setUp(self) -> None:
        super().setUp()
        needs("add", "check", "info")
        if shutil.which("parallel") is None:
            self.skipTest("GNU parallel is not installed")
        self.texts = self.make_texts(12, 9000)
        self.encrypt_all(self.texts)
        self.old = self.listed().primary
        self.moved = self.manifest("move.toml", operation="rewrap", source="sealed")

    def listed(self):
        return list_keys(TINK, Keys(self.at("keys")))

    def rotate(self, *words: str, status: int = 0, says: str = "") -> str:
        return self.fleet(
            "rotate", self.moved, "--template", self.template, "--workers", "2", *words, status=status, says=says
        )

    def expect_rotated(self) -> None:
        listed = self.listed()
        self.assertNotEqual(listed.primary, self.old)
        self.assertEqual(
            (listed.statuses[self.old], listed.statuses[listed.primary], len(listed.statuses)),
            ("disabled", "enabled", 2),
        )
        for name, text in self.texts.items():
            self.assertTrue(self.opens_to(self.at("sealed", f"{name}.tink"), text, name), name)
        self.expect_no_drafts(self.at("sealed"))

    def test_a_whole_rotation(self):
        before = read(self.at("keys"))
        said = self.rotate("--plan", says=f"6. disable    tink disable {self.at('keys')} {self.old}")
        self.assertEqual((read(self.at("keys")), said.count("\n")), (before, 6))
        self.rotate(says="step 6, disable")
        self.expect_rotated()
        self.old = self.listed().primary
        self.rotate()
        self.assertEqual([self.listed().statuses[self.old], len(self.listed().statuses)], ["disabled", 3])

    def test_a_rotation_of_wrapped_keys(self):
        needs("--master")
        tink("new", "AES256_GCM", "-o", self.at("master"))
        tink("wrap", "-k", self.at("master"), "--aad", "here", "-o", self.at("wrapped"), self.at("keys"))
        os.remove(self.at("keys"))
        self.moved = self.manifest(
            "move.toml", operation="rewrap", source="sealed", keys="wrapped", master="master", master_aad="here"
        )
        state = hashlib.sha256(self.at("move.fleet").encode()).hexdigest()[:16]
        left = f"/dev/shm/tink-fleet-keys-{state}-left"
        write(os.path.join(left, "keys"), b"keys in clear of a rotation that was killed")
        said = self.rotate(says="step 6, disable")
        self.assertIn(f"`tink unwrap`, `tink enable .. {self.old}` and `tink wrap` takes that back", said)
        self.assertFalse(os.path.exists(left), "keys in clear are left in memory")
        self.assertEqual([it for it in os.listdir(self.folder) if "fleet-" in it], [])
        tink("unwrap", "-k", self.at("master"), "--aad", "here", "-o", self.at("keys"), self.at("wrapped"))
        self.expect_rotated()

    def test_a_file_that_fails_stops_it_before_the_old_key_is_disabled(self):
        path = self.at("sealed", "3.txt.tink")
        stream = read(path)
        write(path, stream[:-1] + bytes([stream[-1] ^ 1]))
        said = self.rotate(status=3, says="1 files failed in the step rewrap; the old key stays enabled")
        self.assertIn("3.txt.tink", said)
        self.assertEqual(self.listed().statuses[self.old], "enabled")
        self.assertNotEqual(self.listed().primary, self.old)
        write(path, stream)
        said = self.rotate()
        self.assertNotIn("step 1, add", said)
        self.expect_rotated()

    def test_a_failed_distribution_stops_it(self):
        self.rotate("--distribute", "false", status=3, says="ended with status 1")
        self.assertEqual((self.listed().primary, len(self.listed().statuses)), (self.old, 2))
        self.rotate("--distribute", "true")
        self.expect_rotated()

    def test_a_late_file_under_the_old_key_stops_it(self):
        """A writer with old keys puts a file there after all were moved."""
        shutil.copy(self.at("keys"), self.at("old"))
        shutil.copytree(self.at("sealed"), self.at("late"))
        self.rotate("--distribute", "true")
        state = json.loads(read(self.at("move.fleet", f"rotation-{self.listed().primary}.json")))
        state["done"] = ["add", "distribute", "promote", "rewrap"]
        write(self.at("move.fleet/rotation.json"), json.dumps(state).encode())
        tink("enable", self.at("keys"), str(self.old))
        shutil.copy(self.at("late/3.txt.tink"), self.at("sealed/3.txt.tink"))
        shutil.rmtree(self.at("move.fleet", f"rotation-{state['new']}", "check"))
        self.rotate(status=3, says=f"1 under key {self.old}")
        self.assertEqual(self.listed().statuses[self.old], "enabled")
        self.rotate(says="step 4, rewrap")
        self.expect_rotated()

    def test_what_is_no_rotation_is_refused(self):
        self.moved = self.manifest("seal.toml", operation="encrypt", source="plain", target="out")
        self.rotate(status=2, says='a rotation needs `operation = "rewrap"`')
        self.moved = self.manifest("move.toml", operation="rewrap", source="sealed")
        self.fleet(
            "rotate", self.moved, "--template", "NO_SUCH_TEMPLATE", "--workers", "1", status=3, says="NO_SUCH_TEMPLATE"
        )
