"""One large file in parts: the text equals the sequential one over the edges of parts and segments."""
import os
from dataclasses import replace
from unittest.mock import patch

from fleet_lib import TINK, Yard, needs, read, sha256, tink, write
from tink_fleet import parts
from tink_fleet.errors import TaskError
from tink_fleet.tasks import Job, Outcome, Task, Worker

SEGMENT = 4096


class Parts(Yard):
    def setUp(self) -> None:
        super().setUp()
        needs("info")
        self.worker = Worker(Job("f", "r", "decrypt", TINK, self.at("keys"), None, "", None, None))

    def sealed(self, text: bytes) -> Task:
        write(self.at("text"), text)
        tink("encrypt", "-k", self.at("keys"), "--aad", "t", "-o", self.at("sealed"), self.at("text"))
        found = os.stat(self.at("sealed"))
        return Task("sealed", self.at("sealed"), self.at("out"), "t", "t", found.st_size, found.st_mtime_ns, True)

    def decrypt(self, task: Task, size: int) -> Outcome:
        plan = parts.probe(self.worker, task)
        cuts = parts.ranges(plan.plaintext, size)
        self.random.shuffle(cuts)
        for start, length in cuts:
            parts.part(self.worker, task, plan, start, length)
        outcome = Outcome("sealed", "done", 0.0, 0.0, "", "new")
        parts.finish(task, plan, parts.digest(task, plan), outcome)
        return outcome

    def test_the_text_equals_the_sequential_one(self):
        first, later = SEGMENT - 16 - 24, SEGMENT - 16
        whole = self.random.randbytes(first + 3 * later + 1)
        for size in (0, 1, first - 1, first, first + 1, first + later, first + later + 1, len(whole)):
            task = self.sealed(whole[:size])
            for part in (first, later, SEGMENT + 1, 2 * later - 1, size or 1):
                outcome = self.decrypt(task, part)
                self.assertEqual(read(self.at("out")), whole[:size], f"{size} bytes by parts of {part}")
                self.assertEqual((outcome.size, outcome.sha256), (size, sha256(read(self.at("sealed")))))
        self.assertEqual(tink("decrypt", "-k", self.at("keys"), "--aad", "t", self.at("sealed")), whole)
        self.expect_no_drafts(self.folder)

    def test_ranges_cover_without_gap_or_overlap(self):
        for plaintext in (0, 1, 99, 100, 101, 250):
            cuts = parts.ranges(plaintext, 100)
            self.assertEqual(
                [at for start, length in cuts for at in range(start, start + length)], list(range(plaintext))
            )
        self.assertEqual(parts.part_size(3 << 29, 4, None), 128 << 20)
        self.assertEqual(parts.part_size((3 << 29) + 1, 4, None), 129 << 20)
        self.assertEqual(parts.part_size((1 << 30) + 1, 4, None), 86 << 20)
        self.assertEqual(parts.part_size(1, 4, None), parts.LEAST_PART)
        self.assertEqual(parts.part_size(1 << 50, 4, None), parts.MOST_PART)

    def test_a_cut_stream_is_refused_before_any_part(self):
        task = self.sealed(self.random.randbytes(20000))
        write(self.at("sealed"), read(self.at("sealed"))[:-1])
        with self.assertRaises(TaskError):
            parts.probe(self.worker, task)
        self.expect_no_drafts(self.folder)

    def test_a_damaged_segment_fails_its_part_alone(self):
        task = self.sealed(self.random.randbytes(20000))
        stream = bytearray(read(self.at("sealed")))
        stream[SEGMENT + 100] ^= 1
        write(self.at("sealed"), bytes(stream))
        plan = parts.probe(self.worker, task)
        with self.assertRaisesRegex(TaskError, f"{self.at('sealed')}: bad segment 1"):
            parts.part(self.worker, task, plan, 5000, 5000)
        parts.part(self.worker, task, plan, 12000, 8000)
        parts.discard(plan)
        self.assertFalse(os.path.exists(self.at("out")))
        self.expect_no_drafts(self.folder)

    def test_parts_of_two_streams_are_not_mixed(self):
        text = self.random.randbytes(20000)
        task = self.sealed(text)
        plan = parts.probe(self.worker, task)
        parts.part(self.worker, task, plan, 0, 10000)
        os.remove(self.at("sealed"))
        self.sealed(text[::-1])
        with self.assertRaisesRegex(TaskError, "changed while it was read"):
            parts.part(self.worker, task, plan, 10000, 10000)

    def test_a_stream_that_changes_is_not_published_with_its_hash(self):
        """Its time, its size, its bytes at the same time, another file under its name."""
        for change in ("time", "size", "front", "inode"):
            task = self.sealed(self.random.randbytes(20000))
            plan = parts.probe(self.worker, task)
            parts.part(self.worker, task, plan, 0, 20000)
            sha, stream = parts.digest(task, plan), read(self.at("sealed"))
            found = os.stat(self.at("sealed"))
            if change == "size":
                write(self.at("sealed"), stream + b"x")
            elif change == "front":
                write(self.at("sealed"), bytes([stream[0] ^ 1]) + stream[1:])
            elif change == "inode":
                write(self.at("copy"), stream)
                os.replace(self.at("copy"), self.at("sealed"))
            stamp = found.st_mtime_ns + (change == "time")
            os.utime(self.at("sealed"), ns=(stamp, stamp))
            for step in (
                lambda: parts.digest(task, plan),
                lambda: parts.part(self.worker, task, plan, 0, 20000),
                lambda: parts.finish(task, plan, sha, Outcome("sealed", "done", 0.0, 0.0, "", "new")),
            ):
                with self.assertRaisesRegex(TaskError, "sealed: it was changed while it was read", msg=change):
                    step()
            self.assertFalse(os.path.exists(self.at("out")), change)
            parts.discard(plan)

    def test_a_stream_that_changes_while_it_is_hashed_is_refused(self):
        task, real = self.sealed(self.random.randbytes(20000)), parts.places.digest
        plan = parts.probe(self.worker, task)

        def changed(fd: int, place: str) -> str:
            made = real(fd, place)
            os.utime(self.at("sealed"), ns=(1, 1))
            return made

        with patch.object(parts.places, "digest", changed):
            with self.assertRaisesRegex(TaskError, "changed while it was read"):
                parts.digest(task, plan)

    def test_a_stream_whose_name_another_file_gets_while_it_is_hashed_is_refused(self):
        """The open stream is still the right one, and the file under the name is another with the same bytes."""
        task, real = self.sealed(self.random.randbytes(20000)), parts.places.digest
        plan = parts.probe(self.worker, task)
        write(self.at("copy"), read(self.at("sealed")))
        os.utime(self.at("copy"), ns=(task.mtime, task.mtime))

        def replaced(fd: int, place: str) -> str:
            made = real(fd, place)
            os.replace(self.at("copy"), self.at("sealed"))
            return made

        with patch.object(parts.places, "digest", replaced):
            with self.assertRaisesRegex(TaskError, "changed while it was read"):
                parts.digest(task, plan)

    def test_another_stream_that_goes_while_it_is_hashed_is_refused(self):
        """The right one is back under the name before the end."""
        task, real = self.sealed(self.random.randbytes(20000)), parts.places.digest
        plan = parts.probe(self.worker, task)
        os.utime(self.at("sealed"), ns=(1, 1))

        def restored(fd: int, place: str) -> str:
            made = real(fd, place)
            os.utime(self.at("sealed"), ns=(task.mtime, task.mtime))
            return made

        with patch.object(parts.places, "digest", restored):
            with self.assertRaisesRegex(TaskError, "changed while it was read"):
                parts.digest(task, plan)

    def test_without_a_hash_nothing_is_published(self):
        task = self.sealed(b"x" * 9000)
        plan = parts.probe(self.worker, task)
        parts.part(self.worker, task, plan, 0, 9000)
        with self.assertRaisesRegex(TaskError, "sealed: it was not hashed: run again"):
            parts.finish(task, plan, None, Outcome("sealed", "done", 0.0, 0.0, "", "new"))
        self.assertFalse(os.path.exists(self.at("out")))

    def program(self, script: str) -> Worker:
        """A worker whose program is this script, which has the real one in TINK."""
        write(self.at("program"), f"#!/bin/sh\nTINK={TINK}\n{script}\n".encode())
        os.chmod(self.at("program"), 0o700)
        return Worker(Job("f", "r", "decrypt", self.at("program"), self.at("keys"), None, "", None, None))

    def test_a_stream_that_changes_before_or_while_a_part_is_read_is_refused_as_changed(self):
        task = self.sealed(self.random.randbytes(20000))
        plan, stream = parts.probe(self.worker, task), read(self.at("sealed"))
        worker = self.program(f'"$TINK" "$@" || exit; [ $1 != range ] || touch -d @1 {self.at("sealed")}')
        with self.assertRaisesRegex(TaskError, "changed while it was read"):
            parts.part(worker, task, plan, 0, 10000)
        write(self.at("sealed"), b"no stream" + stream)
        with self.assertRaisesRegex(TaskError, "changed while it was read"):
            parts.part(self.worker, task, plan, 0, 10000)

    def test_a_target_that_appears_meanwhile_is_kept(self):
        task = replace(self.sealed(b"x" * 9000), replaces=False)
        plan = parts.probe(self.worker, task)
        parts.part(self.worker, task, plan, 0, 9000)
        write(self.at("out"), b"theirs")
        with self.assertRaisesRegex(TaskError, "another process made it meanwhile"):
            parts.finish(task, plan, "00", Outcome("sealed", "done", 0.0, 0.0, "", "new"))
        self.assertEqual(read(self.at("out")), b"theirs")

    def test_a_part_that_is_too_short_is_refused(self):
        task = self.sealed(self.random.randbytes(20000))
        plan = parts.probe(self.worker, task)
        worker = self.program('[ $1 = range ] || exec "$TINK" "$@"; printf 123')
        with self.assertRaisesRegex(TaskError, "3 bytes of a range of 10000 were written"):
            parts.part(worker, task, plan, 0, 10000)

    def test_each_part_reaches_the_disk_before_the_draft_gets_its_name(self):
        task, synced, real = self.sealed(self.random.randbytes(20000)), [], os.fsync

        def noted(fd: int) -> None:
            synced.append(os.readlink(f"/proc/self/fd/{fd}"))
            real(fd)

        with patch.object(os, "fsync", noted):
            plan = parts.probe(self.worker, task)
            for start in (10000, 0):
                synced.clear()
                parts.part(self.worker, task, plan, start, 10000)
                self.assertIn(plan.draft, synced)
            synced.clear()
            parts.finish(task, plan, "00", Outcome("sealed", "done", 0.0, 0.0, "", "new"))
        self.assertEqual(synced[-1], self.folder, "the folder reaches the disk too")

    def test_a_worker_that_died_after_the_end_is_understood(self):
        task = self.sealed(b"x" * 9000)
        plan = parts.probe(self.worker, task)
        parts.part(self.worker, task, plan, 0, 9000)
        for _ in range(2):
            outcome = Outcome("sealed", "done", 0.0, 0.0, "", "new")
            parts.finish(task, plan, parts.digest(task, plan), outcome)
            self.assertEqual((outcome.size, read(self.at("out"))), (9000, b"x" * 9000))
