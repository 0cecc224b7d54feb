"""Runs that a signal ends, and runs at once on one file."""
import fcntl
import os
import random
import signal
import subprocess
import time

from files_lib import PROGRAM, TEXT, a_folder, check, drafts, ids, mode, read, run, tink, write

SIGNALS = (signal.SIGINT, signal.SIGTERM, signal.SIGHUP, signal.SIGKILL)


def plain_signals():
    for number in (signal.SIGINT, signal.SIGTERM, signal.SIGHUP):
        signal.signal(number, signal.SIG_DFL)


def begin(*words):
    return subprocess.Popen([PROGRAM, *words], stdin=subprocess.PIPE, stdout=subprocess.PIPE, stderr=subprocess.PIPE, preexec_fn=plain_signals)


def feed(child, data, pieces):
    """Gives a run a part of its input, as a slow writer does, and leaves it open."""
    for at in range(0, len(data), -(-len(data) // pieces)):
        try:
            child.stdin.write(data[at : at + -(-len(data) // pieces)])
            child.stdin.flush()
        except BrokenPipeError:
            return


def cut_off(child, number, after):
    time.sleep(after)
    child.send_signal(number)
    child.stdin = None
    child.communicate()
    return child.returncode


def ended_by_signals():
    draw = random.Random(11)
    with a_folder("signals"):
        sealed = read("sealed")
        for number in SIGNALS:
            for turn in range(8):
                for words, data in ((("encrypt", "-k", "keys.json", "-o", "out"), TEXT), (("decrypt", "-k", "keys.json", "-o", "out"), sealed)):
                    write("out", b"what was there")
                    child = begin(*words)
                    pipe = child.stdin
                    feed(child, data[: draw.randrange(len(data))], 4)
                    status = cut_off(child, number, draw.random() * 0.03)
                    pipe.close()
                    what = f"{words[0]} that {number.name} ended, turn {turn}"
                    check(status == -number and read("out") == b"what was there", f"{what}: {status}")
                    for name in drafts():
                        check(mode(name) == 0o600, f"{what}: a draft is its owner's alone")
                    done = run(*words, stdin=data)
                    check(done.returncode == 0 and drafts() == [], f"{what}: the next run: {done} {drafts()}")
                    check(done.stderr == b"" or b"removed: a run that was cut off had left it" in done.stderr, f"{what}: the next run: {done}")
                    check((tink("decrypt", "-k", "keys.json", "out") if words[0] == "encrypt" else read("out")) == TEXT, f"{what}: the next run's file")
            for turn in range(25):
                held, known = read("keys.json"), ids("keys.json")[0]
                child = begin("rotate", "keys.json", "AES128_GCM_HKDF_4KB")
                pipe = child.stdin
                status = cut_off(child, number, draw.random() * 0.008)
                pipe.close()
                what = f"rotate that {number.name} ended, turn {turn}: {status}"
                now = ids("keys.json")[0]
                check(now == known and read("keys.json") == held or now[:-1] == known, f"{what}: {now} of {known}")
                check(status in (0, -number), what)
                done = run("rotate", "keys.json", "AES128_GCM_HKDF_4KB")
                check(done.returncode == 0 and drafts() == [] and ids("keys.json")[0][:-1] == now, f"{what}: the next run: {done} {drafts()}")
                write("keys.json", held)
            for turn in range(10):
                child = begin("new", "AES128_GCM", "-o", "made.json")
                pipe = child.stdin
                cut_off(child, number, draw.random() * 0.008)
                pipe.close()
                if os.path.exists("made.json"):
                    check(len(ids("made.json")[0]) == 1, f"new that {number.name} ended")
                    tink("rotate", "made.json", "AES128_GCM")
                    os.remove("made.json")
                done = run("new", "AES128_GCM", "-o", "made.json")
                check(done.returncode == 0 and drafts() == [] and len(ids("made.json")[0]) == 1, f"new after one that {number.name} ended: {done}")
                os.remove("made.json")
            check(tink("decrypt", "-k", "keys.json", "sealed") == TEXT, "the first key still decrypts")


def leftovers():
    """Drafts that no run holds are removed, and those that one holds stay."""
    with a_folder("leftovers"):
        rotate = ("rotate", "keys.json", "AES128_GCM_HKDF_4KB")
        write("keys.json.tink.part", b"left")
        done = run(*rotate)
        check(done.returncode == 0 and b"keys.json.tink.part: removed: a run that was cut off had left it" in done.stderr, f"a leftover: {done}")
        check(drafts() == [] and len(ids("keys.json")[0]) == 2, "a leftover is removed")
        write("keys.json.tink.part", b"")
        tink(*rotate)
        check(drafts() == [], "an empty leftover is removed without a word")
        for name in ("out.tink.part", "out.tink-1.part", "out.tink-5.part", "out.tink-9.part"):
            write(name, TEXT)
        done = run("decrypt", "-k", "keys.json", "-o", "out", "sealed")
        check(done.returncode == 0 and done.stderr.count(b"removed") == 4 and drafts() == [], f"leftovers of several runs: {done}")
        os.link("out", "out.tink-1.part")
        done = run("encrypt", "-k", "keys.json", "--no-clobber", "-o", "out", "text")
        check(done.returncode == 12 and read("out") == TEXT, f"a second name of a file that was shown: {done}")
        tink("decrypt", "-k", "keys.json", "-o", "out", "sealed")
        check(read("out") == TEXT and drafts() == [], "a second name of a file that was shown is removed, and not emptied")
        held = read("keys.json")
        with open("keys.json.tink.part", "wb") as lock:
            fcntl.flock(lock, fcntl.LOCK_EX | fcntl.LOCK_NB)
            tink(*rotate, status=12, says="keys.json: another run is changing it")
            check(read("keys.json") == held and drafts() == ["keys.json.tink.part"], "what another run holds stays")
        done = run(*rotate)
        check(done.returncode == 0 and drafts() == [], f"a lock does not outlive its process: {done}")
        os.symlink("text", "out.tink-1.part")
        tink("decrypt", "-k", "keys.json", "-o", "out", "sealed")
        check(read("text") == TEXT and os.path.islink("out.tink-1.part"), "a link of a draft's name is not followed")
        os.symlink("text", "keys.json.tink.part")
        os.symlink("keys.json", "a link")
        done = run("rotate", "a link", "AES128_GCM_HKDF_4KB")
        check(done.returncode == 12 and b"tink: a link: a draft blocks each change of it\n" in done.stderr, f"a draft that no run may take away: {done}")
        check(b"keys.json.tink.part: no run may take this draft away: remove it, or ask its owner to\n" in done.stderr, f"its path is named: {done}")
        check(read("text") == TEXT, "a link of a draft's name is not followed")


def writers_at_once():
    with a_folder("at once"):
        texts = [bytes([65 + i]) * 2_000_000 for i in range(4)]
        runs = [begin("encrypt", "-k", "keys.json", "-o", "both") for _ in texts]
        for child, text in zip(runs, texts):
            child.stdin.write(text)
        check(len(drafts()) == 4, f"each writer has a draft of its own: {drafts()}")
        ends = [child.communicate() for child in runs]
        check(all(child.returncode == 0 for child in runs) and all(end[1] == b"" for end in ends), f"several writers of one file: {ends}")
        check(tink("decrypt", "-k", "keys.json", "both") in texts and drafts() == [], "one of them is whole")
        many = [begin("encrypt", "-k", "keys.json", "-o", "both") for _ in range(9)]
        for child in many:
            child.stdin.write(TEXT)
            child.stdin.flush()
        for _ in range(100):
            if len(drafts()) == 9:
                break
            time.sleep(0.05)
        check(len(drafts()) == 9, f"nine writers: {drafts()}")
        tink("encrypt", "-k", "keys.json", "-o", "both", "text", status=12, says="both: nine runs write it")
        tink("rotate", "both", "AES128_GCM", status=13)
        check(len(drafts()) == 9, "a tenth takes no draft of the others away")
        ends = [child.communicate() for child in many]
        check(all(child.returncode == 0 for child in many) and drafts() == [], f"nine writers: {ends}")
        for command, template in (("rotate", "AES128_GCM_HKDF_4KB"), ("add", "AES128_GCM_HKDF_4KB")):
            before = ids("keys.json")[0]
            runs = [begin(command, "keys.json", template) for _ in range(12)]
            ends = [child.communicate()[1] for child in runs]
            codes = [child.returncode for child in runs]
            check(set(codes) <= {0, 12} and 0 in codes, f"several changes at once: {codes} {ends}")
            check(all(end == b"" or b"another run is changing it" in end for end in ends), f"several changes at once: {ends}")
            check(ids("keys.json")[0][: len(before)] == before and len(ids("keys.json")[0]) == len(before) + codes.count(0) and drafts() == [], "no change is lost")
        runs = [begin("new", "AES128_GCM", "-o", "once") for _ in range(8)]
        ends = [child.communicate()[1] for child in runs]
        codes = sorted(child.returncode for child in runs)
        check(codes == [0] + [12] * 7 and drafts() == [] and len(ids("once")[0]) == 1, f"one of several new files: {codes} {ends}")
