"""Files that another program changes while they are read."""
import os
import signal
import subprocess
import time

from files_lib import PROGRAM, a_folder, check, drafts, read, run, tink, write

SIZE = 2 << 20
SHORTER = b"it became shorter while it was read"


def position(child, name):
    """How many bytes of a file a run has read. It is none if the run does not have it open."""
    place = f"/proc/{child.pid}/fd"
    try:
        for number in os.listdir(place):
            if os.path.realpath(f"{place}/{number}") == os.path.realpath(name):
                with open(f"/proc/{child.pid}/fdinfo/{number}") as file:
                    return int(file.readline().split()[1])
    except OSError:
        pass
    return None


def is_stopped(child):
    with open(f"/proc/{child.pid}/stat") as file:
        return file.read().rsplit(")", 1)[1].split()[0] in "TZX"


def paused(words, name, source=None):
    """A run that is stopped when it has read a part of a file, by its name or by standard input."""
    for _ in range(20):
        stdin = open(source, "rb") if source else subprocess.DEVNULL
        child = subprocess.Popen([PROGRAM, *words], stdin=stdin, stdout=subprocess.PIPE, stderr=subprocess.PIPE)
        while child.poll() is None and (position(child, name) or 0) < 1 << 16:
            time.sleep(0.0002)
        child.send_signal(signal.SIGSTOP)
        while child.poll() is None and not is_stopped(child):
            time.sleep(0.0002)
        at = position(child, name)
        if at is not None and at < os.path.getsize(name):
            return child
        # It was too fast: once more.
        child.send_signal(signal.SIGKILL)
        child.communicate()
    raise RuntimeError(f"{words}: no run was stopped in the middle")


def ended(child):
    child.send_signal(signal.SIGCONT)
    child.output, child.error = child.communicate(timeout=300)
    return child


def shrinking():
    """A file that becomes shorter while it is read is an error, and nothing is shown. One that grows is read to its end."""
    with a_folder("shrinking"):
        tink("new", "HMAC_SHA256_128BITTAG", "-o", "macs.json")
        with open("long", "wb") as file:
            file.truncate(SIZE)
        tink("encrypt", "-k", "keys.json", "-o", "long sealed", "long")
        sealed = read("long sealed")
        os.symlink("changing", "by link")
        rows = [
            (("encrypt", "-k", "keys.json"), bytes(SIZE)),
            (("decrypt", "-k", "keys.json"), sealed),
            (("rewrap", "-k", "keys.json", "-t", "new.json"), sealed),
            (("sign", "-k", "macs.json"), bytes(SIZE)),
        ]
        for words, data in rows:
            least = len(data) - 1
            for name, source, left in (("changing", None, 0), ("changing", None, least), ("by link", None, 1 << 12), ("/dev/stdin", "changing", 1 << 12), ("-", "changing", least)):
                write("changing", data)
                write("out", b"what was there")
                child = paused([*words, "-o", "out", name], "changing", source)
                os.truncate("changing", left)
                ended(child)
                what = f"{words} of a file that is cut to {left} bytes, named {name}: {child.returncode} {child.error}"
                check(child.returncode == 11 and SHORTER in child.error and child.output == b"", what)
                check(read("out") == b"what was there" and drafts() == [], what)
        for left in (0, 1 << 12, len(sealed) - 1):
            write("changing", sealed)
            child = paused(["check", "-k", "keys.json", "changing"], "changing")
            os.truncate("changing", left)
            ended(child)
            check(child.returncode == 11 and SHORTER in child.error, f"check of a stream that is cut to {left} bytes: {child.returncode} {child.error}")
        ranges()
        growing()


def ranges():
    """Nobody reads standard output, so that a range waits."""
    sealed = read("long sealed")
    write("changing", sealed)
    words = ["range", "-k", "keys.json", "--start", "0", "--length", str(SIZE), "changing"]
    child = subprocess.Popen([PROGRAM, *words], stdin=subprocess.DEVNULL, stdout=subprocess.PIPE, stderr=subprocess.PIPE)
    first = child.stdout.read(1)
    os.truncate("changing", 1 << 12)
    output, error = child.communicate(timeout=300)
    check(child.returncode == 11 and SHORTER in error, f"a range of a stream that becomes shorter: {child.returncode} {error}")
    check(first + output == bytes(len(output) + 1) and len(output) < SIZE, "a range of a stream that becomes shorter")


def growing():
    write("changing", bytes(SIZE))
    child = paused(["encrypt", "-k", "keys.json", "-o", "out", "changing"], "changing")
    with open("changing", "ab") as file:
        file.write(b"more")
    ended(child)
    check(child.returncode == 0 and child.error == b"", f"a file that grows: {child.returncode} {child.error}")
    check(tink("decrypt", "-k", "keys.json", "out") == bytes(SIZE) + b"more", "a file that grows")
    # A part of standard input is left, and files of the system say a wrong size.
    write("changing", b"twelve bytes")
    with open("changing", "rb") as file:
        file.seek(7)
        sealed = run("encrypt", "-k", "keys.json", stdin_file=file)
    check(sealed.returncode == 0 and tink("decrypt", "-k", "keys.json", stdin=sealed.stdout) == b"bytes", f"the rest of a file: {sealed}")
    for name in ("/sys/kernel/mm/transparent_hugepage/enabled", "/sys/devices/system/cpu/possible", "/proc/version"):
        if os.path.exists(name):
            for words in ((name,), ("-",)):
                with open(name, "rb") as file:
                    sealed = run("encrypt", "-k", "keys.json", *words, stdin_file=file)
                check(sealed.returncode == 0 and tink("decrypt", "-k", "keys.json", stdin=sealed.stdout) == read(name), f"{name}: {sealed}")
