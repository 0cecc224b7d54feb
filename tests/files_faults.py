"""Each call of the system that a command makes fails once by each of its usual errors; and calls that move few bytes."""
import os
import re
import shutil
import subprocess
import tempfile

from files_lib import FOLDER, PROGRAM, ROOT, TEXT, a_folder, all_of, check, drafts, ids, mode, read, run, tink, write

FULL = ("ENOSPC", "EDQUOT", "EIO")
PATHS = ("EACCES", "EROFS", "ENAMETOOLONG", "EIO", "ENOMEM")
ERRORS = {
    "open": PATHS + ("ENOSPC", "EDQUOT", "EMFILE", "EINTR"),
    "openat": PATHS + ("ENOSPC", "EDQUOT", "EMFILE", "EINTR"),
    "link": ("EACCES", "EROFS", "EIO", "ENOSPC", "EDQUOT", "EPERM", "EMLINK", "EXDEV"),
    "linkat": ("EACCES", "EROFS", "EIO", "ENOSPC", "EDQUOT", "EPERM", "EMLINK", "EXDEV"),
    "rename": ("EACCES", "EROFS", "EIO", "ENOSPC", "EDQUOT", "EPERM", "EXDEV", "EBUSY"),
    "renameat": ("EACCES", "EROFS", "EIO", "ENOSPC", "EDQUOT", "EPERM", "EXDEV", "EBUSY"),
    "renameat2": ("EACCES", "EROFS", "EIO", "ENOSPC", "EDQUOT", "EPERM", "EXDEV", "EBUSY"),
    "fsync": FULL + ("EROFS", "EINTR"),
    "fdatasync": FULL + ("EROFS", "EINTR"),
    "fchmod": ("EPERM", "EIO", "EROFS"),
    "chmod": ("EPERM", "EIO", "EROFS"),
    "fchmodat": ("EPERM", "EIO", "EROFS"),
    "fchown": ("EPERM", "EIO", "EROFS"),
    "write": FULL + ("EFBIG", "EPIPE", "EINTR"),
    "writev": FULL + ("EFBIG", "EPIPE", "EINTR"),
    "read": ("EIO", "EINTR", "EISDIR"),
    "pread64": ("EIO", "EINTR"),
    "statx": ("EACCES", "EIO", "ENOMEM"),
    "stat": ("EACCES", "EIO", "ENOMEM"),
    "lstat": ("EACCES", "EIO", "ENOMEM"),
    "fstat": ("EIO", "ENOMEM"),
    "newfstatat": ("EACCES", "EIO", "ENOMEM"),
    "readlink": ("EACCES", "EIO", "ENOMEM"),
    "readlinkat": ("EACCES", "EIO", "ENOMEM"),
    "getrandom": ("ENOSYS", "EIO", "EINTR"),
    "flock": ("ENOLCK", "EINTR", "EAGAIN", "EIO"),
    "unlink": ("EACCES", "EIO", "EROFS", "EBUSY"),
    "unlinkat": ("EACCES", "EIO", "EROFS", "EBUSY"),
    "fcntl": ("EMFILE", "EINVAL"),
    "dup": ("EMFILE",),
    "close": ("EIO",),
    "ioctl": ("EIO",),
    "lseek": ("ESPIPE",),
}
REASONS = {
    "ENOSPC": "no space left", "EDQUOT": "quota used up", "EIO": "input/output error", "EROFS": "read-only file system",
    "EMFILE": "too many open files", "EFBIG": "file too large", "ENAMETOOLONG": "name too long", "EPIPE": "broken pipe",
}


def has_strace():
    """Whether calls of the system can be made to fail here."""
    if shutil.which("strace") is None:
        return False
    return subprocess.run(["strace", "-qq", "-f", "-o", "/dev/null", "-e", "inject=close:error=EIO:when=99", "true"], capture_output=True).returncode == 0


def faulty(words, inject):
    """A run in which calls of the system fail."""
    return subprocess.run(
        ["strace", "-qq", "-f", "-o", "/dev/null", "-e", f"trace={inject.split(':')[0]}", "-e", f"inject={inject}", PROGRAM, *words],
        capture_output=True, stdin=subprocess.DEVNULL, timeout=300,
    )



def no_links():
    """On a file system without hard links new files are made all the same, and replace none."""
    with a_folder("no links"):
        for error in ("EPERM", "EOPNOTSUPP", "ENOSYS", "EMLINK"):
            for words, made in (
                (("new", "AES128_GCM", "-o", "made"), "made"),
                (("wrap", "-k", "master.json", "-o", "made", "keys.json"), "made"),
                (("unwrap", "-k", "master.json", "-o", "made", "wrapped.json"), "made"),
                (("convert", "keys.json", "-o", "made", "--format", "binary"), "made"),
                (("encrypt", "-k", "keys.json", "--no-clobber", "-o", "made", "text"), "made"),
            ):
                done = faulty(words, f"link,linkat:error={error}")
                check(done.returncode == 0 and mode(made) == 0o600 and os.path.getsize(made) > 0, f"{words} without links: {done}")
                held = read(made)
                again = faulty(words, f"link,linkat:error={error}")
                check(again.returncode == 12 and read(made) == held, f"{words} without links replaces no file: {again}")
                check(drafts() == [], f"{words} without links leaves no draft")
                os.remove(made)



def calls_of(words):
    """How often a run makes each call, and how many of them are the loader's."""
    with tempfile.NamedTemporaryFile(dir=FOLDER, mode="r") as log:
        subprocess.run(["strace", "-qq", "-f", "-o", log.name, PROGRAM, *words], capture_output=True, stdin=subprocess.DEVNULL, timeout=300)
        names = re.findall(r"^(?:\d+ +)?(\w+)\(", log.read(), re.M)
    end = names.index("munmap") + 1 if "munmap" in names else 1
    front = {name: names[:end].count(name) for name in ERRORS}
    return {name: (front[name], names.count(name)) for name in ERRORS if names.count(name) > front[name]}


def opened(name):
    return run("decrypt", "-k", "keys.json", name).stdout == TEXT


# A command, the file that it writes, and whether that one is whole.
COMMANDS = [
    (("new", "AES128_GCM", "-o", "fresh"), "fresh", lambda: len(ids("fresh")[0]) == 1),
    (("rotate", "keys.json", "AES128_GCM_HKDF_4KB"), "keys.json", lambda: len(ids("keys.json")[0]) == 2 and opened("sealed")),
    (("encrypt", "-k", "keys.json", "-o", "out", "text"), "out", lambda: opened("out")),
    (("encrypt", "-k", "keys.json", "-o", "fresh", "--no-clobber", "text"), "fresh", lambda: opened("fresh")),
    (("decrypt", "-k", "wrapped.json", "--master", "master.json", "-o", "link", "sealed"), "out", lambda: read("out") == TEXT),
    (("range", "-k", "keys.json", "--start", "9", "--length", "9000", "-o", "out", "sealed"), "out", lambda: read("out") == TEXT[9:9009]),
    (("check", "-k", "keys.json", "sealed"), None, None),
]


def reset(before):
    """The files as they were before the first command, and no other file."""
    for name in all_of():
        if name not in before:
            os.remove(name)
    for name, data in before.items():
        write(name, data)
    os.chmod("out", 0o640)


def shown():
    """All files but drafts."""
    return {name: data for name, data in all_of().items() if name not in drafts()}


def one_fault(words, output, is_whole, before, call, number, error, counts):
    reset(before)
    done = faulty(words, f"{call}:error={error}:when={number}")
    what = f"{words[0]}{' --no-clobber' if '--no-clobber' in words else ''}: {call} {number} fails by {error}"
    after = shown()
    # A program that `rt try` made has lines of its own checks.
    text = re.sub(r"(?m)^==\d+==.*\n", "", done.stderr.decode(errors="replace"))
    counts[done.returncode] = counts.get(done.returncode, 0) + 1
    check(done.returncode in (0, 10, 11, 12, 35), f"{what}: {done}")
    others = {name: data for name, data in after.items() if name != output}
    check(others == {name: data for name, data in before.items() if name != output}, f"{what}: another file has changed: {done}")
    if done.returncode == 0:
        check(output is None or is_whole(), f"{what}: the file is not whole: {done}")
        check(text == "" or text.startswith("tink: "), f"{what}: {text!r}")
    else:
        check(after.get(output) == before.get(output), f"{what}: an error, and the file has changed: {done}")
        last = text.split("\n")[-2] if text.count("\n") else text
        if not (call in ("write", "writev") and text == ""):
            check(text.endswith("\n") and re.match(r"tink: [^:]+: .", last) is not None, f"{what}: {text!r}")
            check(done.returncode == 10 or error not in REASONS or REASONS[error] in text or done.returncode == 35, f"{what}: the reason is not named: {text!r}")
    check(error != "EINTR" or call not in ("read", "write", "pread64") or done.returncode == 0, f"{what}: {done}")
    check(done.stdout == b"", f"{what}: {done}")
    if drafts():
        check(call not in ("unlink", "unlinkat") or ".part: this draft is left, since it cannot be removed (" in text, f"{what}: no line names the draft: {text!r}")
        again = run(*words)
        check(again.returncode in (0, 12) and drafts() == [], f"{what}: a draft stays after the next run: {again} {drafts()}")
        check(call in ("unlink", "unlinkat", "rename", "renameat", "renameat2", "statx", "newfstatat", "lstat", "fstat", "stat", "openat", "open", "flock"), f"{what}: a draft is left")


def one_signal(words, output, is_whole, before, call, number):
    reset(before)
    done = faulty(words, f"{call}:signal=SIGTERM:when={number}")
    what = f"{words[0]}{' --no-clobber' if '--no-clobber' in words else ''}: SIGTERM at {call} {number}"
    after = shown()
    check(done.returncode in (0, -15), f"{what}: {done}")
    check({**after, output: None} == {**before, output: None}, f"{what}: another file has changed: {done}")
    changed = after.get(output) != before.get(output)
    check(not changed or is_whole(), f"{what}: the file is not whole")
    check(changed or output is None or done.returncode != 0, f"{what}: status 0 and no file")
    check(all(mode(name) in (0o600, 0o640) for name in drafts()), f"{what}: who may read a draft")
    again = run(*words)
    check(drafts() == [] and (again.returncode == 0 or changed and again.returncode == 12), f"{what}: the next run: {again} {drafts()}")
    check(output is None or is_whole() or words[0] == "rotate", f"{what}: the next run's file")


def signals_at_calls():
    """A run that a signal ends at any call of the system leaves the old file or the new one, and the next run succeeds."""
    tried = 0
    with a_folder("signals at calls"):
        write("out", b"what was there")
        os.symlink("out", "link")
        before = all_of()
        for words, output, is_whole in COMMANDS:
            reset(before)
            for call, (front, all_calls) in calls_of(words).items():
                for number in range(front + 1, all_calls + 1):
                    one_signal(words, output, is_whole, before, call, number)
                    tried += 1
    return f"{tried} calls of the system"


def faults():
    counts, tried = {}, 0
    with a_folder("faults"):
        write("out", b"what was there")
        os.symlink("out", "link")
        before = all_of()
        for words, output, is_whole in COMMANDS:
            reset(before)
            for call, (front, all_calls) in calls_of(words).items():
                for number in range(front + 1, all_calls + 1):
                    for error in ERRORS[call]:
                        one_fault(words, output, is_whole, before, call, number, error, counts)
                        tried += 1
    return f"{tried} calls of the system failed, by statuses {dict(sorted(counts.items()))}"


def few_bytes():
    """Reads and writes that move at most 1, 7 and 4,096 bytes give the same files."""
    library = os.path.join(FOLDER, "faults.so")
    built = subprocess.run(["gcc", "-O1", "-shared", "-fPIC", "-Wall", "-o", library, os.path.join(ROOT, "tests/faults.c")], capture_output=True)
    if built.returncode != 0:
        return "no compiler of C"
    with a_folder("few bytes"):
        write("text", TEXT[:20000])
        for piece in (1, 7, 4096):
            env = {**os.environ, "LD_PRELOAD": library, "PIECE": str(piece), "COUNTS": os.path.join(FOLDER, "counts")}
            tink("encrypt", "-k", "keys.json", "-o", "out", "text", env=env)
            check(int(read(env["COUNTS"])) > 0, f"calls of {piece} bytes were made")
            check(tink("decrypt", "-k", "keys.json", "out") == TEXT[:20000], f"encrypt by {piece} bytes")
            tink("decrypt", "-k", "keys.json", "-o", "back", "out", env=env)
            check(read("back") == TEXT[:20000], f"decrypt by {piece} bytes")
            check(tink("decrypt", "-k", "keys.json", env=env, stdin=read("out")) == TEXT[:20000], f"decrypt by {piece} bytes, by pipes")
            check(tink("range", "-k", "keys.json", "--start", "5", "--length", "9000", "out", env=env) == TEXT[5:9005], f"range by {piece} bytes")
            check(tink("info", "-k", "keys.json", "out", env=env) == tink("info", "-k", "keys.json", "out"), f"info by {piece} bytes")
            known = ids("keys.json")[0]
            tink("rotate", "keys.json", "AES128_GCM_HKDF_4KB", env=env)
            check(ids("keys.json")[0][:-1] == known and drafts() == [], f"rotate by {piece} bytes")
            check(tink("help", env=env) == tink("help"), f"help by {piece} bytes")
            check(run("keys", "text", env=env).stderr == run("keys", "text").stderr, f"a message by {piece} bytes")
