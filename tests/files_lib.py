"""What the tests of the commands over files share. A check that fails is printed, and the others go on."""
import contextlib
import os
import stat
import subprocess
import sys

PROGRAM, FOLDER, ROOT = os.path.realpath(sys.argv[1]), sys.argv[2], sys.argv[3]
TEXT = b"the first line\nand the second\n" * 5000
NOBODY = {"user": 65534, "group": 65534, "extra_groups": []}
CHECKS = 0
FAILURES = []


def check(holds, what):
    global CHECKS
    CHECKS += 1
    if not holds:
        FAILURES.append(what)
        print("FAILED:", what, flush=True)


def count():
    return CHECKS


def run(*words, stdin=b"", **more):
    """Runs the program. It ends within five minutes, even on a busy machine."""
    if "stdin_file" in more:
        more["stdin"] = more.pop("stdin_file")
    else:
        more["input"] = stdin
    return subprocess.run([PROGRAM, *words], stdout=more.pop("stdout", subprocess.PIPE), stderr=subprocess.PIPE, timeout=300, **more)


def tink(*words, status=0, says="", stdin=b"", **more):
    """Runs the program, and compares its status and a part of what it writes on standard error."""
    done = run(*words, stdin=stdin, **more)
    error = done.stderr.decode()
    check(done.returncode == status, f"{words}: status {done.returncode}, not {status}: {error}")
    check(says in error, f"{words}: says {error!r}, not {says!r}")
    if status == 0 and not says:
        check(error == "", f"{words}: says {error!r}")
    return done.stdout


def read(name):
    with open(name, "rb") as file:
        return file.read()


def write(name, data):
    with open(name, "wb") as file:
        file.write(data)


def mode(name):
    return stat.S_IMODE(os.stat(name).st_mode)


def drafts(folder="."):
    return [name for name in os.listdir(folder) if name.endswith(".part")]


def ids(name):
    """The ids of a file's keys, and the primary one."""
    lines = tink("keys", name).decode().splitlines()
    primary = [line.split("\t")[0] for line in lines if line.endswith("\tprimary")]
    check(len(primary) == 1, f"one primary key in {name}")
    return [line.split("\t")[0] for line in lines], primary[0]


def all_of(folder="."):
    """The bytes of each file in a folder, by its name. Links are left out."""
    paths = {name: os.path.join(folder, name) for name in os.listdir(folder)}
    return {name: read(path) for name, path in paths.items() if os.path.isfile(path) and not os.path.islink(path)}


@contextlib.contextmanager
def a_folder(name):
    """A new folder with keys, a master, wrapped keys, a text and its stream. The tests are in it meanwhile."""
    before = os.getcwd()
    path = os.path.join(FOLDER, name)
    os.mkdir(path, 0o755)
    os.chdir(path)
    for keys, template in (("keys.json", "AES128_GCM_HKDF_4KB"), ("new.json", "AES128_CTR_HMAC_SHA256_4KB"), ("master.json", "AES256_GCM")):
        tink("new", template, "-o", keys)
    tink("wrap", "-k", "master.json", "-o", "wrapped.json", "keys.json")
    write("text", TEXT)
    tink("encrypt", "-k", "keys.json", "-o", "sealed", "text")
    try:
        yield path
    finally:
        os.chdir(before)
