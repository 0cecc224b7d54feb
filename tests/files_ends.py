"""Files that are not as they should be, full disks, closed pipes, runs at once, terminals, documents."""
import os
import pty
import re
import resource
import signal
import stat
import subprocess
import time

from files_lib import PROGRAM, ROOT, TEXT, check, drafts, ids, mode, read, run, tink, write


def wrong_files():
    write("prose", b"this is no keyset\n")
    write("broken.json", b'{ "primaryKeyId": ')
    write("nothing", b"")
    os.mkdir("folder")
    tink("encrypt", "-k", "prose", "text", status=13, says="prose: bad keyset")
    tink("encrypt", "-k", "broken.json", "text", status=30, says="broken.json: bad json")
    tink("encrypt", "-k", "nothing", "text", status=14)
    tink("encrypt", "-k", "folder", "text", status=11, says="folder: it is a folder")
    tink("encrypt", "-k", "none", "text", status=11, says="none: there is no such file")
    tink("encrypt", "-k", "keys.json", "-o", "out", "none", status=11, says="none: there is no such file")
    tink("encrypt", "-k", "keys.json", "-o", "out", "folder", status=11, says="folder: it is a folder")
    tink("encrypt", "-k", "keys.json", "-o", "folder", "text", status=12, says="folder: it is a folder")
    tink("encrypt", "-k", "keys.json", "-o", "/dev/null", "text")
    tink("new", "AES128_GCM", "-o", "/dev/null", status=12, says="/dev/null: it is ")
    tink("new", "AES128_GCM", "-o", "aead.json")
    tink("encrypt", "-k", "aead.json", "text", status=18, says="wrong primitive")
    check(stat.S_ISCHR(os.stat("/dev/null").st_mode), "a device stays")
    check(not os.path.exists("out") and drafts() == [], "nothing is shown")
    with open("large", "wb") as file:
        file.truncate(2**26 + 1)
    tink("keys", "large", status=13, says="keyset too long")
    if os.geteuid() == 0:
        os.chmod(".", 0o755)
        for name in ("keys.json", "text"):
            os.chown(name, 0, 0)
        nobody = {"user": 65534, "group": 65534, "extra_groups": []}
        tink("encrypt", "-k", "keys.json", "text", status=11, says="keys.json: you may not read it", **nobody)
        os.chmod("keys.bin", 0o644)
        os.chmod("text", 0o644)
        tink("encrypt", "-k", "keys.bin", "-o", "out", "text", status=12, says="out: you may not write into its folder", **nobody)
    os.mkdir("a folder with spaces")
    spaced = "a folder with spaces/the notes of today"
    tink("encrypt", "-k", "keys.json", "-o", spaced + ".tink", "text")
    tink("decrypt", "-k", "keys.json", "-o", spaced, spaced + ".tink")
    check(read(spaced) == TEXT, "names with spaces")


def full_disks():
    tink("encrypt", "-k", "keys.json", "-o", "sealed", "text")
    tink("sign", "-k", "macs.json", "-o", "token", "text")
    to_full = [
        ("encrypt", "-k", "keys.json", "text"),
        ("rewrap", "-k", "keys.json", "-t", "later.json", "sealed"),
        ("sign", "-k", "macs.json", "payload"),
        ("verify", "-k", "macs.json", "token"),
        ("range", "-k", "keys.json", "--start", "9", "--length", "90000", "sealed"),
    ]
    with open("/dev/full", "wb") as full:
        for command in to_full:
            done = subprocess.run([PROGRAM, *command], stdout=full, stderr=subprocess.PIPE)
            check(done.returncode == 12 and b"standard output: it could not be written: a full disk" in done.stderr, f"a full device: {done}")
    os.mkdir("small")
    mounted = subprocess.run(["mount", "-t", "tmpfs", "-o", "size=64k", "none", "small"], capture_output=True).returncode == 0
    if mounted:
        write("small/out", b"what was there")
        for command in to_full:
            if command != ("sign", "-k", "macs.json", "payload"):
                tink(*command, "-o", "small/out", status=12, says="small/out: no space left")
                check(read("small/out") == b"what was there" and os.listdir("small") == ["out"], "a full disk")
        tink("new", "AES256_GCM_HKDF_1MB", "-o", "small/keys.json")
        write("small/fill", b"") ; fill = open("small/fill", "wb", buffering=0)
        try:
            while fill.write(bytes(4096)):
                pass
        except OSError:
            pass
        held = read("small/keys.json")
        tink("rotate", "small/keys.json", "AES256_GCM_HKDF_1MB", status=12, says="small/keys.json: no space left")
        check(read("small/keys.json") == held and drafts("small") == [], "keys on a full disk")
        fill.close()
        subprocess.run(["umount", "small"], check=True)

    def limited():
        signal.signal(signal.SIGXFSZ, signal.SIG_IGN)
        resource.setrlimit(resource.RLIMIT_FSIZE, (4096, 4096))

    for command in to_full:
        if command != ("sign", "-k", "macs.json", "payload"):
            tink(*command, "-o", "limited", status=12, says="limited: file too large", preexec_fn=limited)
            check(not os.path.exists("limited") and drafts() == [], "a file that may not grow")
    return "with a full disk" if mounted else "without a disk of its own (no right to mount)"


def few_handles():
    """A draft that cannot be opened a second time is taken away."""
    held = read("keys.json")
    for words, name in (
        (("rotate", "keys.json", "AES256_GCM_HKDF_1MB"), "keys.json"),
        (("new", "AES256_GCM_HKDF_1MB", "-o", "few.json"), "few.json"),
        (("encrypt", "-k", "keys.json", "-o", "few", "text"), "few"),
    ):
        statuses = []
        for most in range(4, 10):
            limit = lambda most=most: resource.setrlimit(resource.RLIMIT_NOFILE, (most, most))
            done = subprocess.run([PROGRAM, *words], capture_output=True, preexec_fn=limit)
            statuses.append(done.returncode)
            check(done.returncode in (0, 11, 12), f"few handles: {words} with {most}: {done}")
            check(done.returncode == 0 or b"too many open files" in done.stderr, f"few handles: {words} with {most}: {done}")
            check(drafts() == [], f"few handles: {words} with {most}")
            check(done.returncode == 0 or read("keys.json") == held and (name == "keys.json" or not os.path.exists(name)), f"few handles: {words} with {most}")
            write("keys.json", held)
            if name != "keys.json" and os.path.exists(name):
                os.remove(name)
        check(12 in statuses and statuses[-1] == 0, f"few handles: {words}: {statuses}")
    tink("rotate", "keys.json", "AES256_GCM_HKDF_1MB")
    write("keys.json", held)


def closed_pipes():
    sealed = tink("encrypt", "-k", "keys.json", stdin=TEXT * 20)
    write("long sealed", sealed)
    for words, data in (
        (("encrypt",), TEXT * 20),
        (("decrypt",), sealed),
        (("rewrap", "-t", "later.json"), sealed),
        (("range", "--start", "7", "--length", "2000000", "long sealed"), b""),
    ):
        end, start = os.pipe()
        os.close(end)
        run = subprocess.Popen([PROGRAM, *words, "-k", "keys.json"], stdin=subprocess.PIPE, stdout=start, stderr=subprocess.PIPE)
        os.close(start)
        _, error = run.communicate(data)
        check(run.returncode == 12 and b"standard output: it could not be written" in error, f"a closed pipe: {run.returncode} {error}")


def killed():
    sealed = tink("encrypt", "-k", "keys.bin", stdin=TEXT)
    killed_in(["encrypt", "-k", "keys.bin"], TEXT)
    killed_in(["decrypt", "-k", "keys.bin"], sealed[:-9])
    killed_in(["rewrap", "-k", "keys.bin", "-t", "later.json"], sealed[:-9])


def killed_in(words, data):
    write("killed", b"what was there")
    run = subprocess.Popen([PROGRAM, *words, "-o", "killed"], stdin=subprocess.PIPE)
    run.stdin.write(data)
    run.stdin.flush()
    for _ in range(200):
        if drafts() and os.path.getsize(drafts()[0]) > 10000:
            break
        time.sleep(0.05)
    check(len(drafts()) == 1 and os.path.getsize(drafts()[0]) > 10000, "a draft grows")
    check(mode(drafts()[0]) == 0o600, "a draft is its owner's alone")
    run.send_signal(signal.SIGKILL)
    run.wait()
    check(read("killed") == b"what was there", "what was killed shows nothing")
    left = bool(os.path.getsize(drafts()[0]))
    done = subprocess.run([PROGRAM, "encrypt", "-k", "keys.bin", "-o", "killed", "text"], capture_output=True)
    check(done.returncode == 0 and drafts() == [], f"the next run removes what a killed one left: {done}")
    check(left and b"killed.tink-1.part: removed: a run that was cut off had left it" in done.stderr, f"and says so: {done}")


def two_at_once():
    texts = [bytes([65 + i]) * 3_000_000 for i in range(4)]
    runs = [subprocess.Popen([PROGRAM, "encrypt", "-k", "keys.json", "-o", "both"], stdin=subprocess.PIPE) for _ in texts]
    for run, text in zip(runs, texts):
        run.stdin.write(text)
    for run in runs:
        run.stdin.close()
    check(all(run.wait() == 0 for run in runs), "several writers of one file")
    check(tink("decrypt", "-k", "keys.json", "both") in texts and drafts() == [], "one of them stands whole")
    before = len(ids("keys.json")[0])
    runs = [subprocess.Popen([PROGRAM, "rotate", "keys.json", "AES256_GCM_HKDF_1MB"], stderr=subprocess.DEVNULL) for _ in range(8)]
    codes = [run.wait() for run in runs]
    check(set(codes) <= {0, 12} and 0 in codes, f"several changes at once: {codes}")
    check(len(ids("keys.json")[0]) == before + codes.count(0), "no change is lost")
    runs = [subprocess.Popen([PROGRAM, "new", "AES256_GCM_HKDF_1MB", "-o", "once"], stderr=subprocess.DEVNULL) for _ in range(8)]
    codes = sorted(run.wait() for run in runs)
    check(codes == [0] + [12] * 7 and drafts() == [], f"one of several new files: {codes}")


def former_words():
    """The words of the program over the standard streams stay as they are."""
    keyset = tink("keygen", "AES128_GCM_HKDF_4KB", "00" * 32).decode().strip()
    sealed = tink("seal", keyset, "-", "11" * 32, stdin=TEXT)
    check(tink("open", keyset, "-", stdin=sealed) == TEXT, "seal and open")
    rotated = tink("rotate", keyset, "AES128_GCM_HKDF_4KB", "22" * 32).decode().strip()
    check(tink("open", rotated, "-", stdin=sealed) == TEXT, "rotate with a seed")
    check(b"segments 247" in tink("large", "0"), "large")
    tink("open", rotated, "-", stdin=sealed[:-1], status=22)
    write("former.bin", bytes.fromhex(rotated))
    check(tink("decrypt", "-k", "former.bin", stdin=sealed) == TEXT, "one format of streams and keysets")
    other = tink("keygen", "AES256_GCM_HKDF_4KB", "33" * 32).decode().strip()
    moved = tink("rewrap", rotated, "-", other, "6d61", "44" * 32, stdin=sealed)
    check(tink("open", other, "6d61", stdin=moved) == TEXT, "rewrap with keysets as words")
    mac = tink("keygen", "HMAC_SHA256_128BITTAG", "55" * 32).decode().strip()
    check(tink("verify", mac, stdin=tink("sign", mac, stdin=TEXT)) == TEXT, "sign and verify with a keyset as a word")
    for line in ("rewrap", "sign", "verify", "range", "sign x", "range a - 1"):
        tink(*line.split(), status=2, says="usage: ")
    # A file in the place of a keyset: the usage is that of the command over files.
    keys = "keys.json"
    for line, says in (
        (f"sign {keys}", "tink sign: the option --keys is missing\nusage: tink sign "),
        (f"verify {keys}", "tink verify: the option --keys is missing\nusage: tink verify "),
        (f"rewrap {keys}", "tink rewrap: the option --keys is missing\nusage: tink rewrap "),
        (f"range {keys}", "tink range: the option --keys is missing\nusage: tink range "),
        (f"rewrap {keys} {keys}", f"tink rewrap: one word too many: {keys}\nusage: tink rewrap "),
        (f"rotate {keys} AES128_GCM x", "tink rotate: one word too many: x\nusage: tink rotate "),
        ("sign no-such-file", "usage: seal KEYSET "),
    ):
        done = run(*line.split())
        check((done.returncode, done.stdout) == (2, b"") and done.stderr.decode().startswith(says), f"{line}: {done}")
    for line in ("rewrap -k", "sign -q", "verify --no-such", "range --start 0", "rewrap a -k b"):
        tink(*line.split(), status=2, says="usage: tink ")


def on_terminal(words, data, more=""):
    """What the program writes where standard output and error are a terminal. `more` redirects them."""
    child, terminal = pty.fork()
    if child == 0:
        os.execv("/bin/sh", ["sh", "-c", f'cat {data} 2>/dev/null | "$0" "$@" {more}', PROGRAM, *words])
    shown = b""
    try:
        while piece := os.read(terminal, 65536):
            shown += piece
    except OSError:
        pass
    os.waitpid(child, 0)
    return shown


def terminals_by_name(words, data):
    """A terminal is one by each of its names, also if standard output goes elsewhere."""
    for name, link in (("tty link", "/dev/tty"), ("stdout link", "/proc/self/fd/1"), ("link of link", "stdout link")):
        if not os.path.islink(name):
            os.symlink(link, name)
    for name in ("/dev/stdout", "/dev/stderr", "/dev/fd/1", "/proc/self/fd/1", "/dev/tty", "tty link", "stdout link", "link of link"):
        shown = on_terminal([*words, "-o", name], data)
        says = f"tink: {name}: it is a terminal, and ciphertext is no text: name a file, or force it by --force"
        check(says.encode() in shown and len(shown) < 300, f"{words} -o {name} on a terminal: {shown[:200]}")
        check(len(on_terminal([*words, "--force", "-o", name], data)) >= len(TEXT), f"{words} -o {name} --force")
    shown = on_terminal([*words, "-o", "/dev/tty"], data, ">gone 2>&1")
    check(shown == b"" and b"/dev/tty: it is a terminal" in read("gone"), f"{words} -o /dev/tty elsewhere: {shown[:200]}")
    check(on_terminal([*words, "-q", "-o", "/dev/stdout"], data, ">gone") == b"" and len(read("gone")) >= len(TEXT), f"{words} -o /dev/stdout >gone")
    os.remove("gone")


def terminals():
    tink("encrypt", "-k", "keys.json", "-o", "sealed", "text")
    check(b"the first line\r\nand the second" in on_terminal(["decrypt", "-k", "keys.json"], "sealed"), "a plaintext on a terminal")
    for name in ("/dev/stdout", "/dev/tty"):
        check(b"the first line\r\nand the second" in on_terminal(["decrypt", "-k", "keys.json", "-o", name], "sealed"), f"a plaintext on {name}")
    ranged = on_terminal(["range", "-q", "-k", "keys.json", "--start", "4", "--length", "5", "sealed"], "/dev/null")
    check(ranged == b"first", f"a range on a terminal: {ranged}")
    for words, data in ((("encrypt", "-k", "keys.json"), "text"), (("rewrap", "-k", "keys.json", "-t", "later.json"), "sealed")):
        shown = on_terminal(list(words), data)
        check(b"standard output: it is a terminal, and ciphertext is no text" in shown and len(shown) < 200, f"ciphertext on a terminal: {shown[:200]}")
        check(len(on_terminal([*words, "--force"], data)) >= len(TEXT), f"{words} --force")
        terminals_by_name(words, data)
    for words in (["new", "AES128_GCM", "-o", "-"], ["unwrap", "-k", "master.json", "--aad", "host", "-o", "-", "keys.json.wrapped"], ["convert", "keys.json", "-o", "-", "--format", "json"], ["convert", "keys.json", "-o", "-", "--format", "binary"]):
        shown = on_terminal(words, "/dev/null")
        check(b"standard output: it is a terminal, and keys are not shown on one" in shown and b"{" not in shown, f"keys on a terminal: {shown[:200]}")
    check(b"tink: keys in files" in on_terminal([], "/dev/null"), "help on a terminal")
    check(b"no command is called -k" in on_terminal(["-k"], "/dev/null"), "no command on a terminal")
    check(b"no command is called encrpt; did you mean encrypt?" in on_terminal(["encrpt"], "/dev/null"), "a similar name on a terminal")
    shown = on_terminal(["sign", "-k", "macs.json", "payload"], "/dev/null")
    check(shown == tink("sign", "-k", "macs.json", "payload"), "a token on a terminal")
    with open("zeros", "wb") as file:
        file.truncate(400_000_000)
    check(b"MiB/s" in on_terminal(["encrypt", "-k", "keys.json", "-o", "out", "zeros"], "/dev/null"), "progress")
    check(on_terminal(["encrypt", "-q", "-k", "keys.json", "-o", "out", "zeros"], "/dev/null") == b"", "no progress")
    os.remove("zeros")


def documents():
    """The lines of README.md and docs/USING.md, as a new user types them."""
    tried = 0
    for document in ("README.md", "docs/USING.md"):
        with open(os.path.join(ROOT, document)) as file:
            text = file.read()
        for number, lines in enumerate(re.findall(r"```sh\n(.*?)```", text, re.S)):
            place = f"{os.path.basename(document)}.{number}"
            os.mkdir(place)
            os.symlink(PROGRAM, f"{place}/tink")
            write(f"{place}/notes.txt", TEXT)
            os.mkdir(f"{place}/work")
            write(f"{place}/work/notes.txt", TEXT)
            path = os.path.realpath(place) + ":" + os.environ["PATH"]
            done = subprocess.run(["bash", "-euo", "pipefail", "-c", lines], cwd=place, capture_output=True, env={**os.environ, "PATH": path})
            check(done.returncode == 0, f"the lines of {document}: {done.stderr.decode()}")
            tried += 1
    return f"{tried} blocks of lines"
