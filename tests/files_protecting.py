"""What a command may write: closed descriptors, files of keys as the output, links, modes and owners, no hard links."""
import os
import subprocess

from files_lib import NOBODY, PROGRAM, TEXT, a_folder, all_of, check, drafts, ids, mode, read, run, tink, write

IS_ROOT = os.geteuid() == 0


def closed(words, ends, **more):
    """A run that begins with some of the descriptors 0, 1, 2 closed."""
    close = " ".join(f"{end}<&-" if end == 0 else f"{end}>&-" for end in ends)
    return subprocess.run(["sh", "-c", f'exec "$0" "$@" {close}', PROGRAM, *words], capture_output=True, stdin=subprocess.DEVNULL, timeout=300, **more)


def each_closed(place):
    """The commands with closed descriptors: their files are whole, or unchanged, and hold no message."""
    keys = read("keys.json")
    for ends in ((0,), (1,), (2,), (0, 1), (0, 2), (1, 2), (0, 1, 2)):
        for words in (
            ("new", "AES128_GCM_HKDF_4KB", "-o", "made.json"),
            ("encrypt", "-k", "keys.json", "-o", "made", "text"),
            ("decrypt", "-k", "keys.json", "-o", "made", "sealed"),
            ("decrypt", "-k", "none.json", "-o", "made", "sealed"),
            ("decrypt", "-k", "new.json", "-o", "made", "sealed"),
            ("rotate", "keys.json", "AES128_GCM_HKDF_4KB"),
            ("rotate", "keys.json", "NO_SUCH"),
            ("wrap", "-k", "master.json", "-o", "made.json", "keys.json"),
            ("wrap", "-k", "master.json", "-o", "keys.json", "keys.json"),
        ):
            what = f"{place}: {words} without {ends}"
            done = closed(words, ends)
            is_wrong = "none.json" in words or "NO_SUCH" in words or words[-1] == words[-2] or ("decrypt" in words and "new.json" in words)
            check((done.returncode == 0) != is_wrong, f"{what}: {done}")
            for name, data in all_of().items():
                check(b"tink:" not in data and b"usage" not in data, f"{what}: a message is in {name}")
            check(drafts() == [], f"{what}: a draft is left")
            if done.returncode == 0 and words[0] == "encrypt":
                check(tink("decrypt", "-k", "keys.json", "made") == TEXT, what)
            if done.returncode == 0 and words[0] == "decrypt":
                check(read("made") == TEXT, what)
            if done.returncode == 0 and words[0] == "rotate":
                check(len(ids("keys.json")[0]) == 2, what)
            if words[0] == "new":
                check(len(ids("made.json")[0]) == 1, what)
            for name in ("made", "made.json"):
                if os.path.exists(name):
                    os.remove(name)
            write("keys.json", keys)
        if 0 in ends:
            for words in (("encrypt", "-k", "keys.json", "-o", "made"), ("encrypt", "-k", "-", "-o", "made", "text"), ("encrypt", "-k", "keys.json", "-o", "made", "-")):
                done = closed(words, ends)
                check(done.returncode == 11 and not os.path.exists("made"), f"{place}: {words} without {ends}: {done}")
        if 1 in ends:
            for words in (("encrypt", "-k", "keys.json", "text"), ("decrypt", "-k", "keys.json", "sealed"), ("new", "AES128_GCM", "-o", "-"), ("help",), ("keys", "keys.json"), ("templates",)):
                done = closed(words, ends)
                check(done.returncode == 12, f"{place}: {words} without {ends}: {done}")


def descriptors():
    with a_folder("descriptors"):
        each_closed("here")
        if IS_ROOT:
            before = all_of()
            os.mkdir("dark")
            os.chmod("dark", 0o333)
            for name in before:
                os.chmod(name, 0o644)
            for ends in ((), (0,), (1,), (2,), (0, 1, 2)):
                for words, made in (
                    (("new", "AES128_GCM_HKDF_4KB", "-o", "dark/made.json"), "made.json"),
                    (("encrypt", "-k", "keys.json", "-o", "dark/made", "text"), "made"),
                    (("decrypt", "-k", "keys.json", "-o", "dark/made", "sealed"), "made"),
                ):
                    done = closed(words, ends, **NOBODY)
                    check(done.returncode == 0, f"dark: {words} without {ends}: {done}")
                    check(ends or b"its folder could not be written to the disk" in done.stderr, f"a folder that cannot be read: {done}")
                    files = all_of("dark")
                    check(list(files) == [made], f"dark: {words} without {ends}: {list(files)}")
                    check(b"tink:" not in files.get(made, b"tink:"), f"dark: {words} without {ends}: a message in {made}")
                    check(made != "made" or words[0] != "decrypt" or files[made] == TEXT, f"dark: {words} without {ends}")
                    os.remove(f"dark/{made}")
                write("dark/keys.json", before["keys.json"])
                os.chown("dark/keys.json", 65534, 65534)
                done = closed(("rotate", "dark/keys.json", "AES128_GCM_HKDF_4KB"), ends, **NOBODY)
                check(done.returncode == 0 and list(all_of("dark")) == ["keys.json"], f"dark: rotate without {ends}: {done} {os.listdir('dark')}")
                check(len(ids("dark/keys.json")[0]) == 2 and b"tink:" not in read("dark/keys.json"), f"dark: rotate without {ends}")
                os.remove("dark/keys.json")


def spellings(name, number):
    """Other names of a file."""
    os.symlink(name, f"link{number}")
    os.link(name, f"hard{number}")
    os.symlink(f"link{number}", f"chain{number}")
    here = os.path.basename(os.getcwd())
    return [name, f"./{name}", f"../{here}//{name}", os.path.realpath(name), f"link{number}", f"hard{number}", f"chain{number}"]


def keys_as_output():
    with a_folder("outputs"):
        tink("encrypt", "-k", "keys.json", "-o", "text.tink", "text")
        tink("new", "HMAC_SHA256_128BITTAG", "-o", "macs.json")
        tink("sign", "-k", "macs.json", "-o", "token", "text")
        tink("wrap", "-k", "master.json", "-o", "macs.wrapped", "macs.json")
        rows = []
        plain = {"encrypt": ("text",), "decrypt": ("text.tink",), "range": ("--start", "0", "--length", "9", "text.tink")}
        for action, more in plain.items():
            rows.append(((action, "-k", "keys.json", *more), ("keys.json",)))
            rows.append(((action, "-k", "wrapped.json", "--master", "master.json", *more), ("wrapped.json", "master.json")))
        rows.append((("rewrap", "-k", "keys.json", "-t", "new.json", "text.tink"), ("keys.json", "new.json")))
        rows.append((("rewrap", "-k", "wrapped.json", "--master", "master.json", "-t", "wrapped.json", "text.tink"), ("wrapped.json", "master.json")))
        rows.append((("sign", "-k", "macs.json", "text"), ("macs.json",)))
        rows.append((("verify", "-k", "macs.wrapped", "--master", "master.json", "token"), ("macs.wrapped", "master.json")))
        rows.append((("wrap", "-k", "master.json", "keys.json"), ("master.json", "keys.json")))
        rows.append((("unwrap", "-k", "master.json", "wrapped.json"), ("master.json", "wrapped.json")))
        rows.append((("convert", "keys.json", "--format", "binary"), ("keys.json",)))
        names = {}
        for _, files in rows:
            for name in files:
                if name not in names:
                    names[name] = spellings(name, len(names))
        before = all_of()
        for words, files in rows:
            for name in files:
                for output in names[name]:
                    done = run(*words, "-o", output)
                    check(done.returncode == 12 and done.stderr.startswith(f"tink: {output}: ".encode()), f"{words} -o {output}: {done}")
                    check(all_of() == before, f"{words} -o {output}: a file has changed")
        # It is refused before anything is read: the input is not there, or it is no stream.
        for output in names["keys.json"]:
            for source in ("none", "text", "."):
                done = run("decrypt", "-k", "keys.json", "-o", output, source)
                check(done.returncode == 12, f"decrypt {source} -o {output}: {done}")
        done = run("encrypt", "-k", "none.json", "-o", "none.json", "text")
        check(done.returncode == 12 and all_of() == before, f"keys that are not there as output: {done}")
        done = run("encrypt", "-k", "none.json", "-o", "./none.json", "text")
        check(done.returncode == 12 and all_of() == before, f"keys that are not there as output: {done}")
        # A text may be encrypted onto itself, by any of its names but a hard link, which keeps the old bytes.
        write("own", TEXT)
        os.symlink("own", "own link")
        tink("encrypt", "-k", "keys.json", "-o", "own link", "own")
        check(os.path.islink("own link") and tink("decrypt", "-k", "keys.json", "own") == TEXT, "a file onto itself by a link")
        tink("decrypt", "-k", "keys.json", "-o", "./own", "own")
        check(read("own") == TEXT, "a file onto itself")


def redirected(words, source, output, flags, error=subprocess.PIPE):
    """A run whose standard input is a file, and whose standard output goes to a file that is opened so."""
    ends = [os.open(source, os.O_RDONLY), os.open(output, flags)]
    try:
        return subprocess.run([PROGRAM, *words], stdin=ends[0], stdout=ends[1], stderr=error, timeout=300)
    finally:
        for end in ends:
            os.close(end)


def apart():
    """A file that is read is refused, if standard output, or a draft that is taken away, would change it."""
    with a_folder("apart"):
        before = all_of()
        says = b"standard output goes to this file"
        for flags in (os.O_WRONLY | os.O_APPEND, os.O_RDWR):
            for words, source, output in (
                (("encrypt", "-k", "keys.json", "text"), "text", "keys.json"),
                (("encrypt", "-k", "-", "text"), "keys.json", "keys.json"),
                (("encrypt", "-k", "wrapped.json", "--master", "master.json", "text"), "text", "master.json"),
                (("encrypt", "-k", "keys.json", "text"), "sealed", "text"),
                (("encrypt", "-k", "keys.json"), "text", "text"),
                (("encrypt", "-k", "keys.json", "/dev/stdin"), "text", "text"),
                (("decrypt", "-k", "keys.json", "sealed"), "text", "sealed"),
                (("range", "-k", "keys.json", "--start", "0", "--length", "9", "sealed"), "text", "sealed"),
                (("rewrap", "-k", "keys.json", "-t", "new.json", "sealed"), "text", "new.json"),
            ):
                done = redirected(words, source, output, flags)
                check(done.returncode == 11 and says in done.stderr, f"{words} < {source} >> {output}: {done}")
                check(all_of() == before, f"{words} < {source} >> {output}: a file has changed")
        # Keys from standard input: their file is not the output.
        for words, source, output in (
            (("encrypt", "-k", "-", "text"), "keys.json", "keys.json"),
            (("rewrap", "-k", "keys.json", "-t", "-", "sealed"), "new.json", "new.json"),
            (("encrypt", "-k", "wrapped.json", "--master", "-", "text"), "master.json", "master.json"),
        ):
            with open(source, "rb") as file:
                done = run(*words, "-o", output, stdin_file=file)
            check(done.returncode == 12 and done.stderr.startswith(f"tink: {output}: ".encode()), f"{words} -o {output} < {source}: {done}")
            check(all_of() == before, f"{words} -o {output} < {source}: a file has changed")
        # Standard error goes to a file that is read, and is the output.
        for words, source, output in (
            (("encrypt", "-k", "keys.json", "-o", "/dev/stderr", "text"), "text", "text"),
            (("encrypt", "-k", "keys.json", "-o", "/proc/self/fd/2", "-"), "text", "text"),
            (("encrypt", "-k", "-", "-o", "/dev/stderr", "text"), "keys.json", "keys.json"),
            (("decrypt", "-k", "keys.json", "-o", "/dev/fd/2", "sealed"), "text", "sealed"),
            (("range", "-k", "keys.json", "-o", "/dev/stderr", "--start", "0", "--length", "9", "sealed"), "text", "sealed"),
        ):
            with open(output, "ab") as error:
                done = redirected(words, source, "/dev/null", os.O_WRONLY, error)
            line = f"tink: {words[words.index('-o') + 1]}: this command reads the file to which it leads: give another name\n"
            check(done.returncode == 12 and read(output) == before[output] + line.encode(), f"{words} < {source} 2>> {output}: {done} {len(read(output))}")
            write(output, before[output])
        # The name of a draft is none for an output: the next run would remove it.
        os.symlink("linked.tink-2.part", "link to a draft")
        for name in ("keys.json.tink.part", "text.tink-1.part", "./.tink-9.part", "link to a draft"):
            for words in (("encrypt", "-k", "keys.json", "-o", name, "text"), ("new", "AES128_GCM", "-o", name), ("convert", "keys.json", "--format", "binary", "-o", name), ("rotate", name, "AES128_GCM")):
                tink(*words, status=12, says=f"tink: {name}: the names of drafts end so")
        check(all_of() == before and drafts() == [], "no draft's name is an output")
        for name in ("out.tink-0.part", "out.tink-10.part", "out.part", "out.tink.part.tink", "tink.part"):
            tink("encrypt", "-k", "keys.json", "-o", name, "text")
            check(tink("decrypt", "-k", "keys.json", name) == TEXT, f"{name} as output")
            os.remove(name)
        # A file that has the name of a draft: as keys it is refused, and a text stays.
        for number in (".tink.part", ".tink-1.part", ".tink-9.part"):
            name = f"out{number}"
            os.rename("keys.json", name)
            for words in (("encrypt", "-k", name, "text"), ("rewrap", "-k", name, "-t", "new.json", "sealed"), ("rewrap", "-k", "new.json", "-t", name, "sealed"), ("wrap", "-k", "master.json", name), ("convert", "--format", "binary", name)):
                done = run(*words, "-o", "out")
                check(done.returncode == 12 and not os.path.exists("out"), f"{words} -o out: {done}")
                check(read(name) == before["keys.json"], f"{words} -o out: the keys are gone")
            for words in (("encrypt", "-k", "-", "text"), ("rewrap", "-k", "-", "-t", "new.json", "sealed"), ("rewrap", "-k", "new.json", "-t", "-", "sealed")):
                with open(name, "rb") as file:
                    done = run(*words, "-o", "out", stdin_file=file)
                check(done.returncode == 12 and not os.path.exists("out"), f"{words} -o out < {name}: {done}")
                check(read(name) == before["keys.json"], f"{words} -o out < {name}: the keys are gone")
            os.rename(name, "keys.json")
            os.rename("text", name)
            tink("encrypt", "-k", "keys.json", "-o", "out", name)
            check(os.path.exists(name) and tink("decrypt", "-k", "keys.json", "out") == TEXT, f"a text that is named {name}")
            for source in ("-", "/dev/stdin"):
                with open(name, "rb") as file:
                    done = run("encrypt", "-k", "keys.json", "-o", "out", source, stdin_file=file)
                check(done.returncode == 0 and os.path.exists(name) and tink("decrypt", "-k", "keys.json", "out") == TEXT, f"{source} < {name}: {done}")
            os.rename(name, "text")
            os.unlink("out")
            os.rename("sealed", name)
            check(tink("range", "-k", "keys.json", "-o", "out", "--start", "5", "--length", "9", name) == b"" and read("out") == TEXT[5:14], f"a range of {name}")
            check(os.path.exists(name), f"a range takes {name} away")
            os.rename(name, "sealed")
            os.unlink("out")
        check(all_of() == before, "files that are apart")


def primitives():
    with a_folder("primitives"):
        held = read("keys.json")
        for template in ("AES256_GCM", "HMAC_SHA256_128BITTAG", "AES256_SIV", "HKDF_SHA256"):
            tink("rotate", "keys.json", template, status=18, says="keys.json: ")
            check(read("keys.json") == held and drafts() == [], f"rotate to {template} changes nothing")
        tink("rotate", "--any", "keys.json", "HMAC_SHA256_128BITTAG")
        listed = tink("keys", "keys.json").decode().splitlines()
        check(len(listed) == 2 and listed[1].endswith("HmacKey\tprimary"), f"--any: {listed}")
        for words in (("--any", "keys.json", "AES256_GCM"), ("keys.json", "AES256_GCM", "--any"), ("keys.json", "--any", "AES256_GCM"), ("-q", "new.json", "AES256_GCM_HKDF_1MB"), ("--", "new.json", "AES256_GCM_HKDF_1MB")):
            name = "keys.json" if "keys.json" in words else "new.json"
            known = len(ids(name)[0])
            tink("rotate", *words)
            check(len(ids(name)[0]) == known + 1, f"rotate {words}")
        held = read("keys.json")
        done = run("rotate", "keys.json", "--nay", "AES256_GCM")
        check(done.returncode == 2 and done.stderr.startswith(b"tink rotate: no option is called --nay; did you mean --any?"), f"a wrong option in between: {done}")
        tink("rotate", "keys.json", "--any", "0" * 64, status=2, says="usage: seal ")
        check(read("keys.json") == held and drafts() == [], "wrong words change nothing")
        tink("rotate", "new.json", "AES256_GCM_HKDF_1MB")
        check(len({line.split("\t")[3] for line in tink("keys", "new.json").decode().splitlines()}) == 2, "streams of another kind are one primitive")


def modes():
    with a_folder("modes"):
        os.umask(0o077)
        tink("encrypt", "-k", "keys.json", "-o", "fresh", "text")
        os.umask(0)
        tink("encrypt", "-k", "keys.json", "-o", "open", "text")
        os.umask(0o022)
        check(mode("fresh") == mode("open") == 0o600, "a new file is its owner's alone, whatever the umask")
        for bits in (0o640, 0o644, 0o660, 0o600, 0o755, 0o200):
            for name, words in (
                ("keys.json", ("rotate", "keys.json", "AES128_GCM_HKDF_4KB")),
                ("fresh", ("encrypt", "-k", "new.json", "-o", "fresh", "text")),
                ("fresh", ("decrypt", "-k", "keys.json", "-o", "fresh", "sealed")),
            ):
                owner = (0, 1) if IS_ROOT else (os.getuid(), os.getgid())
                os.chown(name, *owner)
                os.chmod(name, bits)
                done = run(*words)
                if name == "keys.json" and bits == 0o200 and not IS_ROOT:
                    check(done.returncode == 11, f"{words}: {done}")
                else:
                    check(done.returncode == 0, f"{words} with {bits:o}: {done}")
                found = os.stat(name)
                check(mode(name) == bits and (found.st_uid, found.st_gid) == owner, f"{words}: mode {mode(name):o}, not {bits:o}; {found}")
        for bits in (0o400, 0o444, 0o500):
            os.chmod("keys.json", bits)
            held = read("keys.json")
            tink("rotate", "keys.json", "AES128_GCM_HKDF_4KB", status=12, says="keys.json: it is write-protected")
            os.chmod("fresh", bits)
            tink("encrypt", "-k", "new.json", "-o", "fresh", "text", status=12, says="fresh: it is write-protected")
            check(read("keys.json") == held and mode("keys.json") == bits and drafts() == [], "a protected file stays")
        os.chmod("keys.json", 0o600)
        if IS_ROOT:
            as_another()


def as_another():
    os.mkdir("shared")
    os.chmod("shared", 0o777)
    for name in ("keys.json", "text"):
        os.chmod(name, 0o644)
    write("shared/theirs", b"theirs")
    os.chmod("shared/theirs", 0o666)
    done = run("encrypt", "-k", "keys.json", "-o", "shared/theirs", "text", **NOBODY)
    check(done.returncode == 12 and b"belongs to another user" in done.stderr, f"another user's file: {done}")
    check(read("shared/theirs") == b"theirs" and drafts("shared") == [], "another user's file stays")
    os.chmod("shared/theirs", 0o644)
    done = run("encrypt", "-k", "keys.json", "-o", "shared/theirs", "text", **NOBODY)
    check(done.returncode == 12 and b"you may not write it" in done.stderr, f"another user's file: {done}")
    tink("encrypt", "-k", "keys.json", "-o", "shared/own", "text", **NOBODY)
    found = os.stat("shared/own")
    check((found.st_uid, found.st_gid, mode("shared/own")) == (65534, 65534, 0o600), "a new file is its maker's")
    tink("rotate", "keys.json", "AES128_GCM_HKDF_4KB", status=12, **NOBODY)
    os.chmod("shared", 0o755)
    tink("new", "AES128_GCM", "-o", "shared/new.json", status=12, says="you may not write into its folder", **NOBODY)


def links():
    with a_folder("links"):
        encrypt = ("encrypt", "-k", "keys.json", "-o")
        os.mkdir("inner")
        os.symlink("inner/file", "dangling")
        tink(*encrypt, "dangling", "text")
        check(os.path.islink("dangling") and tink("decrypt", "-k", "keys.json", "inner/file") == TEXT, "a link to a name that is not there")
        os.symlink("no/where", "nowhere")
        tink(*encrypt, "nowhere", "text", status=12, says="nowhere: ")
        for number in range(5):
            os.symlink("end of chain" if number == 0 else f"chain{number - 1}", f"chain{number}")
        write("end of chain", b"old")
        tink(*encrypt, "chain4", "text")
        check(all(os.path.islink(f"chain{n}") for n in range(5)) and tink("decrypt", "-k", "keys.json", "end of chain") == TEXT, "a chain of links")
        os.symlink("loop b", "loop a")
        os.symlink("loop a", "loop b")
        tink(*encrypt, "loop a", "text", status=12, says="loop a: too many links")
        tink("encrypt", "-k", "loop a", "-o", "out", "text", status=11, says="loop a: ")
        tink("rotate", "loop a", "AES128_GCM_HKDF_4KB", status=12, says="loop a: ")
        os.symlink("keys.json", "keys link")
        tink("rotate", "keys link", "AES128_GCM_HKDF_4KB")
        check(os.path.islink("keys link") and len(ids("keys.json")[0]) == 2, "keys behind a link")
        os.symlink("inner", "inner link")
        tink(*encrypt, "inner link/other", "text")
        check(os.listdir("inner link") == os.listdir("inner"), "a folder behind a link")
        for name in ("inner", "inner/", "inner link", "inner link/", ".", "..", "/", "inner/.", "new/"):
            tink(*encrypt, name, "text", status=12)
            tink("new", "AES128_GCM", "-o", name, status=12)
        tink("new", "AES128_GCM", "-o", "nowhere", status=12)
        os.symlink("inner/keys", "to keys")
        tink("new", "AES128_GCM", "-o", "to keys")
        check(os.path.islink("to keys") and len(ids("inner/keys")[0]) == 1, "new keys behind a link to no file")
        check(drafts() == [] and drafts("inner") == [], "no draft is left")
        streams_as_output(encrypt)
        stickied()
        append_only(encrypt)


def append_only(encrypt):
    """In a folder from which nothing may be removed a draft stays, and a line says so."""
    os.mkdir("append only")
    if subprocess.run(["chattr", "+a", "append only"], capture_output=True).returncode != 0:
        return
    try:
        left = b"tink: append only/%b.tink-1.part: this draft is left, since it cannot be removed (the system does not allow it): remove it\n"
        done = run(*encrypt, "append only/out", "text")
        check(done.returncode == 12 and done.stderr.startswith(left % b"out") and drafts("append only") == ["out.tink-1.part"], f"an append-only folder: {done}")
        done = run("new", "AES128_GCM", "-o", "append only/keys")
        check(done.returncode == 0 and done.stderr == left % b"keys" and len(ids("append only/keys")[0]) == 1, f"new keys in an append-only folder: {done}")
    finally:
        subprocess.run(["chattr", "-a", "append only"], check=True)


def streams_as_output(encrypt):
    tink(*encrypt, "/dev/fd/77", "text", status=12, says="/dev/fd/77: no such descriptor is open")
    for name in ("/dev/stdout", "/dev/fd/1", "/proc/self/fd/1"):
        check(tink("decrypt", "-k", "keys.json", stdin=tink(*encrypt, name, "text")) == TEXT, f"{name} as output")
    os.symlink("/dev/stdout", "to stdout")
    check(tink("decrypt", "-k", "keys.json", stdin=tink(*encrypt, "to stdout", "text")) == TEXT, "a link to standard output")
    write("appended", b"before\n")
    with open("appended", "ab") as out:
        check(run("decrypt", "-k", "keys.json", "-o", "/dev/stdout", "sealed", stdout=out).returncode == 0, "an output that is appended to")
    check(read("appended") == b"before\n" + TEXT, "what was there stays in front")
    for name in ("/dev/stdin", "/dev/fd/0", "/proc/self/fd/0"):
        check(tink("decrypt", "-k", "keys.json", name, stdin=read("sealed")) == TEXT, f"{name} as input")
    write("behind", b"front" + read("sealed"))
    for name in ((), ("/dev/stdin",), ("/dev/fd/0",)):
        with open("behind", "rb", buffering=0) as source:
            source.read(5)
            done = run("decrypt", "-k", "keys.json", *name, stdin_file=source)
        check(done.returncode == 0 and done.stdout == TEXT, f"a file as standard input is read from its place on, by {name}: {done.stderr}")
    with open("regular", "wb") as out:
        done = run(*encrypt, f"/proc/self/fd/{out.fileno()}", "text", pass_fds=(out.fileno(),))
        check(done.returncode == 12 and read("regular") == b"", f"a descriptor of a regular file: {done}")
    tink(*encrypt, "/dev/null", "text")
    os.mkfifo("pipe")
    for words, data in ((("encrypt", "-k", "keys.json"), TEXT), (("decrypt", "-k", "keys.json"), read("sealed"))):
        write("source", data)
        out = subprocess.Popen([PROGRAM, *words, "-o", "pipe", "source"])
        with open("pipe", "rb") as end:
            got = end.read()
        check(out.wait() == 0 and (got == TEXT or tink("decrypt", "-k", "keys.json", stdin=got) == TEXT), f"a pipe as output of {words}")
        into = subprocess.Popen([PROGRAM, *words, "pipe"], stdout=subprocess.PIPE)
        with open("pipe", "wb") as end:
            end.write(data)
        got = into.communicate()[0]
        check(into.returncode == 0 and (got == TEXT or tink("decrypt", "-k", "keys.json", stdin=got) == TEXT), f"a pipe as input of {words}")
    tink("rotate", "pipe", "AES128_GCM_HKDF_4KB", status=12, says="pipe: it is no regular file")
    tink("new", "AES128_GCM", "-o", "pipe", status=12)
    tink("range", "-k", "keys.json", "--start", "0", "--length", "1", "pipe", status=11, says="pipe: it is no regular file")
    check(drafts() == [], "no draft is left")


def stickied():
    """A link of another user in a folder that all may write into is not followed, where the system does not."""
    if not IS_ROOT:
        return
    os.mkdir("sticky")
    os.chmod("sticky", 0o1777)
    write("victim", b"the victim's")
    os.chmod("victim", 0o666)
    os.symlink("../victim", "sticky/link")
    os.lchown("sticky/link", 65534, 65534)
    with open("/proc/sys/fs/protected_symlinks") as file:
        is_protected = file.read().strip() == "1"
    done = run("encrypt", "-k", "keys.json", "-o", "sticky/link", "text")
    check((done.returncode == 12 and read("victim") == b"the victim's") or not is_protected, f"another user's link: {done}")
