"""Keys for later, formats, prefixes, listings in JSON, keys under a master, check and info, keys by standard streams."""
import json
import os
import subprocess

from files_lib import PROGRAM, TEXT, a_folder, all_of, check, drafts, ids, mode, read, run, tink, write

PREFIXES = {"tink": "TINK", "raw": "RAW", "legacy": "LEGACY", "crunchy": "CRUNCHY"}
SEGMENT = 4096


def templates():
    names = tink("templates").decode().split("\n")
    check(names.pop() == "" and len(names) == 26 == len(set(names)), f"26 templates: {names}")
    with a_folder("templates"):
        for name in names:
            tink("new", name, "-o", name)
            tink("add", name, name)
            tink("rotate", name, name)
            listed = tink("keys", name).decode().splitlines()
            check(len(listed) == 3 and len({line.split("\t")[3] for line in listed}) == 1, f"keys by {name}: {listed}")
        for prefix, shown in PREFIXES.items():
            for template in ("AES256_GCM", "HMAC_SHA256_128BITTAG", "AES128_GCM_HKDF_4KB"):
                made = f"{prefix}.{template}"
                tink("new", template, "-o", made, "--prefix", prefix)
                check(f"\t{shown}\t" in tink("keys", made).decode(), f"--prefix {prefix} of {template}")
            keys = f"{prefix}.AES128_GCM_HKDF_4KB"
            sealed = tink("encrypt", "-k", keys, "text")
            key = int(ids(keys)[1]).to_bytes(4, "big")
            front = {"tink": b"\x01" + key, "raw": b"", "legacy": b"\x00" + key, "crunchy": b"\x00" + key}[prefix]
            check(sealed.startswith(front + b"\x18") and tink("decrypt", "-k", keys, stdin=sealed) == TEXT, f"a stream of a key with --prefix {prefix}")


def added():
    with a_folder("added"):
        tink("add", "new.json", "AES128_CTR_HMAC_SHA256_4KB")
        before, primary = ids("new.json")
        check(len(before) == 2 and primary == before[0] and mode("new.json") == 0o600, "an added key is not the primary one")
        sealed = tink("encrypt", "-k", "new.json", "text")
        write("copy.json", read("new.json"))
        tink("promote", "new.json", before[1])
        later = tink("encrypt", "-k", "new.json", "text")
        check(tink("decrypt", "-k", "copy.json", stdin=later) == TEXT, "a reader with the added key decrypts what the promoted key encrypted")
        check(tink("decrypt", "-k", "new.json", stdin=sealed) == TEXT, "the old key decrypts")
        held = read("new.json")
        tink("add", "new.json", "NO_SUCH", status=24, says="NO_SUCH: ")
        tink("add", "none.json", "AES128_GCM", status=12)
        tink("add", "text", "AES128_GCM", status=13, says="text: bad keyset")
        check(read("new.json") == held and drafts() == [], "a refused addition changes nothing")


def listings():
    with a_folder("listings"):
        for _ in range(3):
            tink("rotate", "keys.json", "AES256_GCM_HKDF_1MB")
        known, primary = ids("keys.json")
        tink("disable", "keys.json", known[1])
        tink("destroy", "keys.json", known[2])
        for name in ("keys.json", "master.json", "new.json"):
            rows = [line.split("\t") for line in tink("keys", name).decode().splitlines()]
            want = [{"id": int(row[0]), "status": row[1], "prefix": row[2], "type": row[3], "primary": row[4:] == ["primary"]} for row in rows]
            check(json.loads(tink("keys", "--json", name)) == want, f"keys --json {name}: {tink('keys', '--json', name)!r}")
            tink("convert", name, "-o", f"{name}.bin", "--format", "binary")
            check(tink("keys", "--json", f"{name}.bin") == tink("keys", "--json", name), f"keys --json of {name} in binary")
            check(tink("keys", "--json", "-", stdin=read(name)) == tink("keys", "--json", name), "keys --json of standard input")
            tink("convert", f"{name}.bin", "-o", f"{name}.again", "--format", "json")
            check(read(f"{name}.again") == read(name) and mode(f"{name}.again") == 0o600, f"{name} there and back")
            tink("convert", f"{name}.again", "-o", f"{name}.same", "--format", "binary")
            check(read(f"{name}.same") == read(f"{name}.bin") and read(f"{name}.bin")[:1] == b"\x08", f"{name} there again")
        write("quoted.json", json.dumps({"primaryKeyId": 7, "key": [{"keyData": {"typeUrl": 'a"b\\c\n\u00e9', "value": "AAEC", "keyMaterialType": "SYMMETRIC"}, "status": "ENABLED", "keyId": 7, "outputPrefixType": "RAW"}]}).encode())
        check(json.loads(tink("keys", "--json", "quoted.json"))[0]["type"].startswith('a"b\\c?'), "a type with quotation marks")
        tink("keys", "--json", "text", status=13, says="text: bad keyset")
        before = all_of()
        tink("convert", "keys.json", "-o", "new.json", "--format", "json", status=12, says="new.json: it is there already")
        tink("convert", "text", "-o", "made", "--format", "json", status=13, says="text: bad keyset")
        tink("convert", "none", "-o", "made", "--format", "json", status=11, says="none: there is no such file")
        check(all_of() == before and drafts() == [], "a refused conversion changes nothing")


def standard_keys():
    with a_folder("standard keys"):
        keys = read("keys.json")
        for data in (keys, read("wrapped.json")):
            more = () if data == keys else ("--master", "master.json")
            check(tink("decrypt", "-k", "-", *more, "sealed", stdin=data) == TEXT, f"-k - with {more}")
            tink("encrypt", "-k", "-", *more, "-o", "made", "text", stdin=data)
            check(tink("decrypt", "-k", "keys.json", "made") == TEXT, f"encrypt -k - with {more}")
            tink("check", "-k", "-", *more, "sealed", stdin=data)
            check(tink("range", "-k", "-", *more, "--start", "5", "--length", "9", "sealed", stdin=data) == TEXT[5:14], f"range -k - with {more}")
        check(tink("keys", "-", stdin=keys) == tink("keys", "keys.json"), "keys -")
        made = tink("new", "AES128_GCM_HKDF_4KB", "-o", "-")
        write("made.json", made)
        check(made.startswith(b"{") and len(ids("made.json")[0]) == 1 and not os.path.exists("-"), "new -o -")
        check(tink("new", "AES128_GCM_HKDF_4KB", "-o", "-", "--format", "binary")[:1] == b"\x08", "new -o - in binary")
        check(tink("unwrap", "-k", "master.json", "-o", "-", "wrapped.json") == keys, "unwrap -o -")
        check(tink("unwrap", "-k", "-", "-o", "-", "wrapped.json", stdin=read("master.json")) == keys, "unwrap -k -")
        wrapped = tink("wrap", "-k", "master.json", "-o", "-", "-", stdin=keys)
        check(tink("unwrap", "-k", "master.json", "-o", "-", "-", stdin=wrapped) == keys, "wrap and unwrap by pipes")
        check(tink("convert", "-", "-o", "-", "--format", "json", stdin=keys) == keys, "convert by pipes")
        tink("encrypt", "-k", "-", "text", stdin=b"nothing of the kind", status=13)
        tink("encrypt", "-k", "-", "text", stdin=b"", status=14)
        # The keys and the text cannot both come from standard input.
        macs = tink("new", "HMAC_SHA256_128BITTAG", "-o", "-")
        for words, data in (
            (("encrypt", "-k", "-", "-o", "both"), keys),
            (("decrypt", "-k", "-", "-o", "both", "-"), keys),
            (("check", "-k", "-"), keys),
            (("rewrap", "-k", "-", "-t", "new.json", "-o", "both"), keys),
            (("rewrap", "-k", "keys.json", "-t", "-", "-o", "both"), keys),
            (("rewrap", "-k", "-", "-t", "-", "-o", "both", "sealed"), keys),
            (("encrypt", "-k", "wrapped.json", "--master", "-", "-o", "both"), read("master.json")),
            (("encrypt", "-k", "-", "--master", "-", "-o", "both", "text"), keys),
            (("sign", "-k", "-", "-o", "both"), macs),
        ):
            done = run(*words, stdin=data)
            check(done.returncode in (2, 11) and b"standard input" in done.stderr and not os.path.exists("both"), f"{words}: {done}")
        # It is refused before anything is read, whatever is there: the files that these lines name do not exist.
        for words in (
            ("info", "-k", "-", "--master", "-", "none"),
            ("info", "-k", "-", "--master", "-", "-"),
            ("check", "-k", "-", "--master", "-", "none"),
            ("range", "-k", "-", "--master", "-", "--start", "0", "--length", "1", "none"),
            ("rewrap", "-k", "none", "-t", "none", "--master", "-", "none"),
        ):
            done = run(*words, stdin=b"")
            check(done.returncode == 11 and b"tink: standard input: " in done.stderr, f"{words}: {done}")
        for action in ("wrap", "unwrap"):
            done = run(action, "-k", "-", "-o", "both", "-", stdin=read("master.json"))
            says = b"tink: standard input: it is named for two things and can be read for one: give a file for the other\n"
            check((done.returncode, done.stderr) == (11, says) and not os.path.exists("both"), f"{action}: {done}")
            with open("master.json", "rb") as file:
                run(action, "-k", "-", "-o", "both", "-", stdin_file=file)
                check(file.read() == read("master.json"), f"{action} reads nothing of standard input before it refuses")


def mastered():
    with a_folder("mastered"):
        tink("wrap", "-k", "master.json", "--aad", "host", "-o", "bound.bin", "--format", "binary", "keys.json")
        tink("new", "HMAC_SHA256_128BITTAG", "-o", "macs.json")
        tink("wrap", "-k", "master.json", "-o", "macs.wrapped", "macs.json")
        tink("sign", "-k", "macs.json", "-o", "token", "text")
        tink("new", "AES256_GCM", "-o", "other.json")
        plain = ("-k", "keys.json")
        for words in (("-k", "wrapped.json", "--master", "master.json"), ("-k", "bound.bin", "--master=master.json", "--master-aad", "host")):
            for rest in (("decrypt", "sealed"), ("check", "sealed"), ("info", "sealed"), ("range", "--start", "9", "--length", "5000", "sealed")):
                check(tink(rest[0], *words, *rest[1:]) == tink(rest[0], *plain, *rest[1:]), f"{rest} with {words}")
            check(tink("decrypt", *plain, stdin=tink("encrypt", *words, "text")) == TEXT, f"encrypt with {words}")
        moved = tink("rewrap", "-k", "wrapped.json", "--master", "master.json", "-t", "wrapped.json", "--to-aad", "x", "sealed")
        check(tink("decrypt", *plain, "--aad", "x", stdin=moved) == TEXT, "rewrap under a master")
        macs = ("-k", "macs.wrapped", "--master", "master.json")
        check(tink("sign", *macs, "text") == read("token") and tink("verify", *macs, "token") == TEXT, "tokens under a master")
        for words, status in (
            (("-k", "wrapped.json", "--master", "other.json"), 34),
            (("-k", "wrapped.json", "--master", "master.json", "--master-aad", "x"), 34),
            (("-k", "bound.bin", "--master", "master.json"), 34),
            (("-k", "keys.json", "--master", "master.json"), 34),
            (("-k", "wrapped.json", "--master", "keys.json"), 18),
            (("-k", "wrapped.json", "--master", "none.json"), 11),
            (("-k", "none.json", "--master", "master.json"), 11),
            (("-k", "text", "--master", "master.json"), 34),
            (("-k", "wrapped.json", "--master", "text"), 13),
            (("-k", "macs.wrapped", "--master", "master.json"), 18),
        ):
            for rest in (("decrypt", "-o", "made", "sealed"), ("encrypt", "-o", "made", "text"), ("check", "sealed"), ("info", "sealed"), ("range", "--start", "9", "--length", "5", "sealed")):
                done = run(rest[0], *words, *rest[1:])
                check(done.returncode in (status, 13 if status == 34 else status) and done.stderr.startswith(b"tink: ") and done.stdout == b"", f"{rest[0]} {words}: {done}")
                check(not os.path.exists("made") and drafts() == [], f"{rest[0]} {words} makes nothing")


def shapes(size):
    """The segments of a stream of AES128_GCM_HKDF_4KB with so many bytes of plaintext: how many, and where they end."""
    first, other = SEGMENT - 24 - 16, SEGMENT - 16
    count = 1 if size <= first else 1 + -(-(size - first) // other)
    return count, size + 24 + 16 * count


def checked():
    with a_folder("checked"):
        key = ids("keys.json")[1]
        for size in (0, 1, 4055, 4056, 4057, 8135, 8136, 8137, 20000, len(TEXT)):
            write("plain", TEXT[:size])
            tink("encrypt", "-k", "keys.json", "--aad", "x", "-o", "made", "plain")
            segments, length = shapes(size)
            check(os.path.getsize("made") == length, f"a stream of {size} bytes has {os.path.getsize('made')}, not {length}")
            want = f"key {key}\nsegments {segments}\nsegment {SEGMENT} bytes\nplaintext {size} bytes\n".encode()
            got = tink("info", "-k", "keys.json", "--aad", "x", "made")
            check(got == want, f"info of {size} bytes: {got!r}, not {want!r}")
            check(tink("check", "-k", "keys.json", "--aad", "x", "made") == b"", f"a whole stream of {size} bytes")
            check(tink("check", "-k", "keys.json", "--aad", "x", stdin=read("made")) == b"", "check of standard input")
        stream = read("made")
        cuts = {at + more for at in range(0, len(stream), SEGMENT) for more in (-1, 0, 1)} & set(range(len(stream)))
        for at in sorted(cuts):
            write("cut", stream[:at])
            agree("cut", f"cut at {at}")
        for at in list(range(30)) + list(range(30, len(stream), 2999)) + [len(stream) - 1]:
            write("damaged", stream[:at] + bytes([stream[at] ^ 1]) + stream[at + 1 :])
            agree("damaged", f"byte {at} changed")
        swapped = stream[:SEGMENT] + stream[2 * SEGMENT : 3 * SEGMENT] + stream[SEGMENT : 2 * SEGMENT] + stream[3 * SEGMENT :]
        for data in (swapped, stream + b"\0", stream + stream, b"", stream[: len(stream) // SEGMENT * SEGMENT]):
            write("other", data)
            agree("other", f"{len(data)} other bytes")
        tink("check", "-k", "keys.json", "--aad", "y", "made", status=21, says="made: no key of keys.json")
        tink("check", "-k", "new.json", "--aad", "x", "made", status=21)
        tink("check", "-k", "keys.json", "none", status=11, says="none: there is no such file")
        tink("info", "-k", "keys.json", "--aad", "y", "made", status=21, says="made: no key of keys.json")
        tink("info", "-k", "keys.json", "-", status=2)
        tink("info", "-k", "keys.json", "/dev/null", status=11, says="/dev/null: it is no regular file")
        tink("info", "-k", "keys.json", "none", status=11, says="none: there is no such file")
        write("damaged", stream[:-1] + bytes([stream[-1] ^ 1]))
        tink("info", "-k", "keys.json", "--aad", "x", "damaged", status=22)
        write("damaged", stream[:5000] + bytes([stream[5000] ^ 1]) + stream[5001:])
        tink("info", "-k", "keys.json", "--aad", "x", "damaged")
        tink("rotate", "keys.json", "AES128_GCM_HKDF_4KB")
        check(tink("info", "-k", "keys.json", "--aad", "x", "made").startswith(f"key {key}\n".encode()), "info names the key that encrypted, and not the primary one")


def agree(name, what):
    """`check` and `decrypt` refuse a stream with the same status and line, and neither makes a file."""
    words = ("-k", "keys.json", "--aad", "x", name)
    looked, opened = run("check", *words), run("decrypt", "-o", "opened", *words)
    check(looked.returncode in (21, 22, 23) and looked.returncode == opened.returncode, f"{what}: {looked} {opened}")
    check(looked.stdout == b"" and looked.stderr == opened.stderr, f"{what}: {looked} {opened}")
    check(not os.path.exists("opened") and drafts() == [], f"{what}: nothing is made")


# What is done to a keyset of two keys, the second of which is primary, and what a command then says of it.
BROKEN = [
    (lambda k: k.update(primaryKeyId=5), "none of its enabled keys is the primary key"),
    (lambda k: k.pop("primaryKeyId"), "none of its enabled keys is the primary key"),
    (lambda k: k["key"][1].update(status="DISABLED"), "none of its enabled keys is the primary key"),
    (lambda k: [key.update(status="DISABLED") for key in k["key"]], "none of its keys is enabled"),
    (lambda k: k["key"][0].update(keyId=k["key"][1]["keyId"]), "two of its enabled keys have the id of the primary key"),
    (lambda k: k.update(key=[]), "it has no key"),
    (lambda k: k["key"][0].pop("keyData"), "a key has no data, and is not destroyed"),
    (lambda k: k["key"][0].update(keyId=0), "a key has the id 0, which none may have"),
    (lambda k: k["key"][0].update(outputPrefixType="UNKNOWN_PREFIX"), "a key has no output prefix type that is known"),
    (lambda k: k["key"][0].update(status="UNKNOWN_STATUS"), "a key is neither enabled nor disabled nor destroyed"),
]


def invalid_keysets():
    """The rule that a keyset breaks is named, and so are a wrapped file and a byte-order mark. The file stays as it is."""
    with a_folder("invalid"):
        tink("rotate", "keys.json", "AES128_GCM_HKDF_4KB")
        other = ids("keys.json")[0][0]
        for change, rule in BROKEN:
            keyset = json.loads(read("keys.json"))
            change(keyset)
            write("broken", json.dumps(keyset).encode())
            for words in (("encrypt", "-k", "broken", "text"), ("rotate", "broken", "AES128_GCM_HKDF_4KB"), ("disable", "broken", other), ("wrap", "-k", "master.json", "-o", "made", "broken")):
                held = read("broken")
                tink(*words, status=14, says=f"tink: broken: invalid keyset: {rule}")
                check(read("broken") == held and not os.path.exists("made") and drafts() == [], f"{words}: {rule}")
        tink("wrap", "-k", "master.json", "-o", "wrapped.bin", "--format", "binary", "keys.json")
        for name in ("wrapped.json", "wrapped.bin"):
            for words in (("encrypt", "-k", name, "text"), ("keys", name), ("rotate", name, "AES128_GCM_HKDF_4KB"), ("convert", name, "-o", "made", "--format", "json")):
                done = run(*words)
                says = f"tink: {name}: it is a wrapped file of keys: `tink unwrap` opens it, and `--master MASTER` reads it in its place\n"
                check(done.returncode in (13, 14) and done.stderr.decode() == says, f"{words}: {done}")
        write("marked", b"\xef\xbb\xbf" + read("keys.json"))
        for words in (("encrypt", "-k", "marked", "text"), ("keys", "marked"), ("rotate", "marked", "AES128_GCM_HKDF_4KB")):
            tink(*words, status=13, says="tink: marked: bad keyset: a byte-order mark is in front of it: save it without one\n")
        check(drafts() == [] and not os.path.exists("made"), "a refusal leaves nothing")


def long_files():
    """A file of keys has at most 16,777,216 bytes. No longer one is made, and each that is made is read again."""
    most = 1 << 24
    with a_folder("long_files"):
        keyset = json.loads(read("keys.json"))
        first = keyset["key"][0]["keyId"]
        data = {"typeUrl": "type.googleapis.com/one.of.elsewhere", "value": "", "keyMaterialType": "SYMMETRIC"}
        key = {"keyData": data, "status": "DISABLED", "keyId": first ^ 1, "outputPrefixType": "RAW"}

        def compact():
            return json.dumps({**keyset, "key": [*keyset["key"], key]}, separators=(",", ":")).encode()

        data["value"] = "AAAA" * ((most - len(compact())) // 4)
        write("long.json", compact())
        held = read("long.json")
        check(most - 4 < len(held) <= most, f"{len(held)} bytes")
        check(len(tink("keys", "long.json").splitlines()) == 2, "a file of the most bytes is read")
        for words in (("add", "long.json", "AES128_GCM_HKDF_4KB"), ("rotate", "long.json", "AES128_GCM_HKDF_4KB"), ("enable", "long.json", str(first)), ("disable", "long.json", str(first ^ 1))):
            tink(*words, status=13, says="tink: long.json: keyset too long: ")
            check(read("long.json") == held and drafts() == [], f"{words}: nothing has changed")
        tink("convert", "long.json", "-o", "long.bin", "--format", "binary")
        tink("wrap", "-k", "master.json", "-o", "wrapped.bin", "--format", "binary", "long.json")
        for words in (("convert", "long.bin", "--format", "json"), ("wrap", "-k", "master.json", "long.bin"), ("unwrap", "-k", "master.json", "wrapped.bin")):
            tink(*words, "-o", "made", status=13, says="tink: made: keyset too long: ")
            check(tink(*words, "-o", "-", status=13, says="tink: -: keyset too long: ") == b"", f"{words}: nothing is written")
            check(not os.path.exists("made") and drafts() == [], f"{words}: no file is made")
        tink("unwrap", "-k", "master.json", "-o", "again.bin", "--format", "binary", "wrapped.bin")
        check(read("again.bin") == read("long.bin") and len(tink("keys", "again.bin").splitlines()) == 2, "a long file in binary comes back")
        tink("delete", "long.bin", str(first ^ 1))
        tink("convert", "long.bin", "-o", "short.json", "--format", "json")
        check(read("short.json") == read("keys.json"), "without its long key it is short")


def peak(words):
    """The status of a run, and the most memory that it had, in bytes."""
    program = "import os, resource, subprocess, sys; done = subprocess.run(sys.argv[1:], stdout=subprocess.DEVNULL, stderr=subprocess.DEVNULL); print(done.returncode, resource.getrusage(resource.RUSAGE_CHILDREN).ru_maxrss)"
    said = subprocess.run(["python3", "-c", program, PROGRAM, *words], capture_output=True, timeout=900)
    status, kibibytes = said.stdout.split()
    return int(status), int(kibibytes) * 1024


def memory():
    """A file of keys is loaded in at most 16 times its size, or refused as too long."""
    with a_folder("memory"):
        write("small", b"")
        least = max(peak(("keys", "keys.json"))[1], peak(("encrypt", "-k", "keys.json", "-o", "made", "small"))[1])
        keyset = json.loads(read("keys.json"))
        for count in (1_000_000, 30_000_000):
            write("empty.bin", b"\x08\x01" + b"\x12\x00" * count)
            write("empty.json", b'{"primaryKeyId": 1, "key": [' + b"{}" + b",{}" * (count - 1) + b"]}")
            for name in ("empty.bin", "empty.json"):
                for words in (("keys", name), ("encrypt", "-k", name, "text"), ("rotate", name, "AES128_GCM_HKDF_4KB"), ("convert", name, "-o", "never", "--format", "binary"), ("wrap", "-k", name, "-o", "made", "keys.json")):
                    status, most = peak(words)
                    check(status == 13 and most - least <= 16 * os.path.getsize(name), f"{words} with {count} empty keys: status {status}, {most} bytes")
        for count in (1000, 20_000):
            many = [{**keyset["key"][0], "keyId": number + 1} for number in range(count)]
            write("many.json", json.dumps({"primaryKeyId": 1, "key": many}).encode())
            tink("convert", "many.json", "-o", "many.bin", "--format", "binary")
            for name in ("many.json", "many.bin"):
                for words in (("keys", name), ("encrypt", "-k", name, "-o", "made", "small")):
                    status, most = peak(words)
                    size = os.path.getsize(name)
                    check(status == 0 and most - least <= 16 * size, f"{words} with {count} keys: status {status}, {most} bytes of {size}")
            os.unlink("many.bin")
        memory_of_sets()


def memory_of_sets():
    """The same of files of keys whose entries are kept: the master of `wrap`, and the keys of `sign`."""
    least = peak(("keys", "keys.json"))[1]
    for template in ("AES128_GCM", "AES256_GCM", "AES256_CTR_HMAC_SHA256", "AES256_GCM_SIV", "HMAC_SHA256_256BITTAG", "HMAC_SHA512_512BITTAG", "AES_CMAC"):
        tink("new", template, "-o", template)
        keyset = json.loads(read(template))
        many = [{**keyset["key"][0], "keyId": number + 1} for number in range(20_000)]
        write("many.json", json.dumps({"primaryKeyId": 1, "key": many}).encode())
        tink("convert", "many.json", "-o", "many.bin", "--format", "binary")
        for name in ("many.json", "many.bin"):
            mac = template.startswith("HMAC") or template.startswith("AES_CMAC")
            words = ("sign", "-k", name, "-o", "token", "small") if mac else ("wrap", "-k", name, "-o", "wrapped", "keys.json")
            status, most = peak(words)
            size = os.path.getsize(name)
            check(status == 0 and most - least <= 16 * size, f"{words} with 20,000 keys of {template}: status {status}, {most} bytes of {size}")
            if os.path.exists(words[4]):
                os.unlink(words[4])
        os.unlink("many.bin")
