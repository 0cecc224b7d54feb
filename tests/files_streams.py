"""Streams, tokens and ranges in files: what the commands make of them, and of damaged ones."""
import base64
import hashlib
import hmac
import json
import os
import random
import subprocess
import time

from files_lib import PROGRAM, TEXT, check, drafts, mode, read, run, tink, write


def streams():
    write("text", TEXT)
    for keys in ("keys.json", "keys.bin"):
        tink("encrypt", "-k", keys, "-o", "sealed", "text")
        check(mode("sealed") == 0o600 and TEXT[:30] not in read("sealed"), "an encrypted file")
        tink("decrypt", "-k", keys, "-o", "opened", "sealed")
        check(read("opened") == TEXT and mode("opened") == 0o600, "a file comes back")
        check(tink("decrypt", "-k", keys, stdin=tink("encrypt", "-k", keys, stdin=TEXT)) == TEXT, "by pipes")
        check(tink("decrypt", "-k", keys, "-o", "-", "-", stdin=read("sealed")) == TEXT, "a dash")
    sealed = tink("encrypt", "-k", "keys.json", "--aad", "notes of May", "text")
    check(sealed != tink("encrypt", "-k", "keys.json", "--aad", "notes of May", "text"), "seeds differ")
    write("bound", sealed)
    check(tink("decrypt", "-k", "keys.json", "--aad", "notes of May", "bound") == TEXT, "associated data")
    write("opened", b"what was there")
    match = "no key of keys.json opens this stream: give the keys and the --aad that encrypted it; if they are right, it is damaged or was never encrypted"
    tink("decrypt", "-k", "keys.json", "-o", "opened", "bound", status=21, says="bound: " + match)
    tink("decrypt", "-k", "keys.bin", "-o", "opened", "bound", status=21)
    check(read("opened") == b"what was there" and drafts() == [], "a refusal leaves the output")
    tink("decrypt", "-k", "keys.json", "--aad", "notes of May", "-o", "opened", "bound")
    check(read("opened") == TEXT, "an output that exists is replaced")
    tink("encrypt", "-k", "keys.json", "-o", "text", "text")
    check(tink("decrypt", "-k", "keys.json", "text") == TEXT, "a file onto itself")
    write("text", TEXT)
    tink("encrypt", "-k", "keys.json", "-o", "empty", "/dev/null")
    check(tink("decrypt", "-k", "keys.json", "empty") == b"", "an empty text")


def damage():
    sealed = tink("encrypt", "-k", "keys.bin", stdin=TEXT)
    primary = "keys.bin"
    for name, data, status in (("cut", sealed[:-1], 22), ("short", sealed[:9000], None), ("flipped", sealed[:9000] + bytes([sealed[9000] ^ 1]) + sealed[9001:], 22)):
        write(name, data)
        done = subprocess.run([PROGRAM, "decrypt", "-k", primary, "-o", "whole", name], capture_output=True)
        check(done.returncode in (22, 23) and (status is None or done.returncode == status), f"{name}: {done}")
        check(not os.path.exists("whole") and drafts() == [], "nothing of a damaged stream is shown")
        done = subprocess.run([PROGRAM, "decrypt", "-k", primary, name], capture_output=True)
        check(done.returncode in (22, 23) and TEXT.startswith(done.stdout) and done.stdout != TEXT, "a prefix on standard output")
    tink("decrypt", "-k", primary, "-o", "whole", "/dev/null", status=21)


def rewraps():
    tink("new", "AES128_GCM_HKDF_4KB", "-o", "later.json")
    for keys in ("keys.json", "keys.bin"):
        sealed = tink("encrypt", "-k", keys, "--aad", "May", stdin=TEXT)
        write("old", sealed)
        write("moved", b"what was there")
        tink("rewrap", "-k", keys, "--aad", "May", "-t", "later.json", "--to-aad", "June", "-o", "moved", "old")
        check(mode("moved") == mode("text") and read("old") == sealed, "a moved file keeps the mode of the one that it replaces")
        check(tink("decrypt", "-k", "later.json", "--aad", "June", "moved") == TEXT, "a stream is moved")
        tink("decrypt", "-k", "later.json", "--aad", "May", "moved", status=21)
        tink("decrypt", "-k", keys, "--aad", "May", "moved", status=21)
        moved = tink("rewrap", "--keys", keys, "--aad", "May", "--to", "later.json", stdin=sealed)
        check(tink("decrypt", "-k", "later.json", stdin=moved) == TEXT, "by pipes, and without data where none is given")
        tink("rewrap", "-k", keys, "--aad", "May", "-t", "later.json", "-o", "old", "old")
        check(tink("decrypt", "-k", "later.json", "old") == TEXT, "a stream onto itself")
        for name, data in (("cut", sealed[:-1]), ("flipped", sealed[:-20] + bytes([sealed[-20] ^ 1]) + sealed[-19:])):
            write(name, data)
            done = subprocess.run([PROGRAM, "rewrap", "-k", keys, "--aad", "May", "-t", "later.json", "-o", "whole", name], capture_output=True)
            check(done.returncode in (21, 22, 23) and f"tink: {name}: ".encode() in done.stderr, f"{name}: {done}")
            check(not os.path.exists("whole") and drafts() == [], "nothing of a damaged stream is shown")
            done = subprocess.run([PROGRAM, "rewrap", "-k", keys, "--aad", "May", "-t", "later.json", name], capture_output=True)
            check(done.returncode in (21, 22, 23), f"{name}: {done}")
            opened = subprocess.run([PROGRAM, "decrypt", "-k", "later.json"], input=done.stdout, capture_output=True)
            check(opened.returncode in (21, 22, 23), "what is left of it has no end")
    sealed = tink("encrypt", "-k", "keys.json", stdin=TEXT)
    write("old", sealed)
    write("moved", b"what was there")
    rewrap = ("rewrap", "-o", "moved", "old")
    tink(*rewrap, "-k", "keys.json", "-t", "prose", status=13, says="prose: bad keyset")
    tink(*rewrap, "-k", "prose", "-t", "later.json", status=13, says="prose: bad keyset")
    tink(*rewrap, "-k", "keys.json", "-t", "broken.json", status=30, says="broken.json: bad json")
    tink(*rewrap, "-k", "keys.json", "-t", "aead.json", status=18, says="aead.json: wrong primitive")
    tink(*rewrap, "-k", "aead.json", "-t", "later.json", status=18, says="aead.json: wrong primitive")
    tink("new", "HMAC_SHA256_128BITTAG", "-o", "mac.json")
    tink(*rewrap, "-k", "aead.json", "-t", "mac.json", status=18, says="aead.json: wrong primitive")
    write("unkeyed", b"")
    tink(*rewrap, "-k", "keys.json", "-t", "unkeyed", status=14, says="unkeyed: ")
    tink(*rewrap, "-k", "unkeyed", "-t", "later.json", status=14, says="unkeyed: ")
    tink(*rewrap, "-k", "keys.json", "-t", "none", status=11, says="none: there is no such file")
    tink(*rewrap, "-k", "later.json", "-t", "keys.json", status=21, says="old: no key of later.json opens this stream")
    tink("rewrap", "-k", "keys.json", "-t", "later.json", "-o", "moved", "none", status=11, says="none: there is no such file")
    tink(*rewrap, "-k", "keys.json", status=2)
    tink(*rewrap, "-k", "keys.json", "-t", "later.json", "-t", "later.json", status=2)
    check(read("moved") == b"what was there" and drafts() == [], "a refusal leaves the output")
    spaced = "a folder with spaces/moved to June"
    tink("rewrap", "-k", "keys.json", "-t", "later.json", "-o", spaced, "old")
    check(tink("decrypt", "-k", "later.json", spaced) == TEXT, "names with spaces")


def token_of(keys, payload):
    """The token of a payload by the primary key of a file in JSON, which is one of HMAC-SHA256 with a tag of 16 bytes."""
    keyset = json.loads(read(keys))
    key = [key for key in keyset["key"] if key["keyId"] == keyset["primaryKeyId"]][0]
    value = base64.b64decode(key["keyData"]["value"])
    body = base64.urlsafe_b64encode(payload).rstrip(b"=")
    tag = hmac.new(value[-32:], body, "sha256").digest()[:16]
    mac = b"\x01" + int(key["keyId"]).to_bytes(4, "big") + tag
    return body + b"." + base64.urlsafe_b64encode(mac).rstrip(b"=")


def tokens():
    tink("new", "HMAC_SHA256_128BITTAG", "-o", "macs.json")
    tink("new", "HMAC_SHA256_128BITTAG", "-o", "others.bin", "--format", "binary")
    payload = b"a release, and its sum\n" * 100
    write("payload", payload)
    tink("sign", "-k", "macs.json", "-o", "token", "payload")
    token = read("token")
    check(mode("token") == 0o600 and token == token_of("macs.json", payload), "a token is that of its bytes")
    write("given", b"what was there")
    tink("verify", "-k", "macs.json", "-o", "given", "token")
    check(read("given") == payload and mode("given") == mode("payload"), "a payload comes back, and its file keeps its mode")
    check(tink("sign", "--keys", "macs.json", stdin=payload) == token, "by pipes")
    check(tink("verify", "-k", "macs.json", "-", stdin=token) == payload, "a dash")
    check(tink("verify", "-k", "others.bin", stdin=tink("sign", "-k", "others.bin", "/dev/null")) == b"", "an empty payload")
    tink("rotate", "macs.json", "HMAC_SHA256_128BITTAG")
    check(tink("verify", "-k", "macs.json", "token") == payload, "a rotation keeps its tokens")
    check(tink("sign", "-k", "macs.json", "payload") == token_of("macs.json", payload) != token, "the new key signs")
    write("given", b"what was there")
    verify = ("verify", "-o", "given")
    tink(*verify, "-k", "others.bin", "token", status=28, says="token: mac mismatch")
    for place in (0, len(token) // 2, len(token) - 2):
        changed = bytes([token[place] ^ 1]) if token[place] ^ 1 in b"ABCDEFGHIJKLMNOPQRSTUVWXYZabcdefghijklmnopqrstuvwxyz0123456789-_" else b"Q"
        write("changed", token[:place] + changed + token[place + 1:])
        tink(*verify, "-k", "macs.json", "changed", status=28, says="changed: mac mismatch")
    write("cut", token[:-1])
    done = subprocess.run([PROGRAM, *verify, "-k", "macs.json", "cut"], capture_output=True)
    check(done.returncode in (27, 28), f"a cut token: {done}")
    # An editor or `echo` ends a file by a newline: one is not part of the token.
    write("edited", token + b"\n")
    check(tink("verify", "-k", "macs.json", "edited") == payload, "a newline behind a token")
    check(tink("verify", "-k", "macs.json", stdin=token + b"\n") == payload, "a newline behind a token on standard input")
    for behind in (b"\n\n", b"\r\n", b" ", b" \n", b"\nx", b"."):
        write("edited", token + behind)
        tink(*verify, "-k", "macs.json", "edited", status=27, says="edited: bad token")
    for data in (b"\n", b"\n" + token, token[:9] + b"\n" + token[9:]):
        tink(*verify, "-k", "macs.json", status=27, stdin=data, says="standard input: bad token")
    tink("verify", "-k", "others.bin", "-o", "nothing", stdin=tink("sign", "-k", "others.bin", "/dev/null") + b"\n")
    check(read("nothing") == b"", "a newline behind the token of an empty payload")
    tink(*verify, "-k", "macs.json", "payload", status=27, says="payload: bad token")
    tink(*verify, "-k", "macs.json", "/dev/null", status=27, says="bad token")
    with open("long", "wb") as file:
        file.truncate(2**24 + 1)
    tink("sign", "-k", "macs.json", "-o", "given", "long", status=26, says="long: input too long")
    tink(*verify, "-k", "macs.json", "long", status=26, says="long: input too long")
    # The token of the longest payload has as many bytes as `verify` reads. One byte more is refused, and nothing is written.
    most = 12_582_890
    write("long", bytes(most))
    tink("sign", "-k", "macs.json", "-o", "token of long", "long")
    check(os.path.getsize("token of long") == 2**24, "the longest token")
    check(tink("verify", "-k", "macs.json", "token of long") == bytes(most), "the longest token is verified")
    os.remove("token of long")
    write("long", bytes(most + 1))
    says = "long: input too long: its token has more than 16,777,216 bytes"
    tink("sign", "-k", "macs.json", "-o", "given", "long", status=26, says=says)
    tink("sign", "-k", "macs.json", "-o", "token of long", "long", status=26, says=says)
    check(not os.path.exists("token of long"), "no file of a token that is too long")
    check(tink("sign", "-k", "macs.json", "long", status=26, says=says) == b"", "nothing of a token that is too long")
    os.remove("long")
    tink("sign", "-k", "keys.json", "-o", "given", "payload", status=18, says="keys.json: wrong primitive")
    tink("sign", "-k", "prose", "-o", "given", "payload", status=13, says="prose: bad keyset")
    tink("encrypt", "-k", "macs.json", "-o", "given", "payload", status=18, says="macs.json: wrong primitive")
    tink("sign", "-k", "macs.json", "-o", "given", "none", status=11, says="none: there is no such file")
    tink("sign", "-k", "macs.json", "--aad", "x", "payload", status=2)
    check(read("given") == b"what was there" and drafts() == [], "a refusal leaves the output")
    spaced = "a folder with spaces/the token of today"
    tink("sign", "-k", "macs.json", "-o", spaced, "payload")
    check(tink("verify", "-k", "macs.json", spaced) == payload, "names with spaces")


def ranges():
    tink("new", "AES256_GCM_HKDF_4KB", "-o", "gcm.json")
    tink("new", "AES128_CTR_HMAC_SHA256_4KB", "-o", "ctr.json")
    draw = random.Random(7)
    for keys in ("gcm.json", "ctr.json", "keys.json"):
        for size in (0, 1, 4000, len(TEXT)):
            text = TEXT[:size]
            write("text of it", text)
            tink("encrypt", "-k", keys, "--aad", "May", "-o", "sealed", "text of it")
            places = [(0, 0), (0, 1), (0, size), (1, 2**64 - 1), (2**64 - 1, 2**64 - 1), (size, 1), (size + 1, 1)]
            if size > 4000:
                places += [(4055, 2), (4000, 100), (size - 1, 1), (size - 1, 5), (8000, 9000)]
                places += [(draw.randrange(size), draw.randrange(size)) for _ in range(12)]
            for start, length in places:
                given = tink("range", "-k", keys, "--aad", "May", "--start", str(start), "--length", str(length), "sealed")
                check(given == text[start:start + length], f"{length} bytes from {start} on of {size} under {keys}")
        write("given", b"what was there")
        some = ("range", "-k", keys, "--aad", "May", "--start", "5000", "--length", "7000", "-o", "given")
        tink(*some, "sealed")
        check(read("given") == TEXT[5000:12000] and mode("given") == mode("text of it"), "a range into a file, which keeps its mode")
        sealed = read("sealed")
        spaced = "a folder with spaces/a sealed one"
        write(spaced, sealed)
        check(tink(*some[:-2], spaced) == TEXT[5000:12000], "names with spaces")
        write("given", b"what was there")
        for name, data in (("cut", sealed[:-1]), ("short", sealed[:9000]), ("shorter", sealed[:10]), ("nothing", b"")):
            write(name, data)
            for extra in (("-o", "given"), ()):
                done = subprocess.run([PROGRAM, *some[:-2], *extra, name], capture_output=True)
                check(done.returncode in (21, 22, 23) and done.stdout == b"", f"a cut file gives nothing: {name} {done}")
        write("flipped", sealed[:6000] + bytes([sealed[6000] ^ 1]) + sealed[6001:])
        if keys != "keys.json":
            tink(*some, "flipped", status=22, says="flipped: bad segment 1")
            check(tink(*some[:5], "--start", "9000", "--length", "9", "flipped") == TEXT[9000:9009], "what it touches")
        tink(*some[:3], *some[5:], "sealed", status=21, says=f"sealed: no key of {keys} opens this stream")
        check(read("given") == b"what was there" and drafts() == [], "a refusal leaves the output")
    some = ("range", "-k", "keys.json", "--aad", "May", "--start", "0", "--length", "9")
    tink(*some, "-o", "given", "none", status=11, says="none: there is no such file")
    tink(*some, "-o", "given", "folder", status=11, says="folder: it is a folder")
    tink("info", "-k", "keys.json", "folder", status=11, says="folder: it is a folder")
    tink(*some, "/dev/null", status=11, says="no regular file")
    tink(*some, "-", status=2, says="standard input: a range is read of a file")
    tink(*some, status=2)
    tink("range", "-k", "prose", "--start", "0", "--length", "9", "sealed", status=13, says="prose: bad keyset")
    tink("range", "-k", "macs.json", "--start", "0", "--length", "9", "sealed", status=18, says="macs.json: wrong primitive")
    for word in ("", "-1", "+1", "1e3", " 1", "0x1", "1.0", str(2**64), "9" * 30):
        tink("range", "-k", "keys.json", "--start", word, "--length", "9", "sealed", status=2)
        tink("range", "-k", "keys.json", "--start", "0", "--length", word, "sealed", status=2)
    tink("range", "-k", "keys.json", "--start", "0", "sealed", status=2)
    tink("range", "-k", "keys.json", "--length", "0", "sealed", status=2)
    check(read("given") == b"what was there" and drafts() == [], "a refusal leaves the output")


def large(size=1 << 30):
    """A text of that many bytes goes through two pipes."""
    tink("new", "AES256_GCM_HKDF_1MB", "-o", "large.json")
    piece = hashlib.sha256(b"piece").digest() * 32768
    begun = time.time()
    seal = subprocess.Popen([PROGRAM, "encrypt", "-k", "large.json"], stdin=subprocess.PIPE, stdout=subprocess.PIPE)
    unseal = subprocess.Popen([PROGRAM, "decrypt", "-k", "large.json"], stdin=seal.stdout, stdout=subprocess.PIPE)
    seal.stdout.close()
    child = os.fork()
    if child == 0:
        unseal.stdout.close()
        for _ in range(size // len(piece)):
            seal.stdin.write(piece)
        seal.stdin.close()
        os._exit(0)
    seal.stdin.close()
    want, got, count = hashlib.sha256(), hashlib.sha256(), 0
    while data := unseal.stdout.read(1 << 20):
        got.update(data)
        count += len(data)
    for _ in range(size // len(piece)):
        want.update(piece)
    os.waitpid(child, 0)
    check(seal.wait() == 0 and unseal.wait() == 0 and count == size and got.digest() == want.digest(), "a large text")
    return f"{size >> 20} MiB through two pipes in {time.time() - begun:.0f} s"
