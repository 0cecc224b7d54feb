"""What the library makes is read by the program `tink`, and the other way round. The word is the program's path."""

import os
import subprocess
import sys
import tempfile
from pathlib import Path

sys.path.insert(0, str(Path(__file__).resolve().parents[2] / "bindings/python"))

from tink_proved import Aead, DeterministicAead, Keyset, Mac, Prf, WrongPrimitive  # noqa: E402
from tink_proved import RangeReader, StreamReader, encrypting_writer, open_stream, read_range, rewrap_stream  # noqa: E402
from tink_proved import seal_stream, sign_token, verify_token  # noqa: E402

PROGRAM = os.path.abspath(sys.argv[1])
checks = 0


def program(*words):
    subprocess.run([PROGRAM, *words], check=True, stdout=subprocess.DEVNULL)


def same(got, want):
    global checks
    assert got == want, (got, want)
    checks += 1


def write(name, data):
    Path(name).write_bytes(data)


def read(name):
    return Path(name).read_bytes()


def streams(text):
    keys, other = Keyset.create("AES256_GCM_HKDF_4KB"), Keyset.create("AES128_CTR_HMAC_SHA256_4KB")
    write("keys.json", bytes(keys)), write("other.json", bytes(other))

    write("ours", seal_stream(keys, text, b"data"))
    program("decrypt", "-k", "keys.json", "--aad", "data", "-o", "out1", "ours")
    same(read("out1"), text)
    program("encrypt", "-k", "keys.json", "--aad", "data", "-o", "theirs", "text")
    same(open_stream(keys, read("theirs"), b"data"), text)
    same(read_range(keys, read("theirs"), b"data", 5000, 300), text[5000:5300])
    with open("theirs", "rb") as file, StreamReader(file, keys, b"data") as reader:
        same(reader.read(), text)
    with RangeReader(keys, read("theirs"), b"data") as reader:
        same((reader.seek(5000), reader.read(300)), (5000, text[5000:5300]))
    for keyset, name in ((keys, "keys.json"), (other, "other.json")):
        with open("pieces", "wb") as file, encrypting_writer(file, keyset, b"data") as writer:
            for at in range(0, len(text), 777):
                writer.write(text[at : at + 777])
        program("decrypt", "-k", name, "--aad", "data", "-o", f"out of {name}", "pieces")
        same(read(f"out of {name}"), text)
    write("moved", rewrap_stream(keys, b"data", other, b"new", read("theirs")))
    program("decrypt", "-k", "other.json", "--aad", "new", "-o", "out2", "moved")
    same(read("out2"), text)


def use_mac(keys):
    Mac(keys).verify_mac(Mac(keys).compute_mac(b"text"), b"text")


USES = [
    lambda keys: same(Aead(keys).decrypt(Aead(keys).encrypt(b"text", b"data"), b"data"), b"text"),
    lambda keys: same(len(set(DeterministicAead(keys).encrypt_deterministically(b"text") for _ in "ab")), 1),
    lambda keys: same(open_stream(keys, seal_stream(keys, b"text")), b"text"),
    lambda keys: same(len(Prf(keys).compute(b"text", 16)), 16),
    use_mac,
]


def is_used(use, keys):
    try:
        use(keys)
        return True
    except WrongPrimitive:
        return False


def templates():
    """A key by each template of the program has exactly one use, and the random bytes that the wrappers draw are enough."""
    listed = subprocess.run([PROGRAM, "templates"], check=True, stdout=subprocess.PIPE, text=True).stdout.split()
    assert len(listed) > 20, listed
    for name in listed:
        keys = Keyset.create(name)
        same([is_used(use, keys) for use in USES].count(True), 1)
        write("by-library.json", bytes(keys))
        lines = subprocess.run([PROGRAM, "keys", "by-library.json"], check=True, stdout=subprocess.PIPE, text=True).stdout
        same(lines.split("\t")[0], str(keys.primary_id))
        program("add", "by-library.json", name)
        same(len(Keyset(read("by-library.json")).keys()), 2)


def main():
    templates()
    text = bytes(range(256)) * 100
    keys = Keyset.create("AES256_GCM_HKDF_4KB")
    write("keys.json", bytes(keys)), write("text", text)
    program("encrypt", "-k", "keys.json", "-o", "theirs", "text")
    program("rotate", "keys.json", "AES128_GCM_HKDF_4KB")
    rotated = Keyset(read("keys.json"))
    same([key.is_primary for key in rotated.keys()], [False, True])
    write("keys.json", bytes(rotated.promote(keys.primary_id)))
    program("decrypt", "-k", "keys.json", "-o", "out1", "theirs")
    same(read("out1"), text)
    streams(text)
    write("keys.json", bytes(keys))

    macs = Keyset.create("HMAC_SHA256_128BITTAG")
    write("macs.json", bytes(macs)), write("token", sign_token(macs, text))
    program("verify", "-k", "macs.json", "-o", "out3", "token")
    same(read("out3"), text)
    program("sign", "-k", "macs.json", "-o", "token2", "text")
    same(verify_token(macs, read("token2").strip()), text)

    master = Keyset.create("AES256_GCM")
    write("master.json", bytes(master)), write("wrapped", keys.wrap(master))
    program("unwrap", "-k", "master.json", "-o", "out4", "wrapped")
    same(Keyset(read("out4")).to_binary(), keys.to_binary())
    program("wrap", "-k", "master.json", "-o", "wrapped2", "keys.json")
    same(bytes(Keyset.unwrap(read("wrapped2"), master)), bytes(keys))
    print(f"with the program: {checks} checks")


with tempfile.TemporaryDirectory() as folder:
    os.chdir(folder)
    main()
