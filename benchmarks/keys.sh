#!/usr/bin/env bash
# Times the opening of a stream under a keyset of many enabled raw keys, of which the last one made it, and prints
# what a key costs beside what a segment costs: the best of five rounds, or of as many as the first word says.
# docs/BENCHMARKS.md says what is measured. First proves and builds what is due. It needs gcc and python3.
set -euo pipefail
root=$(dirname -- "$(dirname -- "$(readlink -f -- "${BASH_SOURCE[0]}")")")
program=$(TINK_BUILD=1 "$root/tink")
folder=$(mktemp -d)
trap 'rm -rf "$folder"' EXIT
gcc -O1 -shared -fPIC -Wall -o "$folder/words.so" "$root/benchmarks/words.c" -ldl
python3 - "$program" "${1:-5}" "$folder" <<'PY'
import os, subprocess, sys, time

tool, rounds, folder = sys.argv[1], int(sys.argv[2]), sys.argv[3]
URL = b"type.googleapis.com/google.crypto.tink.AesCtrHmacStreamingKey"
# Segments of 4,096 bytes, derived keys of 16, SHA-256 for both hashes, tags of 32.
PARAMS = bytes.fromhex("088020" "1010" "1803" "2204" "08031020")
KEYS, SEGMENTS = 1000, 1000
# A word of a command line has 128 KiB at most, which is the keyset of some 560 keys: the words come by a file.
BY_FILE = {**os.environ, "LD_PRELOAD": f"{folder}/words.so", "WORDS": f"{folder}/words"}


def varint(n):
    return bytes([n]) if n < 128 else bytes([n % 128 + 128]) + varint(n // 128)


def body(number, data):
    return varint(number * 8 + 2) + varint(len(data)) + data


def key(number):
    value = body(2, PARAMS) + body(3, number.to_bytes(16, "big"))
    data = body(1, URL) + body(2, value) + b"\x18\x01"
    return body(2, body(1, data) + b"\x10\x01\x18" + varint(number) + b"\x20\x03")


def keyset(count):
    """The last of the keys is the primary one, so that it seals."""
    return (b"\x08" + varint(1000) + b"".join(key(1000 - count + 1 + i) for i in range(count))).hex()


def run(words, text):
    with open(f"{folder}/words", "w") as it:
        it.write("".join(word + "\0" for word in words))
    return subprocess.run([tool], input=text, stdout=subprocess.PIPE, check=True, env=BY_FILE).stdout


def microseconds(count, stream, text):
    best = None
    for _ in range(rounds):
        start = time.perf_counter()
        opened = run(["open", keysets[count], "-"], stream)
        took = (time.perf_counter() - start) * 1e6
        assert opened == text
        best = took if best is None else min(best, took)
    return best


keysets = {count: keyset(count) for count in (1, KEYS)}
seed = bytes(range(32)).hex()
texts = [bytes(4040), bytes(4040 + (SEGMENTS - 1) * 4064)]
short, long = [run(["seal", keysets[1], "-", seed], text) for text in texts]
one, many = microseconds(1, short, texts[0]), microseconds(KEYS, short, texts[0])
segments = microseconds(1, long, texts[1])
per_key, per_segment = (many - one) / (KEYS - 1), (segments - one) / (SEGMENTS - 1)
print(f"opening one segment under 1 key: {one / 1000:.1f} ms, under {KEYS} keys of which the last made it: {many / 1000:.1f} ms")
print(f"a key that does not match: {per_key:.1f} us; a segment that is opened: {per_segment:.1f} us; ratio {per_key / per_segment:.2f}")
PY
