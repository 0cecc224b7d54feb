#!/usr/bin/env bash
# Prints the most memory that a seal and an open held, over texts of 1 MiB, 64 MiB and 1 GiB and under segments of
# 4 KiB and 1 MiB. The text goes through a pipe to the seal, its stream to the open, and what that writes is compared
# with the text. docs/BENCHMARKS.md says what is measured. First proves and builds what is due.
set -euo pipefail
root=$(dirname -- "$(dirname -- "$(readlink -f -- "${BASH_SOURCE[0]}")")")
program=$(TINK_BUILD=1 "$root/tink")
python3 - "$program" "$root/examples" <<'PY'
import hashlib, re, subprocess, sys, threading, time

tool, examples = sys.argv[1:]
SEED = bytes(range(32)).hex()
SEGMENTS = {"4 KiB": "keyset.hex", "1 MiB": "keyset-1mib.hex"}
TEXTS = {"1 MiB": 1, "64 MiB": 64, "1 GiB": 1024}


def peak(process):
    """The most memory that a running process held, in KiB."""
    try:
        with open(f"/proc/{process.pid}/status") as it:
            found = re.search(r"VmHWM:\s+(\d+)", it.read())
    except OSError:
        found = None
    return int(found[1]) if found else 0


def digest_of(pipe, digest):
    while piece := pipe.read(1 << 16):
        digest.update(piece)


def peaks(keyset, mib):
    seal = subprocess.Popen([tool, "seal", keyset, "-", SEED], stdin=subprocess.PIPE, stdout=subprocess.PIPE)
    opened = subprocess.Popen([tool, "open", keyset, "-"], stdin=seal.stdout, stdout=subprocess.PIPE)
    seal.stdout.close()
    text, written = hashlib.sha256(), hashlib.sha256()
    reading = threading.Thread(target=digest_of, args=(opened.stdout, written))
    reading.start()
    most = [0, 0]

    def look():
        most[:] = [max(old, peak(process)) for old, process in zip(most, (seal, opened))]

    for number in range(mib):
        piece = number.to_bytes(8, "big") * (1 << 17)
        text.update(piece)
        seal.stdin.write(piece)
        look()
    seal.stdin.close()
    while seal.poll() is None or opened.poll() is None:
        look()
        time.sleep(0.001)
    reading.join()
    assert seal.returncode == opened.returncode == 0
    assert text.digest() == written.digest()
    return most


found = {}
for segment, name in SEGMENTS.items():
    with open(f"{examples}/{name}") as it:
        keyset = it.read().strip()
    for label, mib in TEXTS.items():
        found[segment, label] = peaks(keyset, mib)
print("| text | " + " | ".join(f"{work}, {segment} segments" for segment in SEGMENTS for work in ("seal", "open")) + " |")
print("|---" * (1 + 2 * len(SEGMENTS)) + "|")
for label in TEXTS:
    print(f"| {label} | " + " | ".join(f"{it:,} KiB" for segment in SEGMENTS for it in found[segment, label]) + " |")
PY
