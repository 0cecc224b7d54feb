#!/usr/bin/env bash
# Times ranges of 4 KiB at random places of a sealed file of 256 MiB and of one of 1 GiB, each by one run of the program,
# and beside them runs that open one segment: the least time of three rounds, or of as many as the first word says.
# docs/BENCHMARKS.md says what is measured. First proves and builds what is due. It needs python3 and 3 GB of disk.
set -euo pipefail
root=$(dirname -- "$(dirname -- "$(readlink -f -- "${BASH_SOURCE[0]}")")")
program=$(TINK_BUILD=1 "$root/tink")
folder=$(mktemp -d)
trap 'rm -rf "$folder"' EXIT
python3 - "$program" "${1:-3}" "$folder" <<'PY'
import os, random, resource, subprocess, sys

tink, rounds, folder = sys.argv[1], int(sys.argv[2]), sys.argv[3]
RANGES, LENGTH = 1000, 4096


def run(*words):
    return subprocess.run([tink, *words], stdin=subprocess.DEVNULL, stdout=subprocess.PIPE, stderr=subprocess.PIPE, check=True).stdout


def processor_time():
    spent = resource.getrusage(resource.RUSAGE_CHILDREN)
    return spent.ru_utime + spent.ru_stime


def worked(times, words):
    """Returns the processor seconds of so many runs, each with the words of its number."""
    before = processor_time()
    for number in range(times):
        run(*words(number))
    return processor_time() - before


keys = f"{folder}/keys"
run("new", "AES128_GCM_HKDF_4KB", "-o", keys)
least = {}
for megabytes in (0, 256, 1024):
    text = os.urandom(1 << 20)
    with open(f"{folder}/text", "wb") as it:
        for _ in range(megabytes):
            it.write(text)
        if not megabytes:
            it.write(text[: LENGTH - 40])
    run("encrypt", "-q", "-k", keys, "-o", f"{folder}/{megabytes}", f"{folder}/text")
    os.remove(f"{folder}/text")
    size = megabytes << 20 or LENGTH - 40
    chosen = random.Random(megabytes)
    starts = [chosen.randrange(max(size - LENGTH, 1)) for _ in range(RANGES)]
    words = lambda number: ("range", "-q", "-k", keys, "--start", str(starts[number]), "--length", str(LENGTH), f"{folder}/{megabytes}")
    for number in range(3):
        got = run(*words(number))
        at = starts[number] % len(text)
        assert got == (text + text)[at : at + min(LENGTH, size - starts[number])], "another slice"
    for _ in range(rounds):
        took = worked(RANGES, words)
        least[megabytes] = min(took, least.get(megabytes, took))
print("| stream | one range of 4,096 bytes, ms of the processor |")
print("|---|---|")
for megabytes, took in least.items():
    print(f"| {f'{megabytes} MiB' if megabytes else 'one segment'} | {took / RANGES * 1000:.3f} |")
PY
