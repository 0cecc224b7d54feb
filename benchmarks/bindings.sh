#!/usr/bin/env bash
# Times calls of the library from C and Python, beside GCM of the proved library itself, the encryption and decryption of 64 MiB
# beside those of the program, and ranges of 4 KiB of a stream of 1 MiB. All are the best of five rounds, or of as many as the first word says. docs/BENCHMARKS.md
# says what is measured. The second word is the folder of libtink.a and libtink.so, the third is the program, and the fourth is
# that of crates/bench_speed. Without them they are proved and built first. It needs a C compiler and python3.
set -euo pipefail
root=$(dirname -- "$(dirname -- "$(readlink -f -- "${BASH_SOURCE[0]}")")")
rounds=${1:-5}
library=${2:-$root/bindings/out}
if [[ $# -lt 2 ]]; then make -s -C "$root" lib >&2; fi
if [[ $# -lt 4 ]]; then
    . "$root/benchmarks/programs"
    built_for x86-64-v2
fi
program=${3:-$program}
hasher=${4:-$hasher}
folder=$(mktemp -d)
trap 'rm -rf "$folder"' EXIT
${CC:-cc} -O2 -Wall -Wextra -I"$root/bindings/c" "$root/benchmarks/bindings.c" "$library/libtink.a" -o "$folder/calls"
export TINK_LIBRARY=$library/libtink.so PYTHONPATH=$root/bindings/python
python3 - "$program" "$rounds" "$folder" "$hasher" <<'PY'
import io, re, subprocess, sys, time

import tink_proved
from tink_proved import Aead, Keyset, RangeReader, StreamReader

program, rounds, folder, hasher = sys.argv[1], int(sys.argv[2]), sys.argv[3], sys.argv[4]
MIB = 1 << 20
SIZE = 64 * MIB


def best(work):
    times = []
    for _ in range(rounds):
        start = time.perf_counter()
        work()
        times.append(time.perf_counter() - start)
    return min(times)


def run(*words):
    subprocess.run(words, check=True, stdout=subprocess.DEVNULL)


def in_c(what, keys, size, calls):
    """Seconds of one call in C, by the best round."""
    words = [f"{folder}/calls", what, keys, str(size), str(calls), str(rounds)]
    return float(subprocess.run(words, check=True, stdout=subprocess.PIPE, text=True).stdout)


def write(name, data):
    with open(f"{folder}/{name}", "wb") as file:
        file.write(data)
    return f"{folder}/{name}"


def calls():
    """One value: GCM of the library itself under a kept key, then an object, a call by the bytes of a keyset, and Python."""
    keyset = Keyset.create("AES128_GCM")
    keys, aead = write("aead", bytes(keyset)), Aead(keyset)
    said = subprocess.run([hasher, "seals"], check=True, stderr=subprocess.PIPE, text=True, stdin=subprocess.DEVNULL).stderr
    own = {int(size): int(ns) / 1e9 for size, ns in re.findall(r"^(\d+) bytes: GCM (\d+) ns", said, re.M)}
    for size, count in ((64, 4000), (4096, 2000), (65536, 200)):
        text, told = bytes(size), {"the library's own": own[size]}
        told["C, an object"] = in_c("object", keys, size, count)
        told["C, a keyset"] = in_c("encrypt", keys, size, count)
        told["Python, an object"] = best(lambda: [aead.encrypt(text) for _ in range(count)]) / count
        for name, seconds in told.items():
            print(f"encrypt {size:6} bytes, {name + ':':18} {seconds * 1e6:8.2f} us a call, {seconds / own[size]:6.2f}")


def write_pieces(keyset, data):
    """A writer that takes pieces of 64 KiB, into a file that keeps nothing."""
    with open("/dev/null", "wb", buffering=0) as file, tink_proved.encrypting_writer(file, keyset) as writer:
        for at in range(0, len(data), 65536):
            writer.write(data[at : at + 65536])


def read_pieces(keyset, stream):
    """A reader whose text is read in pieces of 64 KiB, which are not kept."""
    with StreamReader(io.BytesIO(stream), keyset) as reader:
        place = bytearray(65536)
        while reader.readinto(place):
            pass


def streams():
    keyset = Keyset.create("AES256_GCM_HKDF_1MB")
    keys, text = write("streams", bytes(keyset)), write("text", bytes(SIZE))
    sealed = tink_proved.seal_stream(keyset, bytes(SIZE))
    stream = write("stream", sealed)
    for what, source, own in (("encrypt", text, "seal"), ("decrypt", stream, "open")):
        its = best(lambda: run(program, what, "-k", keys, source, "-o", "/dev/null"))
        c = in_c(own, keys, SIZE, 1)
        data = bytes(SIZE) if own == "seal" else sealed
        call = tink_proved.seal_stream if own == "seal" else tink_proved.open_stream
        python = best(lambda: call(keyset, data))
        told = {"program": its, "C": c, "Python": python}
        if own == "seal":
            told["C, a writer"] = in_c("write", keys, SIZE, 1)
            told["Python, a writer"] = best(lambda: write_pieces(keyset, data))
        else:
            told["C, a reader"] = in_c("read", keys, SIZE, 1)
            told["Python, a reader"] = best(lambda: read_pieces(keyset, data))
        for name, seconds in told.items():
            print(f"{what} 64 MiB, {name + ':':17} {SIZE / MIB / seconds:7.0f} MiB/s, {its / seconds:5.2f} of the program")


def one_range(reader, place):
    reader.seek(place)
    reader.read(4096)


def ranges():
    """A range of 4 KiB in the middle of a stream of 1 MiB: by the bytes of a keyset, and under keys that are loaded once."""
    keyset, count = Keyset.create("AES128_GCM_HKDF_4KB"), 500
    keys, stream = write("ranges", bytes(keyset)), tink_proved.seal_stream(keyset, bytes(MIB))
    reader, place = RangeReader(keyset, stream), len(stream) // 2
    told = {"C, a keyset": in_c("range", keys, MIB, count), "C, a reader": in_c("ranges", keys, MIB, count)}
    told["Python, a keyset"] = best(lambda: [tink_proved.read_range(keyset, stream, b"", place, 4096) for _ in range(count)]) / count
    told["Python, a reader"] = best(lambda: [one_range(reader, place) for _ in range(count)]) / count
    for name, seconds in told.items():
        print(f"range 4 KiB, {name + ':':17} {seconds * 1e6:8.2f} us, {seconds / told['C, a keyset']:5.2f} of the keyset's in C")


calls()
streams()
ranges()
PY
