#!/usr/bin/env bash
# Times the two programs side by side, the one for x86-64-v2 and the one for x86-64-v3: SHA-256 of the kit, encryption
# and decryption of streams of 64 MiB, and an encryption of no text. Prints the least processor time of five rounds, or of
# as many as the first word says. docs/BENCHMARKS.md says what is measured. First proves and builds what is due.
# It needs python3, and a processor with the instructions of x86-64-v3.
set -euo pipefail
root=$(dirname -- "$(dirname -- "$(readlink -f -- "${BASH_SOURCE[0]}")")")
. "$root/benchmarks/programs"
both=()
for cpu in x86-64-v2 x86-64-v3; do
    built_for "$cpu"
    both+=("$program" "$hasher")
done
folder=$(mktemp -d)
trap 'rm -rf "$folder"' EXIT
python3 - "${1:-5}" "$folder" "${both[@]}" <<'PY'
import hashlib, resource, subprocess, sys

rounds, folder, programs = int(sys.argv[1]), sys.argv[2], [sys.argv[3:5], sys.argv[5:7]]
SIZE, SEED = 64 << 20, bytes(range(32)).hex()
TEMPLATES = ["AES128_GCM_HKDF_4KB", "AES256_GCM_HKDF_4KB", "AES128_CTR_HMAC_SHA256_4KB", "AES256_CTR_HMAC_SHA256_4KB"]
best = {}


def out(*words, text=b""):
    return subprocess.run(words, input=text, stdout=subprocess.PIPE, stderr=subprocess.DEVNULL, check=True).stdout


def timed(name, words, file, times=1):
    before = resource.getrusage(resource.RUSAGE_CHILDREN)
    for _ in range(times):
        with open(f"{folder}/{file}", "rb") as text:
            subprocess.run(words, stdin=text, stdout=subprocess.DEVNULL, stderr=subprocess.DEVNULL, check=True)
    after = resource.getrusage(resource.RUSAGE_CHILDREN)
    took = (after.ru_utime + after.ru_stime - before.ru_utime - before.ru_stime) / times
    best[name] = min(took, best.get(name, took))


text = b"".join(b"%d\n" % it for it in range(10**8, 10**8 + SIZE // 10 + 1))[:SIZE]
for name, held in (("text", text), ("empty", b"")):
    with open(f"{folder}/{name}", "wb") as it:
        it.write(held)
(tool, hasher), (newer, newer_hasher) = programs
keys = {it: out(tool, "keygen", it, SEED).decode().strip() for it in TEMPLATES}
digest = hashlib.sha256(text).hexdigest()
assert all(out(it, text=text).decode().split()[0] == digest for it in (hasher, newer_hasher))
for template, key in keys.items():
    stream = out(tool, "seal", key, "-", SEED, text=text)
    assert out(newer, "seal", key, "-", SEED, text=text) == stream, "another stream"
    assert out(newer, "open", key, "-", text=stream) == text
    with open(f"{folder}/{template}", "wb") as it:
        it.write(stream)
for _ in range(rounds):
    for number, (tool, hasher) in enumerate(programs):
        timed(("SHA-256 of the kit", number), [hasher], "text")
    for template, key in keys.items():
        for number, (tool, hasher) in enumerate(programs):
            timed((f"seal, {template}", number), [tool, "seal", key, "-", SEED], "text")
        for number, (tool, hasher) in enumerate(programs):
            timed((f"open, {template}", number), [tool, "open", key, "-"], template)
    for number, (tool, hasher) in enumerate(programs):
        timed(("seal of no text", number), [tool, "seal", keys[TEMPLATES[0]], "-", SEED], "empty", 20)
print("| work | x86-64-v2 | x86-64-v3 | |")
print("|---|---|---|---|")
for name in dict.fromkeys(name for name, _ in best):
    plain, newer = best[name, 0], best[name, 1]
    shown = [f"{it * 1000:.2f} ms" if it < 0.01 else f"{SIZE / it / 1e6:.0f} MB/s" for it in (plain, newer)]
    print(f"| {name} | {shown[0]} | {shown[1]} | {plain / newer:.2f} times as fast |")
PY
