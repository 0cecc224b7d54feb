#!/usr/bin/env bash
# Times the kit's SHA-256, sealing, opening and moving streams side by side, over texts of 16 and 64 MiB, under keys of
# both kinds, and what OpenSSL does without the processor's instructions for AES and SHA. All figures are by processor
# time, the least of three rounds, or of as many as the first word says. docs/BENCHMARKS.md says what is measured.
# First proves and builds what is due. CPU names the processor, as for ./tink. It needs python3; without openssl its
# lines are left out.
set -euo pipefail
root=$(dirname -- "$(dirname -- "$(readlink -f -- "${BASH_SOURCE[0]}")")")
. "$root/benchmarks/programs"
built_for
folder=$(mktemp -d)
trap 'rm -rf "$folder"' EXIT
python3 - "$program" "$hasher" "${1:-3}" "$folder" <<'PY'
import hashlib, os, resource, shutil, subprocess, sys

tool, hasher, rounds, folder = sys.argv[1], sys.argv[2], int(sys.argv[3]), sys.argv[4]
SEED, MIB = bytes(range(32)).hex(), 1 << 20
TEMPLATES = [f"AES{size}_{kind}_{segment}" for kind in ("CTR_HMAC_SHA256", "GCM_HKDF") for size in (128, 256) for segment in ("4KB", "1MB")]
best = {}


def out(*words, text=None, **env):
    return subprocess.run(words, input=text, stdout=subprocess.PIPE, stderr=subprocess.DEVNULL, check=True, env={**os.environ, **env}).stdout


def processor_time():
    spent = resource.getrusage(resource.RUSAGE_CHILDREN)
    return spent.ru_utime + spent.ru_stime


def timed(name, words, file):
    """Runs the words with standard output dropped, and keeps the least processor time under the name."""
    with open(file, "rb") as text:
        before = processor_time()
        subprocess.run(words, stdin=text, stdout=subprocess.DEVNULL, stderr=subprocess.DEVNULL, check=True)
        took = processor_time() - before
    best[name] = min(took, best.get(name, took))


def seal_of(template):
    return [tool, "seal", keys[template], "-", SEED]


def open_of(template):
    return [tool, "open", keys[template], "-"]


def rewrap_of(template):
    return [tool, "rewrap", keys[template], "-", keys[template], "aa", SEED]


keys = {it: out(tool, "keygen", it, SEED).decode().strip() for it in TEMPLATES}
lines = b"".join(b"%d\n" % it for it in range(10**8, 10**8 + 64 * MIB // 10 + 1))
for size in (16, 64):
    text = lines[: size * MIB]
    with open(f"{folder}/{size}", "wb") as it:
        it.write(text)
    assert out(hasher, text=text).decode().split()[0] == hashlib.sha256(text).hexdigest()
    for template in TEMPLATES:
        stream = out(*seal_of(template), text=text)
        assert out(*open_of(template), text=stream) == text
        assert out(*open_of(template)[:-1], "aa", text=out(*rewrap_of(template), text=stream)) == text
        with open(f"{folder}/{size}.{template}", "wb") as it:
            it.write(stream)
open(f"{folder}/0", "wb").close()

for _ in range(rounds):
    timed("nothing", ["true"], f"{folder}/0")
    for size in (16, 64):
        timed(f"sha.{size}", [hasher], f"{folder}/{size}")
        for template in TEMPLATES:
            timed(f"seal.{template}.{size}", seal_of(template), f"{folder}/{size}")
            timed(f"open.{template}.{size}", open_of(template), f"{folder}/{size}.{template}")
            timed(f"rewrap.{template}.{size}", rewrap_of(template), f"{folder}/{size}.{template}")
for _ in range(50):
    timed("nothing", ["true"], f"{folder}/0")
    timed("empty", seal_of(TEMPLATES[0]), f"{folder}/0")


def speed(name):
    return 64 * MIB / best[f"{name}.64"] / 1e6


def growth(name):
    return best[f"{name}.64"] / best[f"{name}.16"]


sha = speed("sha")
print("| work | MB/s | part of SHA-256's speed | time of 64 MiB / time of 16 MiB |")
print("|---|---|---|---|")
print(f"| SHA-256 of the kit | {sha:.0f} | 1.00 | {growth('sha'):.2f} |")
for template in TEMPLATES:
    for way in ("seal", "open", "rewrap"):
        name = f"{way}.{template}"
        print(f"| {way}, {template} | {speed(name):.0f} | {speed(name) / sha:.2f} | {growth(name):.2f} |")
print("\n| keys, 64 MiB, processor time | seal, s | rewrap, s | speed of a rewrap as a part of a seal's |")
print("|---|---|---|---|")
for template in TEMPLATES:
    seal, rewrap = (best[f"{way}.{template}.64"] for way in ("seal", "rewrap"))
    print(f"| {template} | {seal:.2f} | {rewrap:.2f} | {seal / rewrap:.2f} |")
print(f"\nThe programs are for {'x86-64-v3' if 'x86-64-v3' in tool else 'x86-64-v2'}. A seal of no text takes {best['empty'] * 1000:.2f} ms, a program that does nothing {best['nothing'] * 1000:.2f} ms.")

if shutil.which("openssl"):
    # No AES, no carry-less products, no SHA by instructions of the processor.
    plain = {"OPENSSL_ia32cap": "~0x200000200000000:~0x20000000"}

    def openssl(cipher, size):
        """MB/s of a second's calls by the processor time of the process, less that of a start: the best of the rounds."""
        speeds = []
        for _ in range(rounds):
            start = processor_time()
            out("openssl", "version", **plain)
            before = processor_time()
            words = ["openssl", "speed", "-mr", "-seconds", "1", "-bytes", str(size), "-evp", cipher]
            lines = subprocess.run(words, stdout=subprocess.PIPE, stderr=subprocess.STDOUT, text=True, check=True, env={**os.environ, **plain}).stdout.split("\n")
            took = processor_time() - before - (before - start)
            calls = int(next(it for it in lines if it.startswith("+R:")).split(":")[1])
            speeds.append(calls * size / took / 1e6)
        return max(speeds)

    hashed = openssl("sha256", 4096)
    print("\n| OpenSSL without the processor's instructions, 4,096 bytes a call | MB/s | seal under the same cipher as a part of it |")
    print("|---|---|---|")
    for size in (128, 256):
        ctr, gcm = openssl(f"aes-{size}-ctr", 4096), openssl(f"aes-{size}-gcm", 4096)
        both = 1 / (1 / ctr + 1 / hashed)
        print(f"| AES-{size}-CTR at {ctr:.0f} and SHA-256 at {hashed:.0f}, one after the other | {both:.0f} | {speed(f'seal.AES{size}_CTR_HMAC_SHA256_4KB') / both:.2f} |")
        print(f"| AES-{size}-GCM | {gcm:.0f} | {speed(f'seal.AES{size}_GCM_HKDF_4KB') / gcm:.2f} |")
PY
