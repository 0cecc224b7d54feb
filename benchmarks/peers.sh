#!/usr/bin/env bash
# Times sealing beside the same work by Rust's own ciphers without the processor's instructions: AES-128 in counter
# mode by eight blocks (`aes`), and HMAC-SHA-256 (`hmac`, `sha2`) over segments of 4 KiB, from Debian's packages
# librust-aes-dev, librust-hmac-dev and librust-sha2-dev. Prints the least processor time of three rounds, or of as
# many as the first word says, and nothing but a sentence where cargo or a package is not there. It needs python3.
set -euo pipefail
root=$(dirname -- "$(dirname -- "$(readlink -f -- "${BASH_SOURCE[0]}")")")
registry=/usr/share/cargo/registry
for it in aes-0.6 hmac-0.12 sha2-0.10; do
    if ! compgen -G "$registry/$it*" >/dev/null || ! command -v cargo >/dev/null; then
        echo "there is no cargo, or no package with $it: nothing is compared"
        exit 0
    fi
done
program=$(TINK_BUILD=1 "$root/tink")
folder=$(mktemp -d)
trap 'rm -rf "$folder"' EXIT
mkdir -p "$folder/peer/src" "$folder/peer/.cargo"
cat >"$folder/peer/.cargo/config.toml" <<TOML
[source.crates-io]
replace-with = "debian"
[source.debian]
directory = "$registry"
TOML
cat >"$folder/peer/Cargo.toml" <<'TOML'
[package]
name = "peer"
version = "0.1.0"
edition = "2021"
[dependencies]
aes = "0.6"
hmac = "0.12"
sha2 = { version = "0.10", features = ["force-soft"] }
[profile.release]
lto = true
codegen-units = 1
TOML
cat >"$folder/peer/src/main.rs" <<'RUST'
use aes::cipher::{generic_array::GenericArray, BlockCipher, NewBlockCipher};
use aes::Aes128;
use hmac::{Hmac, Mac};
use sha2::{Digest, Sha256};
use std::io::{self, Read, Write};

const TEXT: usize = 4096 - 16;

// Xors the key stream of a segment, whose counter blocks begin with its number.
fn encipher(cipher: &Aes128, number: u32, text: &mut [u8]) {
    for (at, piece) in text.chunks_mut(128).enumerate() {
        let mut blocks = [GenericArray::from([0u8; 16]); 8];
        for (i, block) in blocks.iter_mut().enumerate() {
            block[7..11].copy_from_slice(&number.to_be_bytes());
            block[12..16].copy_from_slice(&((at * 8 + i) as u32).to_be_bytes());
        }
        cipher.encrypt_blocks((&mut blocks).into());
        for (block, bytes) in blocks.iter().zip(piece.chunks_mut(16)) {
            for (a, b) in bytes.iter_mut().zip(block) {
                *a ^= b;
            }
        }
    }
}

fn main() -> io::Result<()> {
    let seals = std::env::args().nth(1).as_deref() == Some("seal");
    let cipher = Aes128::new(&GenericArray::from([7u8; 16]));
    let keyed = Hmac::<Sha256>::new_from_slice(&[9u8; 32]).unwrap();
    let (mut input, mut output) = (io::stdin().lock(), io::BufWriter::with_capacity(65536, io::stdout().lock()));
    let mut digest = Sha256::new();
    let mut piece = vec![0u8; 16 * TEXT];
    let mut number = 0u32;
    loop {
        let mut n = 0;
        while n < piece.len() {
            match input.read(&mut piece[n..])? {
                0 => break,
                count => n += count,
            }
        }
        if n == 0 {
            break;
        }
        if !seals {
            digest.update(&piece[..n]);
            continue;
        }
        for text in piece[..n].chunks_mut(TEXT) {
            encipher(&cipher, number, text);
            let mut mac = keyed.clone();
            mac.update(&number.to_be_bytes());
            mac.update(text);
            output.write_all(text)?;
            output.write_all(&mac.finalize().into_bytes()[..16])?;
            number += 1;
        }
    }
    if !seals {
        output.write_all(&digest.finalize())?;
    }
    output.flush()
}
RUST
(cd "$folder/peer" && cargo build --release --offline >&2)
python3 - "$program" "$folder/peer/target/release/peer" "${1:-3}" "$folder" <<'PY'
import hashlib, resource, subprocess, sys

tool, peer, rounds, folder = sys.argv[1], sys.argv[2], int(sys.argv[3]), sys.argv[4]


def spent():
    """The processor time of all children so far."""
    it = resource.getrusage(resource.RUSAGE_CHILDREN)
    return it.ru_utime + it.ru_stime


SIZE, SEED = 64 << 20, bytes(range(32)).hex()
text = b"".join(b"%d\n" % it for it in range(10**8, 10**8 + SIZE // 10 + 1))[:SIZE]
with open(f"{folder}/text", "wb") as it:
    it.write(text)
assert subprocess.run([peer], input=text, stdout=subprocess.PIPE, check=True).stdout == hashlib.sha256(text).digest()
key = subprocess.run([tool, "keygen", "AES128_CTR_HMAC_SHA256_4KB", SEED], stdout=subprocess.PIPE, check=True).stdout.decode().strip()
works = {"SHA-256 of `sha2`": [peer], "AES-128-CTR and HMAC-SHA-256 of `aes`, `hmac`, `sha2`": [peer, "seal"], "seal, AES128_CTR_HMAC_SHA256_4KB": [tool, "seal", key, "-", SEED]}
best = {}
for _ in range(rounds):
    for name, words in works.items():
        with open(f"{folder}/text", "rb") as file:
            before = spent()
            subprocess.run(words, stdin=file, stdout=subprocess.DEVNULL, check=True)
            best[name] = min(spent() - before, best.get(name, 1e9))
peers = best["AES-128-CTR and HMAC-SHA-256 of `aes`, `hmac`, `sha2`"]
print("| work, 64 MiB | MB/s | speed as a part of that of Rust's ciphers |")
print("|---|---|---|")
for name, took in best.items():
    print(f"| {name} | {SIZE / took / 1e6:.0f} | {peers / took:.2f} |")
PY
