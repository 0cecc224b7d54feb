"""AEADs, deterministic AEADs, MACs, pseudorandom functions and signed tokens of a keyset."""

import threading
from typing import Any

from . import _library as lib
from .keysets import Keyset

# No function has a longer output.
_LONGEST_PRF = 1 << 14


class _Object:
    """The primitives of a keyset, which is loaded once. Threads may share it: their calls come one after another. `close`, or
    the end of a `with`, frees its keys."""

    _name = ""

    def __init__(self, keyset: Keyset) -> None:
        self._handle = lib.Handle()
        self._lock = threading.Lock()
        lib.done(f"tink_{self._name}_new", bytes(keyset), self._handle)

    def _output(self, call: str, room: int, *values: Any) -> bytes:
        with self._lock:
            return lib.output(f"tink_{self._name}_{call}", room, self._handle, *values)

    def _done(self, call: str, *values: Any) -> None:
        with self._lock:
            lib.done(f"tink_{self._name}_{call}", self._handle, *values)

    def close(self) -> None:
        """Frees the keys. Every later call raises Closed."""
        with self._lock:
            lib.free(f"tink_{self._name}_free", self._handle)

    def __enter__(self) -> Any:
        return self

    def __exit__(self, *_: Any) -> None:
        self.close()

    def __del__(self) -> None:
        if hasattr(self, "_lock"):
            self.close()


class Aead(_Object):
    """The AEADs of a keyset: the primary key encrypts, and any key decrypts."""

    _name = "aead"

    def encrypt(self, plaintext: bytes, associated_data: bytes = b"") -> bytes:
        return self._output("encrypt", len(plaintext) + 128, plaintext, associated_data, lib.random(lib.RANDOM_ENCRYPT))

    def decrypt(self, ciphertext: bytes, associated_data: bytes = b"") -> bytes:
        return self._output("decrypt", len(ciphertext), ciphertext, associated_data)


class DeterministicAead(_Object):
    """The deterministic AEADs of a keyset: equal plaintexts and data give equal ciphertexts."""

    _name = "daead"

    def encrypt_deterministically(self, plaintext: bytes, associated_data: bytes = b"") -> bytes:
        return self._output("encrypt", len(plaintext) + 128, plaintext, associated_data)

    def decrypt_deterministically(self, ciphertext: bytes, associated_data: bytes = b"") -> bytes:
        return self._output("decrypt", len(ciphertext), ciphertext, associated_data)


class Mac(_Object):
    """The MACs of a keyset: the primary key computes, and any key verifies."""

    _name = "mac"

    def compute_mac(self, message: bytes) -> bytes:
        return self._output("compute", 128, message)

    def verify_mac(self, mac: bytes, message: bytes) -> None:
        """Raises MacMismatch if no key accepts the MAC for the message."""
        self._done("verify", mac, message)


class Prf(_Object):
    """The pseudorandom functions of a keyset."""

    _name = "prf"

    def compute(self, value: bytes, length: int) -> bytes:
        """The first `length` bytes of the primary function for an input."""
        return self._output("compute", min(length, _LONGEST_PRF), value, length)


class Signer(_Object):
    """The tokens that a keyset of MACs signs and accepts."""

    _name = "signer"

    def sign(self, payload: bytes) -> bytes:
        """A signed token of a payload, by the primary key."""
        return self._output("sign", len(payload) // 3 * 4 + 256, payload)

    def verify(self, token: bytes) -> bytes:
        """The payload of a token, if a key accepts it."""
        return self._output("verify", len(token), token)


def sign_token(keyset: Keyset, payload: bytes) -> bytes:
    """A signed token of a payload, by the primary key of a keyset of MACs."""
    return lib.output("tink_sign_token", len(payload) // 3 * 4 + 256, bytes(keyset), payload)


def verify_token(keyset: Keyset, token: bytes) -> bytes:
    """The payload of a token, if a key accepts it."""
    return lib.output("tink_verify_token", len(token), bytes(keyset), token)
