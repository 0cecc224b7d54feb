"""Tink's keysets, AEADs, MACs, PRFs, tokens and streams by a proved library with C names (libtink)."""

from .errors import *  # noqa: F401,F403
from .errors import TinkError
from .keysets import Key, Keyset
from .primitives import Aead, DeterministicAead, Mac, Prf, Signer, sign_token, verify_token
from .readers import RangeReader, StreamReader
from .streams import EncryptingWriter, encrypting_writer, open_stream, read_range, rewrap_stream, seal_stream

__all__ = [
    "Aead",
    "DeterministicAead",
    "EncryptingWriter",
    "Key",
    "Keyset",
    "Mac",
    "Prf",
    "RangeReader",
    "Signer",
    "StreamReader",
    "TinkError",
    "encrypting_writer",
    "open_stream",
    "read_range",
    "rewrap_stream",
    "seal_stream",
    "sign_token",
    "verify_token",
]
