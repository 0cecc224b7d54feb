"""Files of keys: made, changed, converted, listed and wrapped under a master keyset."""

from typing import List, NamedTuple

from . import _library as lib

# How long an output may be before the library asks for more room.
_ROOM = 4096


class Key(NamedTuple):
    """What is shown of a key. It has no key material."""

    id: int
    status: str
    prefix: str
    type: str
    is_primary: bool


class Keyset:
    """The bytes of a keyset in JSON or in Tink's binary format. Each change makes a new one."""

    def __init__(self, data: lib.Data) -> None:
        self._data = lib.data_of(data)

    @classmethod
    def create(cls, template: str, json: bool = True) -> "Keyset":
        """A new keyset with one key by the template of a name, as "AES256_GCM"."""
        random = lib.random(lib.RANDOM_KEY)
        return cls(lib.output("tink_keyset_create", _ROOM, template.encode(), json, random))

    def rotate(self, template: str, to_any: bool = False) -> "Keyset":
        """The keyset with a new primary key. The other keys stay. `to_any` allows keys of another primitive."""
        random = lib.random(lib.RANDOM_KEY)
        name = template.encode()
        return Keyset(lib.output("tink_keyset_rotate", self._room(), self._data, name, to_any, random))

    def add(self, template: str) -> "Keyset":
        """The keyset with a new key. The primary key stays."""
        random = lib.random(lib.RANDOM_KEY)
        return Keyset(lib.output("tink_keyset_add", self._room(), self._data, template.encode(), random))

    def promote(self, key_id: int) -> "Keyset":
        """The keyset with this key as its primary key."""
        return self._edited("tink_keyset_promote", key_id)

    def enable(self, key_id: int) -> "Keyset":
        """The keyset with this key enabled."""
        return self._edited("tink_keyset_enable", key_id)

    def disable(self, key_id: int) -> "Keyset":
        """The keyset with this key disabled."""
        return self._edited("tink_keyset_disable", key_id)

    def destroy(self, key_id: int) -> "Keyset":
        """The keyset with the material of this key taken away, for good."""
        return self._edited("tink_keyset_destroy", key_id)

    def delete(self, key_id: int) -> "Keyset":
        """The keyset without this key."""
        return self._edited("tink_keyset_delete", key_id)

    def keys(self) -> List[Key]:
        """The keys, without their material."""
        lines = lib.output("tink_keyset_list", _ROOM, self._data).decode("ascii").splitlines()
        keys = []
        for line in lines:
            key_id, status, prefix, type_url, *primary = line.split("\t")
            keys.append(Key(int(key_id), status, prefix, type_url, primary == ["primary"]))
        return keys

    def keys_json(self) -> bytes:
        """The same as an array in JSON."""
        return lib.output("tink_keyset_list_json", _ROOM, self._data)

    @property
    def primary_id(self) -> int:
        """The id of the primary key."""
        return next(key.id for key in self.keys() if key.is_primary)

    def to_json(self) -> bytes:
        """The keyset in JSON, with its keys in clear."""
        return lib.output("tink_keyset_convert", self._room(), self._data, True)

    def to_binary(self) -> bytes:
        """The keyset in Tink's binary format, with its keys in clear."""
        return lib.output("tink_keyset_convert", self._room(), self._data, False)

    def wrap(self, master: "Keyset", associated_data: bytes = b"", json: bool = True) -> bytes:
        """The keyset encrypted by the primary key of a master keyset of AEADs."""
        random = lib.random(lib.RANDOM_ENCRYPT)
        return lib.output("tink_keyset_wrap", self._room(), master._data, self._data, associated_data, json, random)

    @classmethod
    def unwrap(cls, wrapped: bytes, master: "Keyset", associated_data: bytes = b"") -> "Keyset":
        """The keyset that `wrap` encrypted with the same associated data."""
        room = len(wrapped) + _ROOM
        return cls(lib.output("tink_keyset_unwrap", room, master._data, wrapped, associated_data, True))

    def __bytes__(self) -> bytes:
        return self._data

    def __repr__(self) -> str:
        return "<Keyset>"

    def _edited(self, call: str, key_id: int) -> "Keyset":
        return Keyset(lib.output(call, self._room(), self._data, key_id))

    def _room(self) -> int:
        return 3 * len(self._data) + _ROOM
