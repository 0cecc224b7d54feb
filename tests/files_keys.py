"""The commands on files of keys: what they make, what they refuse, keys under a master."""
import os
import re

from files_lib import check, drafts, ids, mode, read, tink, write


def key_files():
    tink("new", "AES256_GCM_HKDF_1MB", "-o", "keys.json")
    check(mode("keys.json") == 0o600, "a key file is its owner's alone")
    check(read("keys.json").startswith(b"{"), "a key file is JSON")
    tink("new", "AES128_CTR_HMAC_SHA256_4KB", "-o", "keys.bin", "--format", "binary")
    check(read("keys.bin")[0] == 8, "a binary key file is the wire format")
    before = read("keys.json")
    tink("new", "AES256_GCM_HKDF_1MB", "-o", "keys.json", status=12, says="keys.json: it is there already")
    check(read("keys.json") == before, "a key file that exists stays")
    tink("new", "NO_SUCH", "-o", "none.json", status=24, says="NO_SUCH: unknown template: no template has this name: `tink templates` lists them\n")
    tink("new", "AES256_GCM_HKDF_1MB", "-o", "no/such/keys.json", status=12, says="its folder is not there")
    tink("new", "AES256_GCM_HKDF_1MB", "-o", "none.json", "--format", "yaml", status=2)
    check(not os.path.exists("none.json") and drafts() == [], "a refusal leaves nothing")
    os.symlink("nowhere", "link.json")
    tink("new", "AES256_GCM_HKDF_1MB", "-o", "link.json")
    check(os.path.islink("link.json") and len(ids("nowhere")[0]) == 1, "a link to a name that no file has is followed")
    tink("new", "AES256_GCM_HKDF_1MB", "-o", "link.json", status=12, says="it is there already")
    write("listed.json", b"""{"primaryKeyId": 7, "key": [
 {"keyData": {"typeUrl": "type.googleapis.com/google.crypto.tink.AesGcmHkdfStreamingKey", "value": "AAEC", "keyMaterialType": "SYMMETRIC"}, "status": "ENABLED", "keyId": 7, "outputPrefixType": "RAW"},
 {"status": "DESTROYED", "keyId": 8, "outputPrefixType": "TINK"}]}
""")
    listing = b"7\tenabled\tRAW\tAesGcmHkdfStreamingKey\tprimary\n8\tdestroyed\tTINK\t-\n"
    check(tink("keys", "listed.json") == listing, "a listing")
    other = {tink("new", "AES128_GCM_HKDF_4KB", "-o", f"drawn{i}") or read(f"drawn{i}") for i in range(5)}
    check(len(other) == 5, "keys differ")


def edits():
    for name, template in (("keys.json", "AES256_GCM_HKDF_1MB"), ("keys.bin", "AES128_GCM_HKDF_4KB")):
        before, first = ids(name)
        tink("rotate", name, template)
        after, second = ids(name)
        check(after[:-1] == before and second == after[-1] != first, "a rotation adds the primary key")
        check(mode(name) == 0o600, "a changed key file is its owner's alone")
        tink("promote", name, first)
        check(ids(name)[1] == first, "promote")
        tink("disable", name, second)
        check(f"{second}\tdisabled" in tink("keys", name).decode(), "disable")
        held = read(name)
        tink("promote", name, second, status=33, says="not enabled")
        tink("disable", name, first, status=32, says="is primary")
        tink("delete", name, "1", status=31, says="key not found")
        tink("enable", name, "x", status=2)
        tink("rotate", name, "NO_SUCH", status=24)
        check(read(name) == held and drafts() == [], "a refused change leaves the file")
        tink("enable", name, second)
        tink("destroy", name, second)
        check(f"{second}\tdestroyed" in tink("keys", name).decode(), "destroy")
        tink("enable", name, second, status=33, says="wrong status")
        tink("delete", name, second)
        check(ids(name) == (before, first), "delete")
    tink("rotate", "none.json", "AES256_GCM_HKDF_1MB", status=12, says="none.json: there is no such file")
    check(drafts() == [], "no draft is left")
    os.symlink("keys.bin", "link.bin")
    tink("rotate", "link.bin", "AES128_GCM_HKDF_4KB")
    check(os.path.islink("link.bin") and len(ids("keys.bin")[0]) == 2, "a link stays, and its file is changed")


def wrapping():
    for name in ("master.json", "other.json"):
        tink("new", "AES256_GCM", "-o", name)
    for keys, form in (("keys.json", "json"), ("keys.bin", "binary")):
        tink("wrap", "-k", "master.json", "--aad", "host", "--format", form, "-o", f"{keys}.wrapped", keys)
        wrapped = read(f"{keys}.wrapped")
        check(mode(f"{keys}.wrapped") == 0o600 and (wrapped[:1] == b"{") == (form == "json"), "a wrapped file")
        held = re.findall(rb'"value": "([^"]*)"', read(keys)) if form == "json" else [read(keys)[-40:]]
        check(held and not any(part in wrapped for part in held), "a wrapped file has no key in clear")
        tink("unwrap", "-k", "master.json", "--aad", "host", "--format", form, "-o", f"{keys}.again", f"{keys}.wrapped")
        check(read(f"{keys}.again") == read(keys) and mode(f"{keys}.again") == 0o600, "a file of keys comes back")
        for words in (("-k", "master.json"), ("-k", "master.json", "--aad", "Host"), ("-k", "other.json", "--aad", "host")):
            tink("unwrap", *words, "-o", "none.json", f"{keys}.wrapped", status=34, says=f"{keys}.wrapped: master failed")
        tink("unwrap", "-k", keys, "--aad", "host", "-o", "none.json", f"{keys}.wrapped", status=18, says=f"{keys}: wrong")
        tink("wrap", "-k", "master.json", "-o", f"{keys}.wrapped", keys, status=12, says=".wrapped: it is there already")
        tink("unwrap", "-k", "master.json", "-o", keys, f"{keys}.wrapped", status=12, says=f"{keys}: it is there already")
        check(read(f"{keys}.wrapped") == wrapped, "a refusal leaves what is there")
    write("damaged", wrapped[:40] + bytes([wrapped[40] ^ 1]) + wrapped[41:])
    tink("unwrap", "-k", "master.json", "--aad", "host", "-o", "none.json", "damaged", status=34, says="damaged: master failed")
    tink("unwrap", "-k", "master.json", "-o", "none.json", "keys.json", status=34, says="keys.json: it is not wrapped")
    tink("wrap", "-k", "master.json", "-o", "none.json", "text", status=13, says="text: bad keyset")
    tink("wrap", "-k", "text", "-o", "none.json", "keys.json", status=13, says="text: bad keyset")
    tink("wrap", "-k", "none", "-o", "none.json", "keys.json", status=11, says="none: there is no such file")
    check(not os.path.exists("none.json") and drafts() == [], "a refusal leaves nothing")
    tink("rotate", "master.json", "AES256_GCM")
    tink("unwrap", "-k", "master.json", "--aad", "host", "-o", "again.json", "keys.json.wrapped")
    check(read("again.json") == read("keys.json"), "a rotated master unwraps what the old key wrapped")
    check(b"wrap -k MASTER" in tink("help", "unwrap") == tink("wrap", "--help"), "help of wrap")
