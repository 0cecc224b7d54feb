"""Runs the program with refused memory and failing ends: see refused-memory."""
import os
import subprocess
import sys

tool, folder = sys.argv[1:3]
URL = b"type.googleapis.com/google.crypto.tink.AesCtrHmacStreamingKey"
GCM = b"type.googleapis.com/google.crypto.tink.AesGcmHkdfStreamingKey"
SEED = "0" * 64
TEMPLATE = "AES128_CTR_HMAC_SHA256_4KB"
NO_MEMORY, READ_FAULT, WRITE_FAULT = (10, b"out of memory\n"), (11, b"read fault\n"), (12, b"write fault\n")


def varint(n):
    return bytes([n]) if n < 128 else bytes([n % 128 + 128]) + varint(n // 128)


def body(number, data):
    return varint(number * 8 + 2) + varint(len(data)) + data


def key(number, url, value):
    data = body(1, url) + body(2, value) + b"\x18\x01"
    return body(2, body(1, data) + b"\x10\x01\x18" + varint(number) + b"\x20\x03")


def keyset(primary, *keys):
    return (b"\x08" + varint(primary) + b"".join(keys)).hex()


MAIN = body(3, bytes(range(16)))
K = key(0x01020304, URL, body(2, bytes.fromhex("0880201010180322040803" "1020")) + MAIN)
G = key(7, GCM, body(2, bytes.fromhex("0880804010101803")) + MAIN)
ONE, TWO = keyset(0x01020304, K), keyset(0x01020304, G, K)
# Keys of small segments: of 35 bytes in counter mode with tags of 10, and of 48 bytes by AES-GCM.
SMALL = keyset(1, key(1, URL, body(2, bytes.fromhex("08231010180322040803100a")) + MAIN))
SMALL_GCM = keyset(1, key(1, GCM, body(2, bytes.fromhex("083010101803")) + MAIN))
TEXT = bytes(7 * i % 251 for i in range(12168))


def run(words, text, **settings):
    """The status, what was written, the line, and the counts of memory, reads and writes."""
    counts = f"{folder}/counts"
    env = {"LD_PRELOAD": f"{folder}/refused.so", "COUNTS": counts, **{name: str(n) for name, n in settings.items()}}
    ran = subprocess.run([tool, *words], input=text, capture_output=True, env=env)
    with open(counts) as it:
        return ran.returncode, ran.stdout, ran.stderr, [int(n) for n in it.read().split()]


class Row:
    """A command with its input, and what it tells where nothing fails."""

    def __init__(self, name, words, text, reads_first=False):
        self.name, self.words, self.text, self.reads_first = name, words, text, reads_first
        self.status, self.written, self.line, self.counts = run(words, text)
        self.tally = {"memory": 0, "reads": 0, "writes": 0, "pieces": 0}
        self.refused, self.wrong = 0, []

    def told(self, ran):
        return ran[:3] == (self.status, self.written, self.line)

    def judge(self, kind, number, ran, holds):
        self.tally[kind] += 1
        if not holds:
            self.wrong.append(f"{self.name}: {kind} {number}: status {ran[0]}, {len(ran[1])} bytes, {ran[2]!r}")

    def all(self, fronts):
        memory, reads, writes = self.counts
        for number in range(1, memory + 1):
            ran = run(self.words, self.text, REFUSE_MEMORY=number)
            # Out of memory comes before anything is written, and before anything is read where the text is not held whole.
            refused = (ran[0], ran[2]) == NO_MEMORY and ran[1] == b"" and ran[3][2] == 0 and (self.reads_first or ran[3][1] == 0)
            self.refused += refused
            self.judge("memory", number, ran, refused or self.told(ran))
        for kind, count, setting, fault in (("reads", reads, "FAIL_READ", READ_FAULT), ("writes", writes, "FAIL_WRITE", WRITE_FAULT)):
            for number in range(1, count + 1):
                ran = run(self.words, self.text, **{setting: number})
                stands = len(ran[1]) in fronts[kind] if fronts[kind] else self.written.startswith(ran[1])
                self.judge(kind, number, ran, (ran[0], ran[2]) == fault and self.written.startswith(ran[1]) and stands)
        for piece in (1, 7, 4096):
            ran = run(self.words, self.text, PIECE=piece)
            self.judge("pieces", piece, ran, self.told(ran))


def damages(stream):
    """The stream with each bit changed, cut at each length, and with something behind it."""
    for at in range(len(stream)):
        for bit in range(8):
            yield "a bit changed", stream[:at] + bytes([stream[at] ^ 1 << bit]) + stream[at + 1 :]
    for length in range(len(stream)):
        yield "cut", stream[:length]
    for more in (b"\0", bytes(16), bytes(17), stream):
        yield "lengthened", stream + more


def damaged(name, keyset, ends):
    """How many damaged streams were tried, by kind, and those that were not refused as they must be."""
    text = TEXT[:60]
    tally, wrong = {}, []
    for kind, stream in damages(run(["seal", keyset, "-", SEED], text)[1]):
        status, written, line, _ = run(["open", keyset, "-"], stream)
        segment = ends.index(len(written)) if len(written) in ends else -1
        lines = {21: b"no matching key\n", 22: b"bad segment %d\n" % segment, 23: b"truncated %d\n" % segment}
        holds = lines.get(status) == line and written == text[: len(written)] and (status == 21) == (segment == 0)
        tally[kind] = tally.get(kind, 0) + 1
        if not holds:
            wrong.append(f"{name}: {kind}: status {status}, {len(written)} bytes, {line!r}")
    return tally, wrong


def main():
    anything = {"reads": None, "writes": None}
    # What stands after a failed read: the header and whole segments of a seal, whole texts of an open, nothing or the
    # header and whole segments of a rewrap, and nothing of a range, a token or a payload.
    sealed = {"reads": {24, 4096, 8192}, "writes": None}
    opened = {"reads": {0, 4040, 8104}, "writes": None}
    moved = {"reads": {0, 24, 4096, 8192}, "writes": None}
    held = {"reads": {0}, "writes": None}
    macs = run(["keygen", "HMAC_SHA256_128BITTAG", SEED], b"")[1].decode().strip()
    token = run(["sign", macs], TEXT)[1]
    stream = run(["seal", ONE, "-", SEED], TEXT[:4041])[1]
    long = run(["seal", ONE, "-", SEED], TEXT)[1]
    rows = [
        (Row("seal 4,040 bytes", ["seal", ONE, "-", SEED], TEXT[:4040]), sealed),
        (Row("seal 4,041 bytes", ["seal", ONE, "-", SEED], TEXT[:4041]), sealed),
        (Row("open 4,129 bytes", ["open", ONE, "-"], stream), opened),
        (Row("open 4,128 bytes, cut", ["open", ONE, "-"], stream[:-1]), opened),
        (Row("open 12,288 bytes, two keys", ["open", TWO, "-"], long), opened),
        (Row("keygen", ["keygen", TEMPLATE, SEED], b""), anything),
        (Row("rotate", ["rotate", ONE, TEMPLATE, SEED], b""), anything),
        (Row("large 0", ["large", "0"], b""), anything),
        (Row("rewrap 12,288 bytes", ["rewrap", TWO, "-", ONE, "aabb", SEED], long), moved),
        (Row("rewrap 4,128 bytes, cut", ["rewrap", ONE, "-", ONE, "aabb", SEED], stream[:-1]), moved),
        (Row("range of 100 bytes of 12,168", ["range", ONE, "-", "4000", "100"], long, True), held),
        (Row("range of 12,287 bytes, cut", ["range", TWO, "-", "4000", "100"], long[:-1], True), held),
        (Row("sign 12,168 bytes", ["sign", macs], TEXT, True), held),
        (Row("verify their token", ["verify", macs], token, True), held),
    ]
    wrong, total = [], {}
    print("| command | status 10 | requests for memory refused | reads that failed | writes that failed | small pieces |")
    print("|---|---|---|---|---|---|")
    for row, fronts in rows:
        row.all(fronts)
        wrong += row.wrong
        for kind, count in row.tally.items():
            total[kind] = total.get(kind, 0) + count
        total["refused"] = total.get("refused", 0) + row.refused
        print(f"| {row.name} | {row.refused} | " + " | ".join(str(n) for n in row.tally.values()) + " |", flush=True)
    refused = total.pop("refused")
    print(f"| all | {refused} | " + " | ".join(str(n) for n in total.values()) + " |")
    print("\n| stream of a text of 60 bytes | bits changed | cuts | lengthened |")
    print("|---|---|---|---|")
    for name, small, ends in (("counter mode, segments of 35", SMALL, [0, 1, 26, 51]), ("AES-GCM, segments of 48", SMALL_GCM, [0, 8, 40])):
        tally, more = damaged(name, small, ends)
        wrong += more
        total[name] = sum(tally.values())
        print(f"| {name} | " + " | ".join(str(n) for n in tally.values()) + " |", flush=True)
    print()
    for line in wrong:
        print(line)
    print(f"{len(wrong)} of {sum(total.values())} lost or released something, or told it wrongly")
    return 1 if wrong else 0


sys.exit(main())
