"""Words that spell no command, help, names of files."""
import os
import re

from files_ends import on_terminal
from files_lib import ROOT, TEXT, a_folder, all_of, check, drafts, read, run, tink, write

USAGE = b"usage: seal KEYSET AAD SEED | open KEYSET AAD | keygen TEMPLATE SEED | rotate KEYSET TEMPLATE SEED | large N | range KEYSET AAD START LEN | rewrap KEYSET AAD KEYSET AAD SEED | sign KEYSET | verify KEYSET\n"

# Words, and what the first line on standard error is behind `tink COMMAND: `. Words are split at blanks; `_` is an empty word.
WRONG = [
    ("new", "TEMPLATE is missing"),
    ("new X", "the option --output is missing"),
    ("new X -o", "the option -o needs a value"),
    ("new X --output", "the option --output needs a value"),
    ("new X -o a Y", "one word too many: Y"),
    ("new X -o a --format yaml", "the option --format has no value yaml: its values are json and binary"),
    ("new X -o a --prefix big", "the option --prefix has no value big: its values are tink, raw, legacy and crunchy"),
    ("new X -o a --format=", "the option --format has no value '': its values are json and binary"),
    ("convert a -o - --format yaml", "the option --format has no value yaml: its values are json and binary"),
    ("wrap -k a -o - --format yaml b", "the option --format has no value yaml: its values are json and binary"),
    ("convert a -o -", "the option --format is missing"),
    ("new -k a X -o b", "this command has no option --keys"),
    ("new X -o a -o b", "the option --output is given twice"),
    ("new X --output=a -o b", "the option --output is given twice"),
    ("keys", "KEYS is missing"),
    ("keys a b", "one word too many: b"),
    ("keys --jsno a", "no option is called --jsno; did you mean --json?"),
    ("keys --json=yes a", "this option takes no value: --json=yes"),
    ("keys --xyzzyx a", "no option is called --xyzzyx"),
    ("templates a", "one word too many: a"),
    ("add", "KEYS is missing"),
    ("add a", "TEMPLATE is missing"),
    ("add a b c", "one word too many: c"),
    ("add --any a b", "this command has no option --any"),
    ("rotate a", "TEMPLATE is missing"),
    ("rotate --nay a b", "no option is called --nay; did you mean --any?"),
    ("promote a", "ID is missing"),
    ("promote a x", "no id of a key: x ("),
    ("promote a +5", "no id of a key: +5 ("),
    ("promote a 4294967296", "no id of a key: 4294967296 ("),
    ("promote a -1", "no id of a key: -1 ("),
    ("promote -5 a", "no id of a key: a ("),
    ("delete -- a -1", "no id of a key: -1 ("),
    ("promote a -1x", "no option is called -1x"),
    ("promote a -", "no id of a key: - ("),
    ("enable a _", "no id of a key: '' ("),
    ("disable a 1 2", "one word too many: 2"),
    ("destroy", "KEYS is missing"),
    ("delete a 1e3", "no id of a key: 1e3 ("),
    ("convert a -o b", "the option --format is missing"),
    ("convert a --format json", "the option --output is missing"),
    ("convert -o a --format json", "KEYS is missing"),
    ("encrypt text", "the option --keys is missing"),
    ("encrypt -k", "the option -k needs a value"),
    ("encrypt -k a -k b", "the option --keys is given twice"),
    ("encrypt -k a b c", "one word too many: c"),
    ("encrypt -k a --ad x", "no option is called --ad; did you mean --aad?"),
    ("encrypt -k a --unknown", "no option is called --unknown"),
    ("encrypt -k a --no-clobber", "the option --no-clobber needs --output"),
    ("encrypt -k a --master-aad x", "the option --master-aad needs --master"),
    ("encrypt -k a --force=1", "this option takes no value: --force=1"),
    ("encrypt -k a -1", "no option is called -1"),
    ("encrypt -k a -x b", "no option is called -x"),
    ("encrypt -ka", "no option is called -ka; did you mean -k?"),
    ("encrypt -k=a", "no option is called -k=a; did you mean -k?"),
    ("encrypt -k a --outptu=b", "no option is called --outptu=b; did you mean --output?"),
    ("encrypt -k a --xyzzyx=b", "no option is called --xyzzyx=b"),
    ("encrypt -k a --outptu=a=b", "no option is called --outptu=a=b; did you mean --output?"),
    ("rotate a --any", "TEMPLATE is missing"),
    ("encrypt -k a -- -k b", "one word too many: b"),
    ("decrypt -k a --quiet=", "this option takes no value: --quiet="),
    ("decrypt -k a --outptu b", "no option is called --outptu; did you mean --output?"),
    ("check -k a -o b", "this command has no option --output"),
    ("check", "the option --keys is missing"),
    ("info -k a", "IN is missing"),
    ("info -k a --force b", "this command has no option --force"),
    ("range -k a b", "the option --start is missing"),
    ("range -k a --start 0 b", "the option --length is missing"),
    ("range -k a --start 0 --length 1", "IN is missing"),
    ("range -k a --start -1 --length 1 b", "the value of --start is no number: -1"),
    ("range -k a --start 1 --length 18446744073709551616 b", "the value of --length is no number: 18446744073709551616"),
    ("range -k a --start=_ --length 1 b", None),
    ("rewrap -k a", "the option --to is missing"),
    ("rewrap -t a", "the option --keys is missing"),
    ("rewrap -k a -t b -t c", "the option --to is given twice"),
    ("sign -k a --aad x b", "this command has no option --aad"),
    ("verify -k a --force b", "this command has no option --force"),
    ("verify -o a", "the option --keys is missing"),
    ("wrap -k a b", "the option --output is missing"),
    ("wrap -k a -o b", "KEYS is missing"),
    ("unwrap -k a -o b", "WRAPPED is missing"),
    ("unwrap -o b c", "the option --keys is missing"),
    ("help nonsense", "no command is called nonsense"),
    ("help rotat", "no command is called rotat; did you mean rotate?"),
    ("help new new", "one word too many: new"),
    ("version a", "one word too many: a"),
    ("--version -x", "no option is called -x"),
]


def messages():
    with a_folder("messages"):
        before = all_of()
        for line, says in WRONG:
            words = ["" if word == "_" else word for word in line.split()]
            done = run(*words)
            lines = done.stderr.decode().split("\n")
            action = words[0] if not words[0].startswith("-") else words[0].lstrip("-")
            check(done.returncode == 2 and done.stdout == b"", f"{line}: {done}")
            if says is not None:
                check(lines[0].startswith(f"tink {action}: {says}"), f"{line}: {lines[0]!r}, not {says!r}")
                check(lines[0] == f"tink {action}: {says}" or says.endswith("("), f"{line}: {lines[0]!r}, not {says!r}")
            check(len(lines) == 3 and lines[1].startswith("usage: tink ") and lines[2] == "", f"{line}: {lines}")
        for line in ("", "nonsense", "encrpt -k a b", "--nonsense", "-k a", "--", "_", "keygen", "seal", "open x", "large", "large x", "rotate a b c", "sign", "verify", "rewrap", "range a - 1"):
            words = ["" if word == "_" else word for word in line.split()]
            done = run(*words)
            check((done.returncode, done.stdout, done.stderr) == (2, b"", USAGE), f"{line!r}: {done}")
        check(all_of() == before and drafts() == [], "wrong words change nothing")
        check(tink("encrypt", "--keys=keys.json", "--aad=a=b", "--output=made", "text") == b"", "options with =")
        check(tink("decrypt", "--keys", "keys.json", "--aad", "a=b", "made") == TEXT, "--option=value is --option value")
        check(tink("decrypt", "-k", "keys.json", "--aad=a=b", "--output=-", "--", "made") == TEXT, "a dash behind =")
        write("-k", TEXT)
        tink("encrypt", "-k", "keys.json", "-o", "made", "--", "-k")
        check(tink("decrypt", "-k", "keys.json", "--", "made") == TEXT, "words behind --")


EMPTY = "it is empty: give a file that `tink new` made"
NO_KEYSET = "bad keyset: it is no keyset: give a file that `tink new` made, or one of Tink's in JSON or binary"
BROKEN = "invalid keyset: it is empty, or its keyset breaks a rule: of a file the same command says which"
NO_JSON = "bad json: it is no keyset in JSON: a bracket, a name or a number is not right: take an intact copy"
OPENS_NOT = "opens this stream: give the keys and the --aad that encrypted it; if they are right, it is damaged or was never encrypted"
OTHER_USE = "its keys have another use than a key of this template: take a template of their use, or force it by --any"
UNWRAPPED = "it is not wrapped: a master opens only files that `tink wrap` made"
WRAPPED = "it is a wrapped file of keys: `tink unwrap` opens it, and `--master MASTER` reads it in its place"
FOLDER = "it is a folder"
NONE = "there is no such file"

# Mistakes with files: the words, the status, and the line on standard error behind `tink: `.
MISTAKEN = [
    ("keys empty", 14, f"empty: {EMPTY}"),
    ("add empty AES128_GCM", 14, f"empty: {EMPTY}"),
    ("enable empty 7", 14, f"empty: {EMPTY}"),
    ("convert empty -o made --format json", 14, f"empty: {EMPTY}"),
    ("encrypt -k empty text", 14, f"empty: {EMPTY}"),
    ("encrypt -k keys.json --master empty text", 14, f"empty: {EMPTY}"),
    ("encrypt -k empty --master master.json text", 34, f"empty: {EMPTY}"),
    ("wrap -k master.json -o made empty", 14, f"empty: {EMPTY}"),
    ("unwrap -k master.json -o made empty", 34, f"empty: {EMPTY}"),
    ("keys no_key", 14, "no_key: invalid keyset: it has no key: give a file that `tink new` made"),
    ("keys text", 13, f"text: {NO_KEYSET}"),
    ("encrypt -k text keys.json", 13, f"text: {NO_KEYSET}"),
    ("encrypt -k sealed text", 13, f"sealed: {NO_KEYSET}"),
    ("promote text 7", 13, f"text: {NO_KEYSET}"),
    ("wrap -k master.json -o made text", 13, f"text: {NO_KEYSET}"),
    ("keys wrapped.json", 14, f"wrapped.json: {WRAPPED}"),
    ("encrypt -k wrapped.json text", 14, f"wrapped.json: {WRAPPED}"),
    ("rewrap -k keys.json -t wrapped.json sealed", 14, f"wrapped.json: {WRAPPED}"),
    ("encrypt -k keys.json --master master.json text", 34, f"keys.json: {UNWRAPPED}"),
    ("unwrap -k master.json -o made keys.json", 34, f"keys.json: {UNWRAPPED}"),
    ("rewrap -k wrapped.json --master master.json -t new.json sealed", 34, f"new.json: {UNWRAPPED}"),
    ("rotate keys.json AES128_GCM", 18, f"keys.json: {OTHER_USE}"),
    ("rotate keys.json keys.json", 24, "keys.json: unknown template: no template has this name: `tink templates` lists them"),
    ("add AES128_GCM keys.json", 12, f"AES128_GCM: {NONE}"),
    ("rotate - AES128_GCM", 12, f"-: {NONE}"),
    ("new - -o made", 24, "-: unknown template: no template has this name: `tink templates` lists them"),
    ("decrypt -k keys.json text", 21, f"text: no key of keys.json {OPENS_NOT}"),
    ("decrypt -k keys.json empty", 21, f"empty: no key of keys.json {OPENS_NOT}"),
    ("check -k new.json sealed", 21, f"sealed: no key of new.json {OPENS_NOT}"),
    ("info -k keys.json text", 21, f"text: no key of keys.json {OPENS_NOT}"),
    ("range -k keys.json --start 0 --length 1 text", 21, f"text: no key of keys.json {OPENS_NOT}"),
    ("rewrap -k keys.json -t new.json text", 21, f"text: no key of keys.json {OPENS_NOT}"),
    ("keys folder", 11, f"folder: {FOLDER}"),
    ("encrypt -k folder text", 11, f"folder: {FOLDER}"),
    ("encrypt -k keys.json folder", 11, f"folder: {FOLDER}"),
    ("range -k keys.json --start 0 --length 1 folder", 11, f"folder: {FOLDER}"),
    ("info -k keys.json folder", 11, f"folder: {FOLDER}"),
    ("encrypt -k keys.json -o folder text", 12, f"folder: {FOLDER}: give the name of a file"),
    ("new AES128_GCM -o folder", 12, f"folder: {FOLDER}: give the name of a file"),
    ("promote folder 7", 12, f"folder: {FOLDER}: give the name of a file"),
    ("encrypt -k keys.json no_file", 11, f"no_file: {NONE}"),
    ("verify -k no_file text", 11, f"no_file: {NONE}"),
    ("encrypt -k wrapped.json --master no_file text", 11, f"no_file: {NONE}"),
    ("encrypt -k keys.json -o no_folder/out text", 12, "no_folder/out: its folder is not there"),
]

# The same of keys on standard input: the words, what is on it, the status and the line.
FROM_INPUT = [
    ("keys -", b"", 14, f"standard input: {BROKEN}"),
    ("encrypt -k - text", b"", 14, f"standard input: {BROKEN}"),
    ("rewrap -k keys.json -t - sealed", b"", 14, f"standard input: {BROKEN}"),
    ("convert - -o made --format json", b"", 14, f"standard input: {BROKEN}"),
    ("keys -", TEXT, 13, f"standard input: {NO_KEYSET}"),
    ("keys -", b"{", 30, f"standard input: {NO_JSON}"),
    ("wrap -k master.json -o made -", TEXT, 13, f"standard input: {NO_KEYSET}"),
    ("encrypt -k wrapped.json --master - text", TEXT, 13, f"standard input: {NO_KEYSET}"),
]


def mistakes():
    with a_folder("mistakes"):
        write("empty", b"")
        write("no_key", b"\x08\x01")
        os.mkdir("folder")
        before = all_of()
        for line, status, says in MISTAKEN:
            tells(line, b"", status, says)
        for line, data, status, says in FROM_INPUT:
            tells(line, data, status, says)
        keys = read("new.json")
        tells("decrypt -k - sealed", keys, 21, f"sealed: no key of standard input {OPENS_NOT}")
        check(all_of() == before and drafts() == [], "a mistake changes nothing")
        # On a terminal a user who leaves out the keys hears of the file too.
        for line, says in (("sign no_file", f"no_file: {NONE}"), ("range folder", f"folder: {FOLDER}")):
            shown = on_terminal(line.split(), "/dev/null").decode().split("\r\n")
            action = line.split()[0]
            check(shown[:2] == [f"tink: {says}", f"tink {action}: the option --keys is missing"], f"{line} on a terminal: {shown}")
            check(len(shown) == 4 and shown[2].startswith(f"usage: tink {action} -k KEYS "), f"{line} on a terminal: {shown}")


def tells(line, data, status, says):
    done = run(*line.split(), stdin=data)
    check((done.returncode, done.stderr.decode()) == (status, f"tink: {says}\n"), f"{line}: {done}, not {says!r}")


def help_pages():
    names = [word for word in re.findall(r'\("([a-z]+)", Action::', read(os.path.join(ROOT, "crates/tink_cli_words/src/form.rt")).decode())]
    check(len(names) >= 23, "the names of the commands")
    pages = {"": tink("help")}
    for name in names:
        page = pages[name] = tink("help", name)
        check(page == tink(name, "--help") == tink(name, "-h", "--no-such", "more", "words"), f"help of {name}")
        check(f"tink {name}".encode() in page, f"the help of {name} names it")
        if name not in ("help", "version"):
            check(re.search(rf"\b{name}\b".encode(), pages[""]) is not None, f"tink help names {name}")
    check(tink("--help") == tink("-h") == pages[""], "help of all")
    check(tink("version") == tink("--version") == tink("-V"), "the version")
    check(tink("--version").startswith(b"tink of Wandrefona "), "the version")
    for name, page in pages.items():
        for line in page.decode().split("\n"):
            check(len(line) <= 80 and line == line.rstrip(), f"help of {name}: a line of {len(line)} columns: {line!r}")
        check(page.endswith(b"\n") and not page.endswith(b"\n\n"), f"help of {name} ends in one newline")


def names():
    with a_folder("names"):
        long = "n" * 255
        wide = "ü" * 127
        for name in ("-odd", "--keys", "-", "with  two blanks", " ", "tab\there", "new\nline", "bell\x07", "quote'\"\\", "ünïcödé", "\u202eright", "%s%n", "*", long, "m" * 129, "m" * 128, wide):
            path = "./-" if name == "-" else name
            write(path, TEXT)
            tink("encrypt", "-k", "keys.json", "-o", path, "--", path)
            tink("decrypt", "-k", "keys.json", f"--output={path}", "--", path)
            check(read(path) == TEXT and drafts() == [], f"a file of the name {name!r}")
            os.remove(path)
            done = run("decrypt", "-k", "keys.json", "--", path)
            check(done.returncode == 11, f"{name!r}: {done}")
            check(re.search(rb"[\x00-\x09\x0b-\x1f\x7f]", done.stderr) is None and done.stderr.count(b"\n") == 1, f"control bytes are escaped: {done.stderr}")
            tink("new", "AES128_GCM", f"--output={path}")
            tink("add", "--", path, "AES128_GCM")
            os.remove(path)
        done = run("decrypt", "-k", "keys.json", "a\x1b[31mb\nc\x7f\x85")
        check(rb"a\x1b[31mb\x0ac\x7f\xc2\x85: there is no such file" in done.stderr, f"what an escaped name is: {done.stderr}")
        for name in ("n" * 256, "folder" * 1000):
            tink("encrypt", "-k", "keys.json", "-o", name, "text", status=12, says="name too long")
            tink("encrypt", "-k", "keys.json", name, status=11, says="name too long")
            tink("rotate", name, "AES128_GCM", status=12, says="name too long")
        # Two long names that begin alike have drafts of their own.
        check(drafts() == [], "no draft is left")
        odd = b"n\xffn"
        write(odd, TEXT)
        for words, status in (
            ((b"encrypt", b"-k", b"keys.json", odd), 11),
            ((b"encrypt", b"-k", odd, b"text"), 11),
            ((b"encrypt", b"-k", b"keys.json", b"-o", odd, b"text"), 12),
            ((b"new", b"AES128_GCM", b"-o", odd), 12),
            ((b"rotate", odd, b"AES128_GCM"), 12),
            ((b"keys", odd), 11),
        ):
            done = run(*words)
            check(done.returncode == status and rb"tink: n\xffn: its name is not UTF-8" in done.stderr, f"{words}: {done}")
            check(read(odd) == TEXT and drafts() == [], f"{words}: nothing has changed")
        check(tink("encrypt", "-k", "keys.json", "--aad", b"\xff\xfe", "-o", "made", "text") == b"", "associated data of any bytes")
        check(tink("decrypt", "-k", "keys.json", "--aad", b"\xff\xfe", "made") == TEXT, "associated data of any bytes")
        os.symlink(odd, "to odd")
        check(tink("decrypt", "-k", "keys.json", stdin=tink("encrypt", "-k", "keys.json", "to odd")) == TEXT, "an input by a link to a name that is not UTF-8")
        tink("encrypt", "-k", "keys.json", "-o", "to odd", "text", status=12, says="not UTF-8")
        tink("encrypt", "-k", "keys.json", "-o", "", "text", status=12, says="tink: '': ")
        tink("encrypt", "-k", "", "text", status=11, says="tink: '': ")
        tink("encrypt", "-k", "keys.json", "", status=11, says="tink: '': ")
        tink("new", "AES128_GCM", "-o", "", status=12)
        tink("rotate", "", "AES128_GCM", status=12)
        check(drafts() == [], "no draft is left")
