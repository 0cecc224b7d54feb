"""Compares bindings/c/tink.h with what it speaks of: the exports of crates/tink_c (names, arguments and types), the statuses
of docs/STATUSES.md, and the functions, statuses and numbers of the wrappers. Words: another header, and the library."""

import re
import subprocess
import sys
from pathlib import Path

ROOT = Path(__file__).resolve().parents[2]

# What an argument of an export is in C: a type, and what follows its name.
TYPES = {
    "&[u8]": [("const uint8_t *", ""), ("size_t", "_len")],
    "&mut [u8]": [("uint8_t *", ""), ("size_t", "_room")],
    "&mut usize": [("size_t *", "")],
    "&mut Owner": [("tink_{} *", "")],
    "Global": [],
    "bool": [("bool", "")],
    "u32": [("uint32_t", "")],
    "u64": [("uint64_t", "")],
    "usize": [("size_t", "")],
}
# A word of C++ in place of which C has another name.
RENAMED = {"template": "template_name", "template_len": "template_len"}
RUST = {"In": "const uint8_t *", "Out": "uint8_t *", "Len": "size_t *", "bool": "bool", "Object": "object *"}
RUST.update({"usize": "size_t", "u32": "uint32_t", "u64": "uint64_t"})
PYTHON = {"in": ["const uint8_t *", "size_t"], "out": ["uint8_t *", "size_t", "size_t *"], "bool": ["bool"]}
PYTHON.update({"u32": ["uint32_t"], "u64": ["uint64_t"], "size": ["size_t"], "object": ["object *"], "length": ["size_t *"]})
# The wrappers pass each object as a pointer of one type.
OBJECT = re.compile(r"^tink_\w+ \*$")
# The wrappers in Rust and Go ask objects in place of these calls.
BY_OBJECTS = {"tink_encrypt", "tink_decrypt", "tink_encrypt_deterministically", "tink_decrypt_deterministically"}
BY_OBJECTS |= {"tink_compute_mac", "tink_verify_mac", "tink_compute_prf"}

wrong = 0


def same(what, got, want):
    global wrong
    for name in sorted(set(got) | set(want), key=str):
        if got.get(name) != want.get(name):
            print(f"{what}: {name} is {got.get(name)}, and {want.get(name)} in the header")
            wrong += 1


def read(name):
    return (ROOT / name).read_text()


def arguments(text):
    return [" ".join(argument.split()) for argument in text.split(",") if argument.strip()]


def exported():
    functions = {}
    for source in sorted((ROOT / "crates/tink_c/src").glob("*.rt")):
        for name, words, result in re.findall(
            r'extern "C" fn (\w+)\((.*?)\)\s*(?:-> (\w+))?\s*\n?\s*(?:ensures|\{)', source.read_text(), re.S
        ):
            parts = []
            for argument in arguments(words):
                called, kind = argument.split(": ")
                for c_type, suffix in TYPES[kind]:
                    # An object has the type that the function is named after.
                    parts.append((c_type.format(name.split("_", 1)[1].rsplit("_", 1)[0]), RENAMED.get(called + suffix, called + suffix)))
            functions[name] = ("tink_status" if result == "u8" else "void", parts)
    return functions


def declared(text):
    functions = {}
    text = re.sub(r"/\*.*?\*/", "", text, flags=re.S)
    for result, name, words in re.findall(r"(\w+) (tink_\w+)\((.*?)\);", text, re.S):
        parts = []
        for argument in arguments(words):
            kind, called = re.match(r"(.*?)(\w+)$", argument).groups()
            parts.append((kind.strip(), called))
        functions[name] = (result, parts)
    return functions


def numbers(text, prefix=""):
    return {name: int(number) for name, number in re.findall(prefix + r"TINK_(\w+) = (\d+)", text)}


# The statuses of the program that no call of the library answers: words, ends and limits of the program alone.
OF_THE_PROGRAM = {2, 11, 12, 26}


def check_statuses(statuses):
    documented = re.findall(r"^\| ([\d, ]+) \| (.*?) \|", read("docs/STATUSES.md"), re.M)
    rows = {}
    for of, message in documented:
        for place, number in enumerate(of.split(", ")):
            rows.setdefault(int(number), []).append(message.split(", ")[min(place, message.count(", "))])
    same("STATUSES.md", dict.fromkeys(set(rows) - OF_THE_PROGRAM, True), dict.fromkeys(statuses.values(), True))
    for name, number in statuses.items():
        words = name.lower().replace("_", " ").replace("wrong key status", "wrong status")
        if not any(f"`TINK_{name}`" in row or f"`{words}" in row for row in rows.get(number, [])) and name != "OK":
            same("STATUSES.md", {name: rows.get(number)}, {name: number})


def check_python(types, statuses):
    sys.path.insert(0, str(ROOT / "bindings/python"))
    library = read("bindings/python/tink_proved/_library.py")
    functions = {}
    for name, kinds in re.findall(r'^    "(tink_\w+)": "(.*)",$', library, re.M):
        functions[name] = [each for kind in kinds.split() for each in PYTHON[kind]]
    same("Python", functions, types)
    errors = re.findall(r"class (\w+)\(TinkError\):\n    status = (\d+)", read("bindings/python/tink_proved/errors.py"))
    same("Python", {name.lower(): int(number) for name, number in errors}, statuses)
    return {name: int(number) for name, number in re.findall(r"^RANDOM_(\w+) = (\d+)", library, re.M)}


def check_rust(types, statuses):
    source = read("bindings/rust/src/sys.rs")
    functions = {}
    for name, words in re.findall(r"^    (?:pub )?fn (tink_\w+)\((.*?)\);", source, re.M | re.S):
        functions[name] = [RUST[argument.split(": ")[1]] for argument in arguments(words)]
    same("Rust", functions, {name: kinds for name, kinds in types.items() if name not in BY_OBJECTS})
    errors = re.findall(r"(\d+) => Error::(\w+)", read("bindings/rust/src/error.rs"))
    same("Rust", {name.lower(): int(number) for number, name in errors}, statuses)
    return {name: int(number) for name, number in re.findall(r"const RANDOM_(\w+): usize = (\d+)", source)}


def check_go(types, statuses):
    source = "".join(path.read_text() for path in sorted((ROOT / "bindings/go").glob("*.go")) if "_test" not in path.name)
    called = set(re.findall(r"C\.(tink_\w+)\(", source))
    same("Go", dict.fromkeys(called | BY_OBJECTS, True), dict.fromkeys(types, True))
    errors = re.findall(r"^\t(\w+) +Status = (\d+)", source, re.M)
    same("Go", {name.lower(): int(number) for name, number in errors}, statuses)
    return {name.upper(): int(number) for name, number in re.findall(r"^\trandom(\w+) += (\d+)", source, re.M)}


def main():
    text = Path(sys.argv[1]).read_text() if sys.argv[1:] else read("bindings/c/tink.h")
    exports, header = exported(), declared(text)
    same("exports", exports, header)
    if sys.argv[2:]:
        symbols = subprocess.run(["nm", "-D", "--defined-only", sys.argv[2]], check=True, stdout=subprocess.PIPE, text=True)
        same("library", {line.split()[2]: True for line in symbols.stdout.splitlines()}, {name: True for name in header})
    for name in re.findall(r"^tink_status (tink_\w+)", text, re.M):
        comment = re.split(r"/\*", text[: text.index(f" {name}(")])[-1]
        if "Statuses: " not in comment:
            same("comments", {name: "without statuses"}, {name: "of statuses"})
    random = numbers(text, r"(?<=\W)(?=TINK_RANDOM_[KES])")
    random = {name[7:]: number for name, number in random.items()}
    statuses = {name: number for name, number in numbers(text).items() if name[7:] not in random}
    check_statuses(statuses)
    types = {name: [OBJECT.sub("object *", kind) for kind, _ in parts] for name, (_, parts) in header.items()}
    named = {name.lower().replace("_", ""): number for name, number in statuses.items() if number}
    for language, check in (("Python", check_python), ("Rust", check_rust), ("Go", check_go)):
        same(f"random bytes of {language}", check(types, named), random)
    print(f"{len(exports)} functions are exported, {len(statuses)} statuses are declared, {wrong} things differ")
    return 1 if wrong or not exports or len(statuses) < 2 or len(random) != 3 else 0


sys.exit(main())
