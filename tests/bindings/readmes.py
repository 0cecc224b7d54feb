"""Runs the example of each README of bindings as its reader would, with an installed library: the package, crate or module is
added to a new project outside the repository. What it encrypts is decrypted by the program `tink`.

Words: the folder that the library was installed to (PREFIX), and the program's path, if there is one."""

import os
import re
import shutil
import stat
import subprocess
import sys
import tempfile
from importlib.util import find_spec
from pathlib import Path

ROOT = Path(__file__).resolve().parents[2]
PREFIX = Path(sys.argv[1]).resolve()
PROGRAM = sys.argv[2] if sys.argv[2:] else None
LIBRARIES = str(PREFIX / "lib")


def run(*words, **more):
    environment = {**os.environ, "PKG_CONFIG_PATH": f"{LIBRARIES}/pkgconfig", "LD_LIBRARY_PATH": LIBRARIES, **more}
    environment.pop("TINK_LIBRARY", None)
    done = subprocess.run(words, env=environment, stdout=subprocess.PIPE, stderr=subprocess.STDOUT, text=True)
    if done.returncode != 0:
        sys.exit(f"{' '.join(words)}: {done.returncode}\n{done.stdout}")
    return done.stdout


def example(language, word):
    """The one block of code of a README."""
    text = (ROOT / "bindings" / language / "README.md").read_text()
    (block,) = re.findall(rf"^```{word}\n(.*?)^```", text, re.S | re.M)
    return block


def in_c():
    Path("example.c").write_text(example("c", "c"))
    flags = run("pkg-config", "--cflags", "--libs", "tink").split()
    run(os.environ.get("CC", "cc"), "-Wall", "-Wextra", "-Werror", "example.c", *flags)
    run("./a.out")


def in_cpp():
    """The header in C++, and the library that is linked whole into the program."""
    Path("example.cpp").write_text(example("c", "c"))
    flags = run("pkg-config", "--cflags", "--libs", "--static", "tink").split()
    run("c++", "-Wall", "-Wextra", "-Werror", "example.cpp", "-static", *flags)
    run("./a.out", LD_LIBRARY_PATH="")


def in_python():
    Path("example.py").write_text(example("python", "python"))
    run(sys.executable, "-m", "venv", "venv")
    run("venv/bin/pip", "install", "--no-index", "--disable-pip-version-check", str(ROOT / "bindings/python"))
    run("venv/bin/python", "example.py")


def in_rust():
    Path("src").mkdir()
    Path("src/main.rs").write_text(example("rust", "rust"))
    Path("Cargo.toml").write_text(
        '[package]\nname = "example"\nversion = "0.1.0"\nedition = "2021"\n\n'
        f'[dependencies]\ntink-proved = {{ path = "{ROOT}/bindings/rust" }}\n'
    )
    run("cargo", "build", "--quiet", "--offline", TINK_LIB_DIR=LIBRARIES, CARGO_TARGET_DIR="target")
    run("target/debug/example")


def in_go():
    Path("main.go").write_text(example("go", "go"))
    flags = {"CGO_CFLAGS": f"-I{PREFIX}/include", "CGO_LDFLAGS": f"-L{LIBRARIES} -Wl,-rpath,{LIBRARIES}"}
    flags.update({"GOCACHE": os.path.abspath("cache"), "GOFLAGS": "-mod=mod", "GOPROXY": "off"})
    run("go", "mod", "init", "example")
    run("go", "mod", "edit", "-require=tinkproved@v0.0.0", f"-replace=tinkproved={ROOT}/bindings/go")
    run("go", "vet", ".", **flags)
    shown = run("go", "run", ".", **flags)
    assert shown == 'a value\n{"sub":1}\nsome text\ntext\n', shown


def main():
    for name, needed, work in (
        ("C", os.environ.get("CC", "cc"), in_c),
        ("C++", "c++", in_cpp),
        ("Python", "python3", in_python),
        ("Rust", "cargo", in_rust),
        ("Go", "go", in_go),
    ):
        if shutil.which(needed) is None or (name == "Python" and find_spec("ensurepip") is None):
            print(f"{needed} is not installed, or has no venv: the example of {name} is left out")
            continue
        with tempfile.TemporaryDirectory() as folder:
            os.chdir(folder)
            work()
            assert stat.S_IMODE(os.stat("keys.json").st_mode) == 0o600, f"{name}: others may read keys.json"
            if PROGRAM:
                run(PROGRAM, "decrypt", "-k", "keys.json", "-o", "notes.txt", "notes.tink")
                assert Path("notes.txt").read_text() == "some text", name
            os.chdir(ROOT)
        print(f"the example of {name} runs{', and tink decrypts its file' if PROGRAM else ''}")


main()
