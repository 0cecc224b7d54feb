"""share.py ROOT: the files in share name every command and every option that the tables of tink_cli_words have."""
import os
import pty
import re
import select
import shutil
import subprocess
import sys
import tempfile

ROOT = sys.argv[1]
CHECKS = 0


def check(holds, what):
    global CHECKS
    CHECKS += 1
    if not holds:
        print("FAILED:", what)
        sys.exit(1)


def read(*names):
    with open(os.path.join(ROOT, *names), encoding="utf-8") as file:
        return file.read()


def table(name, text):
    """The words of a table of tink_cli_words, each with what it names."""
    rows = re.search(rf"const {name}: .*? = &\[\n(.*?)\n\];", text, re.S)
    return re.findall(r'\(\s*"([^"]*)",\s*\w+::(\w+)', rows.group(1))


OPTIONS = table("OPTIONS", read("crates", "tink_cli_words", "src", "options.rt"))
ACTIONS = table("ACTIONS", read("crates", "tink_cli_words", "src", "form.rt"))
COMMANDS = [word for word, _ in ACTIONS if not word.startswith("-")]
VALUES = [word for name in ("FORMATS", "PREFIXES") for word, _ in table(name, read("crates", "tink_cli_words", "src", "values.rt"))]
WORDS = [word for word, _ in OPTIONS + ACTIONS]
check(len(COMMANDS) > 20 and len(OPTIONS) > 20 and len(VALUES) == 6, "the tables are read")


def names(text, word):
    """Whether a word stands in a text by itself."""
    return re.search(rf"(?<![\w-]){re.escape(word)}(?![\w-])", text) is not None


def fish_name(word):
    """An option as a completion of fish writes it."""
    return "-l " + word[2:] if word.startswith("--") else "-s " + word[1:] if word.startswith("-") else word


def occurrences():
    bash, zsh = read("share", "completions", "tink.bash"), read("share", "completions", "_tink")
    fish, man = read("share", "completions", "tink.fish"), read("share", "man", "tink.1").replace("\\-", "-")
    for word in WORDS + VALUES:
        check(names(bash, word), f"tink.bash names {word}")
        check(names(zsh, word), f"_tink names {word}")
        check(names(fish, fish_name(word)), f"tink.fish names {word}")
        check(names(re.sub(r"\\f[BIPR]", " ", man), word), f"tink.1 names {word}")
    for text, name in (bash, "tink.bash"), (zsh, "_tink"), (fish, "tink.fish"):
        for word in set(re.findall(r"(?<![\w-])--[a-z][a-z-]*", text)):
            check(word in WORDS, f"{name}: {word} is an option")
    for word in set(re.findall(r"(?<![\w-])--[a-z][a-z-]*", re.sub(r"\\f[BIPR]", " ", man))):
        check(word in WORDS, f"tink.1: {word} is an option")


def completed(*words):
    """What bash offers for the last of the words."""
    script = (
        'source "$1"; shift; COMP_WORDS=("$@"); COMP_CWORD=$(($# - 1)); _tink; printf "%s\\n" "${COMPREPLY[@]}"'
    )
    file = os.path.join(ROOT, "share", "completions", "tink.bash")
    done = subprocess.run(["bash", "-c", script, "bash", file, *words], capture_output=True, text=True)
    check(done.returncode == 0, f"{words}: {done.stderr}")
    return done.stdout.split()


def bash():
    check(set(completed("tink", "")) >= set(COMMANDS), "each command is offered")
    check(completed("tink", "rew") == ["rewrap"], "a command is completed")
    check(completed("tink", "encrypt", "--no") == ["--no-clobber"], "an option is completed")
    check(completed("tink", "new", "--format", "b") == ["binary"], "a value is completed")
    check(completed("tink", "new", "--format", "=", "j") == ["json"], "a value behind `=` is completed")
    check(completed("tink", "help", "unw") == ["unwrap"], "a topic is completed")
    for command in COMMANDS:
        offered = completed("tink", command, "-")
        check({"--quiet", "--help"} <= set(offered) <= set(WORDS), f"the options of {command}")


def takes():
    """What tink.bash offers for a command is what the tables of tink_cli_words say that it takes."""
    form = read("crates", "tink_cli_words", "src", "form.rt")
    lists = {name: re.findall(r"OptionName::(\w+)", rows) for name, rows in re.findall(r"const (\w+): &\[OptionName\] = &\[(.*?)\];", form, re.S)}
    arms = re.search(r"fn options\(self\).*?match self \{(.*?)\n        \}", form, re.S).group(1)
    taken = {action: lists[name] for actions, name in re.findall(r"([\w:| \n]+?) => (\w+),", arms) for action in re.findall(r"Action::(\w+)", actions)}
    actions = dict(ACTIONS)
    for command in COMMANDS:
        want = set(taken.get(actions[command], [])) | {"Quiet", "Help"}
        words = {word for word, option in OPTIONS if option in want}
        check(set(completed("tink", command, "-")) == words, f"tink.bash offers for {command}: {words}")


def man_page():
    if shutil.which("groff"):
        page = os.path.join(ROOT, "share", "man", "tink.1")
        done = subprocess.run(["groff", "-man", "-Tutf8", "-ww", page], capture_output=True, text=True)
        check(done.returncode == 0 and done.stderr == "", f"tink.1 is laid out: {done.stderr}")


def help_pages():
    text = read("crates", "tink_cli_words", "src", "help.rt")
    pages = dict(re.findall(r'const (\w+): &str = "\\\n(.*?)";', text, re.S))
    for name, page in pages.items():
        for line in page.split("\n"):
            check(len(line) <= 80, f"{name}: {line}")
    for usage in re.findall(r'"(tink [^"]*)"', read("crates", "tink_cli_words", "src", "usages.rt")):
        check(len(usage) <= 80, usage)
    for word in WORDS:
        if word not in ("-V", "--version"):
            check(any(names(page, word) for page in pages.values()), f"the help names {word}")


def with_templates(folder):
    """Puts a program `tink` into a folder, which lists two templates, and answers the path in which it is found."""
    with open(os.path.join(folder, "tink"), "w") as file:
        file.write("#!/bin/sh\nprintf 'AES_ONE\\nHMAC_TWO\\n'\n")
    os.chmod(file.name, 0o755)
    return {**os.environ, "PATH": folder + ":" + os.environ["PATH"]}


def offered_by_fish(line):
    """What fish offers for a line."""
    file = os.path.join(ROOT, "share", "completions", "tink.fish")
    with tempfile.TemporaryDirectory() as folder:
        words = ["fish", "--no-config", "-c", "source $argv[1]; complete -C $argv[2]", file, line]
        done = subprocess.run(words, capture_output=True, text=True, timeout=300, env=with_templates(folder))
    check(done.returncode == 0 and done.stderr == "", f"fish: {line}: {done.stderr}")
    return [row.split("\t")[0] for row in done.stdout.splitlines()]


def fish():
    if not shutil.which("fish"):
        return "no fish here"
    check(set(offered_by_fish("tink ")) == set(COMMANDS), "fish: each command is offered, and nothing else")
    check(offered_by_fish("tink rew") == ["rewrap"], "fish: a command is completed")
    check(offered_by_fish("tink encrypt --no-c") == ["--no-clobber"], "fish: an option is completed")
    check(offered_by_fish("tink new X --format b") == ["binary"], "fish: a value is completed")
    check(offered_by_fish("tink help unw") == ["unwrap"], "fish: a topic is completed")
    check(offered_by_fish("tink new HM") == ["HMAC_TWO"], "fish: a template is completed")
    for command in COMMANDS:
        offered = {word for word in offered_by_fish(f"tink {command} --") if word.startswith("--")}
        check(offered == {word for word in completed("tink", command, "-") if word.startswith("--")}, f"fish: the options of {command}: {offered}")
    return "fish"


def zsh_line(folder, line):
    """The line that zsh makes of the start of one, when the key of completion is pressed."""
    child, terminal = pty.fork()
    if child == 0:
        os.environ.update(with_templates(folder), TERM="dumb", ZDOTDIR=folder, LC_ALL="C")
        os.execvp("zsh", ["zsh", "-f", "-i"])
    os.write(terminal, b"PS1=; unsetopt prompt_cr prompt_sp; stty -echo; LISTMAX=999\n")
    functions = os.path.join(ROOT, "share", "completions")
    os.write(terminal, f"fpath=({functions} $fpath); autoload -Uz compinit; compinit -D -u\n".encode())
    # The line is not run: its words are printed. The mark is in two parts, so that what zsh shows of the line has no such mark.
    os.write(terminal, b"show() { BUFFER=\"print -r -- 'ma''de:'${(q)BUFFER}\"; zle accept-line }; zle -N show; bindkey '^X' show; print rea''dy\n")
    shown = b""
    while b"ready" not in shown:
        shown += os.read(terminal, 65536)
    os.write(terminal, line.encode() + b"\t")
    # What is typed while zsh runs a program for a completion may be lost.
    while select.select([terminal], [], [], 1)[0]:
        shown += os.read(terminal, 65536)
    os.write(terminal, b"\x18")
    printed = re.compile(rb"made:([^'\r\n]*)\r*\n")
    while not printed.search(shown):
        shown += os.read(terminal, 65536)
    os.close(terminal)
    os.waitpid(child, 0)
    return printed.findall(shown)[-1].decode().replace("\\ ", " ").strip()


def is_completed(folder, line, end):
    """Whether zsh completes a line so. On a busy machine zsh may drop what is typed too early, so there are three tries."""
    return any(zsh_line(folder, line) == line + end for _ in range(3))


def zsh():
    if not shutil.which("zsh"):
        return "no zsh here"
    with tempfile.TemporaryDirectory() as folder:
        check(is_completed(folder, "tink rew", "rap"), "zsh: a command is completed")
        check(is_completed(folder, "tink encrypt --no", "-clobber"), "zsh: an option is completed")
        check(is_completed(folder, "tink new X --format b", "inary"), "zsh: a value is completed")
        check(is_completed(folder, "tink help unw", "rap"), "zsh: a topic is completed")
        check(is_completed(folder, "tink new HM", "AC_TWO"), "zsh: a template is completed")
        check(is_completed(folder, "tink rewrap --to-", "aad"), "zsh: an option of one command is completed")
    return "zsh"


def files_below(folder):
    return sorted(os.path.relpath(os.path.join(path, name), folder) for path, _, names in os.walk(folder) for name in names)


INSTALLED = [
    "bin/tink", "share/bash-completion/completions/tink", "share/fish/vendor_completions.d/tink.fish", "share/man/man1/tink.1",
    "share/zsh/site-functions/_tink", "include/tink.h", "lib/libtink.a", "lib/libtink.so", "lib/pkgconfig/tink.pc",
]
ARCHIVE = "crates/tink_c/out/libtink_c.a"


def made(folder, *words):
    """Runs make in a copy of what it installs, of a program and a library in place of the proved ones."""
    instead = ("PROGRAM=program", "RT=true", f"LIBC={ARCHIVE}")
    done = subprocess.run(["make", "-s", "-C", folder, *words, *instead], capture_output=True, text=True)
    check(done.returncode == 0, f"make {words}: {done.stderr}")


def packages():
    """`make install`, `make uninstall` and `make deb`."""
    with tempfile.TemporaryDirectory() as folder:
        for name in ("Makefile", "LICENSE"):
            shutil.copy(os.path.join(ROOT, name), folder)
        for name in ("share", "bindings/c"):
            shutil.copytree(os.path.join(ROOT, name), os.path.join(folder, name))
        os.makedirs(os.path.join(folder, os.path.dirname(ARCHIVE)))
        with open(os.path.join(folder, ARCHIVE), "w") as file:
            file.write("!<arch>\n")
        for name in ("tink", "program"):
            with open(os.path.join(folder, name), "w") as file:
                file.write("#!/bin/sh\n")
            os.chmod(os.path.join(folder, name), 0o755)
        place = os.path.join(folder, "a place")
        for prefix in ("/usr/local", "/opt/tink"):
            made(folder, "install", f"DESTDIR={place}", f"PREFIX={prefix}")
            check(files_below(place + prefix) == sorted(INSTALLED), f"make install: {files_below(place)}")
            for name in INSTALLED:
                mode = 0o755 if name in ("bin/tink", "lib/libtink.so") else 0o644
                check(os.stat(os.path.join(place + prefix, name)).st_mode & 0o777 == mode, f"make install: the mode of {name}")
            made(folder, "uninstall", f"DESTDIR={place}", f"PREFIX={prefix}")
            check(files_below(place) == [], f"make uninstall leaves {files_below(place)}")
        if not shutil.which("dpkg-deb"):
            return "no dpkg-deb here"
        made(folder, "deb")
        (package,) = [name for name in os.listdir(os.path.join(folder, "out")) if name.endswith(".deb")]
        package = os.path.join(folder, "out", package)
        listed = subprocess.run(["dpkg-deb", "--contents", package], capture_output=True, text=True).stdout.splitlines()
        names = sorted(row.split()[-1].removeprefix("./usr/") for row in listed if not row.endswith("/"))
        want = [name.replace("zsh/site-functions", "zsh/vendor-completions") for name in INSTALLED] + ["share/doc/tink-proved/copyright"]
        check(names == sorted(want), f"make deb: {names}")
        check(all(row.split()[1] == "root/root" for row in listed), "make deb: all files are root's")
        check(subprocess.run(["dpkg-deb", "--field", package], capture_output=True).returncode == 0, "make deb: the fields")
    return "a package"


occurrences()
bash()
takes()
man_page()
help_pages()
print("share:", ", ".join((fish(), zsh(), packages())))
print(f"share: {CHECKS} checks passed")
