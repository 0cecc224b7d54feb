#!/usr/bin/env bash
# Runs the whole gate from nothing on a clone of the last commit and prints what it cost: the
# processor seconds of each crate's proof, of its tests, of a program's compiling, of its must-fail
# edits and of the check that these begin with, the dearest checks, the longest chain of crates that wait for one
# another, the sum, and the wall clock.
# docs/COSTS.md has the budget. Run nothing beside it. The first word, if there is one, is a file
# for the gate's output.
set -euo pipefail
root=$(dirname -- "$(dirname -- "$(readlink -f -- "${BASH_SOURCE[0]}")")")
folder=$(mktemp -d)
trap 'rm -rf "$folder"' EXIT
git clone -q "$root" "$folder/clone"
log=${1:-$folder/log}
: >"$log"
log=$(readlink -f -- "$log")

cd "$folder/clone"
python3 - "$log" <<'PY'
import collections, functools, os, re, subprocess, sys, time

tick = os.sysconf("SC_CLK_TCK")
# By the folder that a crate's edits share, the check that came first.
first = {}


def parent(pid):
    with open(f"/proc/{pid}/stat") as it:
        return int(it.read().rsplit(")", 1)[1].split()[1])


def below(pid):
    """The processes that this one began, and those that they began."""
    try:
        for task in os.listdir(f"/proc/{pid}/task"):
            with open(f"/proc/{pid}/task/{task}/children") as it:
                for child in it.read().split():
                    yield child
                    yield from below(child)
    except OSError:
        pass


def spent(pid):
    """The processor seconds of a process, and of those of its children that have ended."""
    with open(f"/proc/{pid}/stat") as it:
        return sum(map(int, it.read().rsplit(")", 1)[1].split()[11:15])) / tick


def words_of(pid):
    with open(f"/proc/{pid}/cmdline") as it:
        return it.read().split("\0")


def is_check(words):
    return os.path.basename(words[0]) == "rattle" and "--crate-name" in words


def look(pid):
    """The crate and the kind of a check, its processor seconds so far, those of its own processes
    among them, and its memory, or None for another process."""
    words = words_of(pid)
    if not is_check(words) or is_check(words_of(parent(pid))):
        return None
    crate = words[words.index("--crate-name") + 1]
    kept = words[words.index("--incremental") + 1] if "--incremental" in words else ""
    if "--test" in words:
        kind = "tests"
    elif "--crate-checked" in words:
        kind = "compile"
    elif words[1] == "build" or not kept and not os.readlink(f"/proc/{pid}/cwd").startswith("/tmp/rt-edit"):
        kind = "proof"
    else:
        # A toolchain has a folder for what edits begin with, or the first of them fills the folder of all.
        is_first = re.search(r"/rt-edits-\w+$", kept) and first.setdefault(kept, pid) == pid
        kind = "base" if kept.endswith("/seed") or is_first else "edit"
    # A child counts by itself until it has ended: a program of tests ends with its compiler.
    seconds = sum(map(spent, [pid, *below(pid)]))
    with open(f"/proc/{pid}/status") as it:
        memory = re.search(r"VmHWM:\s+(\d+)", it.read())
    return (crate, kind), seconds, int(memory[1]) // 1024 if memory else 0


began, checks = time.time(), {}
with open(sys.argv[1], "w") as log:
    # A toolchain that keeps what passed is asked to prove it anew.
    help = subprocess.run(["rt", "help"], stdout=subprocess.PIPE, stderr=subprocess.STDOUT, text=True)
    keeps = "--anew" in help.stdout
    gate = subprocess.Popen(["rt", "ci", *["--anew"] * keeps], stdout=log, stderr=subprocess.STDOUT, stdin=subprocess.DEVNULL)
    while gate.poll() is None:
        for pid in below(gate.pid):
            try:
                found = look(pid)
            except (OSError, ValueError, IndexError):
                continue
            if found:
                what, seconds, memory = found
                last = checks.get((pid, what), (0, 0))
                checks[pid, what] = max(seconds, last[0]), max(memory, last[1])
        time.sleep(0.5)
wall = time.time() - began

of = collections.defaultdict(list)
for (_, what), (seconds, _) in checks.items():
    of[what].append(seconds)
kinds = ("proof", "tests", "compile", "base", "edit")
print(f"{'crate':24}" + "".join(f"{it:>9}" for it in kinds) + "    edits      sum")
crates = sorted({crate for crate, _ in of}, key=lambda it: -sum(sum(of[it, kind]) for kind in kinds))
for crate in crates:
    row = [sum(of[crate, kind]) for kind in kinds]
    print(f"{crate:24}" + "".join(f"{it:9.0f}" for it in row) + f"{len(of[crate, 'edit']):9}{sum(row):9.0f}")
row = [sum(sum(of[crate, kind]) for crate in crates) for kind in kinds]
print(f"{'all':24}" + "".join(f"{it:9.0f}" for it in row) + f"{sum(len(of[crate, 'edit']) for crate in crates):9}{sum(row):9.0f}")
dearest = sorted(((seconds, what, memory) for (_, what), (seconds, memory) in checks.items()), reverse=True)[:10]
print("\nThe dearest checks:")
for seconds, (crate, kind), memory in dearest:
    print(f"{seconds:6.0f} s  {memory:5} MB  {crate}: {kind}")
# A crate waits for all that its line of crates.txt names, so that no number of processors is quicker than this.
lines = (line.split("#")[0].partition(":") for line in open("crates.txt"))
named = {head.split()[0]: below.split() for head, _, below in lines if head.strip()}


@functools.cache
def chain(crate, kind="proof"):
    """The processor seconds of a check and of all that it waits for, one after the other, and their crates."""
    behind = max((chain(it) for it in named[crate] if it in named), default=(0, ()))
    seconds = sum(of[crate, kind])
    return behind[0] + seconds, (*behind[1], f"{crate} {seconds:.0f}")


seconds, names = max(chain(crate, kind) for crate in named for kind in ("proof", "tests"))
print(f"\nThe longest chain, {seconds / 60:.0f} minutes: {', '.join(names)}")
print(f"\n{sum(row) / 3600:.2f} processor hours, {wall / 60:.1f} minutes on {len(os.sched_getaffinity(0))} processors")
with open(sys.argv[1]) as log:
    print(log.read().rstrip().rsplit("\n", 1)[-1])
sys.exit(gate.returncode)
PY
