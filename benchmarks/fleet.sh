#!/usr/bin/env bash
# Measures fleet: how much faster four processes are than one over many files and over one large file, and what a small
# file costs by a Dask cluster on 127.0.0.1. docs/FLEETS.md says what is measured. First proves and builds what is due. It
# needs python3, GNU parallel, for the cluster Dask distributed, and 9 GB of a file system in memory, or FOLDER.
#
#   benchmarks/fleet.sh [--small] [--folder FOLDER] [--program PROGRAM]
#
# With --small it only shows that it runs: its figures mean nothing.
set -euo pipefail
root=$(dirname -- "$(dirname -- "$(readlink -f -- "${BASH_SOURCE[0]}")")")
size=full base=/dev/shm program=
while (($#)); do
    case $1 in
    --small) size=small ;;
    --folder) base=$2 && shift ;;
    --program) program=$2 && shift ;;
    *)
        echo "usage: benchmarks/fleet.sh [--small] [--folder FOLDER] [--program PROGRAM]" >&2
        exit 2
        ;;
    esac
    shift
done
if [[ -z $program ]]; then
    "$root/tink" --version >&2
    program=$root/crates/tink_tool/out/tink_tool
fi
python=python3
for it in python3 /usr/bin/python3; do
    if "$it" -c 'import distributed' 2>/dev/null; then
        python=$it
        break
    fi
done
folder=$(mktemp -d "$base/fleet-bench-XXXXXX")
trap 'rm -rf "$folder"' EXIT
# Python keeps what it compiled, as it does for a user.
unset PYTHONDONTWRITEBYTECODE
export PYTHONPYCACHEPREFIX=$folder/compiled
TINK=$(readlink -f -- "$program") "$python" - "$root" "$size" "$folder" <<'PY'
import json, os, resource, shutil, subprocess, sys, tempfile, time

root, size, folder = sys.argv[1:]
fleet, tink = f"{root}/fleet/fleet", os.environ["TINK"]
MIB = 1 << 20
SMALL = size == "small"
FILES, BYTES = (16, MIB) if SMALL else (400, 16 * MIB)
TINY = 200 if SMALL else 10_000
LARGE = 32 * MIB if SMALL else 2048 * MIB
ROUNDS = 1 if SMALL else 3
TEMPLATE = "AES128_GCM_HKDF_1MB"


def run(*words, **more):
    return subprocess.run(words, check=True, stdin=subprocess.DEVNULL, stdout=subprocess.PIPE, **more).stdout


def manifest(name, **words):
    words = {"keys": f"{folder}/keys", "aad": "{path}"} | words
    with open(f"{folder}/{name}.toml", "w") as file:
        file.writelines(f"{word} = {json.dumps(value)}\n" for word, value in words.items())
    return f"{folder}/{name}.toml"


def processor_time():
    spent = resource.getrusage(resource.RUSAGE_CHILDREN)
    return spent.ru_utime + spent.ru_stime


def timed(target, *words):
    """The least seconds of the rounds by the wall clock, and those of the processor in that round. The target is made anew."""
    best = None
    for _ in range(ROUNDS):
        shutil.rmtree(target, ignore_errors=True)
        begin, before = time.perf_counter(), processor_time()
        run(*words)
        took = time.perf_counter() - begin, processor_time() - before
        best = min(took, best or took)
    return best


def texts(name, count, length):
    """Files that are links of ten, so that they take the room of ten."""
    os.makedirs(f"{folder}/{name}")
    for number in range(count):
        path = f"{folder}/{name}/{number:05}"
        if number < 10:
            with open(path, "wb") as file:
                for at in range(0, length, MIB):
                    file.write(os.urandom(min(MIB, length - at)))
        else:
            os.link(f"{folder}/{name}/{number % 10:05}", path)


def without_hash():
    """A copy of fleet that does not hash a large file: what four processes gain at the decryption alone."""
    shutil.copytree(f"{root}/fleet", f"{folder}/unhashed", ignore=shutil.ignore_patterns("__pycache__"))
    path = f"{folder}/unhashed/tink_fleet/parts.py"
    with open(path) as file:
        text = file.read()
    assert text.count("return places.digest(source, task.source)") == 1
    with open(path, "w") as file:
        file.write(text.replace("return places.digest(source, task.source)", 'return "none"'))
    return f"{folder}/unhashed/fleet"


def row(name, value, goal):
    print(f"| {name} | {value} | {goal} |", flush=True)


run(tink, "new", TEMPLATE, "-o", f"{folder}/keys")
print(f"{os.cpu_count()} processors, {tink}\n\n| measured | value | goal |\n|---|---|---|")

texts("many", FILES, BYTES)
given = manifest("many", operation="encrypt", source=f"{folder}/many", target=f"{folder}/out")
walls = {count: timed(f"{folder}/out", sys.executable, fleet, "run", given, "--again", "-q", "--workers", str(count))[0] for count in (1, 4)}
speed = FILES * BYTES / walls[4] / 1e6
row(f"{FILES} files of {BYTES // MIB} MiB encrypted: 1 process {walls[1]:.1f} s, 4 processes {walls[4]:.1f} s, {speed:.0f} MB/s", f"{walls[1] / walls[4]:.2f} times", "3.4 times")
shutil.rmtree(f"{folder}/out")
shutil.rmtree(f"{folder}/many")

if b"\n  info " in run(tink, "help"):
    os.makedirs(f"{folder}/one")
    with open(f"{folder}/text", "wb") as file:
        for _ in range(LARGE // MIB):
            file.write(os.urandom(MIB))
    run(tink, "encrypt", "-q", "-k", f"{folder}/keys", "--aad", "large", "-o", f"{folder}/one/large.tink", f"{folder}/text")
    os.remove(f"{folder}/text")
    given = manifest("one", operation="decrypt", source=f"{folder}/one", target=f"{folder}/out", split_bytes=1)
    os.makedirs(f"{folder}/alone")
    unhashed = without_hash()
    alone = ("-q", "-k", f"{folder}/keys", "--aad", "large", "-o", f"{folder}/alone/large", f"{folder}/one/large.tink")
    words = ("run", given, "--again", "-q", "--workers")
    one = timed(f"{folder}/out", sys.executable, fleet, *words, "1")[0]
    four = timed(f"{folder}/out", sys.executable, fleet, *words, "4")[0]
    one_unhashed = timed(f"{folder}/none", tink, "decrypt", *alone)[0]
    run("cmp", f"{folder}/out/large", f"{folder}/alone/large")
    four_unhashed = timed(f"{folder}/out", sys.executable, unhashed, *words, "4")[0]
    run("cmp", f"{folder}/out/large", f"{folder}/alone/large")
    large = f"one file of {LARGE // MIB} MiB decrypted"
    row(f"{large} and hashed: 1 process {one:.1f} s, 4 processes {four:.1f} s", f"{one / four:.2f} times", "3 times")
    row(f"{large} without the hash: `tink decrypt` {one_unhashed:.1f} s, 4 processes {four_unhashed:.1f} s", f"{one_unhashed / four_unhashed:.2f} times", "")
    for name in ("one", "out", "alone"):
        shutil.rmtree(f"{folder}/{name}")
else:
    row("one large file in parts", "the program has no `info`", "3 times")

try:
    import distributed
except ImportError:
    row("small files by Dask", "Dask distributed is not installed", "8 ms")
    sys.exit()

texts("tiny", TINY, 4096)


class Cluster:
    def __init__(self, count):
        self.file = f"{folder}/scheduler.json"
        self.log = open(f"{folder}/log", "wb")
        self.scheduler = self.spawn("distributed.cli.dask_scheduler", "--host", "127.0.0.1", "--port", "0", "--scheduler-file", self.file)
        while not os.path.exists(self.file):
            time.sleep(0.05)
        time.sleep(0.5)
        self.address = json.load(open(self.file))["address"]
        words = ("--host", "127.0.0.1", "--nthreads", "1", "--no-nanny", "--local-directory", folder)
        self.workers = [self.spawn("distributed.cli.dask_worker", self.address, *words) for _ in range(count)]
        client = distributed.Client(self.address)
        client.wait_for_workers(count)
        client.close()

    def spawn(self, module, *words):
        return subprocess.Popen([sys.executable, "-c", f"from {module} import main; main()", *words, "--no-dashboard"], stdout=self.log, stderr=self.log)

    def spent(self):
        """Processor seconds of scheduler and workers so far, with those of the programs that they ran."""
        ticks = 0
        for it in (self.scheduler, *self.workers):
            with open(f"/proc/{it.pid}/stat") as file:
                ticks += sum(int(word) for word in file.read().rsplit(")", 1)[1].split()[11:15])
        return ticks / os.sysconf("SC_CLK_TCK")

    def peak(self):
        """The most memory that the scheduler held, in bytes."""
        with open(f"/proc/{self.scheduler.pid}/status") as file:
            return next(int(line.split()[1]) * 1024 for line in file if line.startswith("VmHWM"))

    def close(self):
        for it in (*self.workers, self.scheduler):
            it.terminate()
            it.wait()


cluster = Cluster(4)
try:
    given = manifest("tiny", operation="encrypt", source=f"{folder}/tiny", target=f"{folder}/out")
    idle, before, begin, driver = cluster.peak(), cluster.spent(), time.perf_counter(), processor_time()
    run(sys.executable, fleet, "run", given, "--again", "-q", "--scheduler", cluster.address)
    wall, driver = time.perf_counter() - begin, processor_time() - driver
    spent = cluster.spent() - before + driver
    row(f"{TINY} files of 4 KiB encrypted by Dask, 4 workers, {wall:.1f} s; driver {driver:.1f} s of the processor", f"{spent / TINY * 1000:.2f} ms of the processor a file", "8 ms")
    record = os.path.getsize(f"{folder}/tiny.fleet/record.jsonl")
    print(f"\nThe record has {record / TINY:.0f} bytes a file. The scheduler held {idle / 1e6:.0f} MB before and {cluster.peak() / 1e6:.0f} MB at most.")
finally:
    cluster.close()

# What a driver holds and does for each file that is done already.
begin, before = time.perf_counter(), processor_time()
run(sys.executable, fleet, "run", given, "-q", "--workers", "4")
print(f"A run over {TINY} files that are all done takes {(processor_time() - before) / TINY * 1e6:.0f} us of the processor a file.")
made = run(sys.executable, "-c", f"import sys, resource; sys.path.insert(0, {root + '/fleet'!r}); from tink_fleet.record import read_record; "
           f"b = resource.getrusage(0).ru_maxrss; read_record({folder + '/tiny.fleet'!r}); print(resource.getrusage(0).ru_maxrss - b)")
print(f"The driver holds {int(made) * 1024 / TINY:.0f} bytes of memory a file of the record.")
PY
