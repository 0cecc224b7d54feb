"""The command line."""
import argparse
import dataclasses
import json
import os
import signal
import sys
import time
from collections.abc import Callable

from tink_fleet.driver import Driver, Engine, Summary
from tink_fleet.errors import FleetError, Refused, shown
from tink_fleet.manifest import Manifest, read_manifest
from tink_fleet.program import KEYS_FD

DONE, FAILED, WRONG, REFUSED = 0, 1, 2, 3


def main(words: list[str]) -> int:
    given = parser().parse_args(words)
    # A name of a file that is no UTF-8 is shown by its bytes.
    sys.stdout.reconfigure(errors="backslashreplace")
    signal.signal(signal.SIGTERM, lambda *_: sys.exit(128 + signal.SIGTERM))
    try:
        return given.do(given)
    except Refused as e:
        print(f"fleet: {e}", file=sys.stderr)
        return REFUSED
    except FleetError as e:
        print(f"fleet: {e}", file=sys.stderr)
        return WRONG
    except OSError as e:
        print(
            f"fleet: {e.filename or 'the system'}: {e.strerror}: what was done stays done; correct this, and run again",
            file=sys.stderr,
        )
        return WRONG
    except KeyboardInterrupt:
        print("fleet: stopped; what was done stays done: run again to go on", file=sys.stderr)
        return 128 + signal.SIGINT


def parser() -> argparse.ArgumentParser:
    made = argparse.ArgumentParser(
        prog="fleet",
        description="Encrypts, decrypts, checks and rewraps many files by tink.",
        epilog="docs/FLEETS.md has a whole example.",
    )
    commands = made.add_subparsers(required=True, metavar="COMMAND")
    run = commands.add_parser("run", help="do what a manifest describes and is not done")
    run.add_argument("--again", action="store_true", help="begin a new record, and do everything again")
    run.set_defaults(do=run_manifest)
    status = commands.add_parser("status", help="how far it is: done, failed, left, speed, time left")
    status.add_argument("manifest", metavar="MANIFEST")
    status.add_argument("--json", action="store_true", help="as one object of JSON")
    status.set_defaults(do=show_status)
    rotate = commands.add_parser("rotate", help="a whole rotation of the keys: print the plan, and run it")
    rotate.add_argument("--template", required=True, help="the template of the new key, as AES256_GCM_HKDF_1MB")
    rotate.add_argument(
        "--distribute", metavar="COMMAND", help="a command that brings the file of keys, its last word, to the workers"
    )
    rotate.add_argument("--plan", action="store_true", help="print the plan alone")
    rotate.set_defaults(do=rotate_keys)
    for it in (run, rotate):
        it.add_argument("manifest", metavar="MANIFEST")
        it.add_argument(
            "--workers",
            type=int,
            metavar="N",
            help="processes on this machine, by GNU parallel; one for each processor where it is left out",
        )
        it.add_argument(
            "--scheduler", metavar="ADDRESS", help="the scheduler of a Dask cluster, as tcp://127.0.0.1:8786"
        )
        it.add_argument(
            "-k",
            dest="keys",
            metavar="KEYS",
            help="the file of keys, the same path on each worker; for `run` on one machine also `-`, standard input",
        )
        it.add_argument(
            "--master", metavar="MASTER", help="the file of keys on each worker under which KEYS is wrapped"
        )
        it.add_argument("--program", metavar="TINK", help="the program tink, where it is not in PATH")
        it.add_argument("-q", "--quiet", action="store_true", help="say errors alone")
    return made


def manifest_of(given: argparse.Namespace) -> Manifest:
    manifest = read_manifest(given.manifest)
    words = {"keys": given.keys, "master": given.master, "program": given.program}
    paths = {
        word: value if value == "-" or word == "program" else os.path.abspath(value)
        for word, value in words.items()
        if value
    }
    return dataclasses.replace(manifest, **paths)


def engines(given: argparse.Namespace, keys_fd: int | None) -> Callable[[str], Engine]:
    """What makes the engine for a state folder."""
    if given.scheduler and given.workers:
        raise FleetError(
            "--workers and --scheduler: give one of them; a cluster has the workers that were started for it"
        )
    if given.scheduler and keys_fd is not None:
        raise FleetError(
            "-k -: keys on standard input stay on this machine: for a cluster, bring a wrapped file of keys and a master to each worker"
        )
    if given.workers is not None and given.workers < 1:
        raise FleetError("--workers: give a number from 1 on")

    def made(state: str) -> Engine:
        if given.scheduler:
            from tink_fleet.dask_engine import DaskEngine

            return DaskEngine(given.scheduler)
        from tink_fleet.parallel_engine import ParallelEngine

        os.makedirs(state, mode=0o700, exist_ok=True)
        return ParallelEngine(state, given.workers or len(os.sched_getaffinity(0)), keys_fd)

    return made


def keys_of_input(manifest: Manifest) -> int | None:
    """The keys of standard input, in a file of the memory alone, which the workers of this machine inherit."""
    if manifest.keys != "-":
        return None
    if sys.stdin.isatty():
        raise FleetError("-k -: the keys come on standard input: `fleet run -k - .. < KEYS`")
    fd = os.memfd_create("tink-fleet-keys")
    with os.fdopen(os.dup(fd), "wb") as held:
        held.write(sys.stdin.buffer.read())
    os.environ[KEYS_FD] = str(fd)
    return fd


def run_manifest(given: argparse.Namespace) -> int:
    manifest = manifest_of(given)
    made = Driver(manifest, engines(given, keys_of_input(manifest)), again=given.again, quiet=given.quiet).run()
    tell(manifest, made, given.quiet)
    return FAILED if made.failed else DONE


def tell(manifest: Manifest, made: Summary, quiet: bool) -> None:
    for line in made.failures:
        print(shown(f"fleet: {line}"), file=sys.stderr)
    if made.failed > len(made.failures):
        print(f"fleet: and {made.failed - len(made.failures)} more: `fleet status {manifest.file}`", file=sys.stderr)
    if not quiet:
        kept = f", {made.skipped} were done before" if made.skipped else ""
        print(
            f"{manifest.operation}: {made.done} done, {made.failed} failed{kept}; {made.bytes / 1e6:.1f} MB in {made.seconds:.1f} s"
        )


def show_status(given: argparse.Namespace) -> int:
    from tink_fleet.status import as_json, lines_of, status_of

    made = status_of(read_manifest(given.manifest))
    print(json.dumps(as_json(made)) if given.json else "\n".join(lines_of(made)))
    return FAILED if made.failed else DONE


def rotate_keys(given: argparse.Namespace) -> int:
    from tink_fleet.rotate import Rotation

    manifest = manifest_of(given)
    rotation = Rotation(manifest, given.template, given.distribute, engines(given, None), given.quiet)
    print("\n".join(rotation.plan()), flush=True)
    if given.plan:
        return DONE
    began = time.monotonic()
    rotation.run(lambda text: print(text, flush=True))
    old = rotation.progress.old
    print(
        f"rotated in {time.monotonic() - began:.1f} s: {manifest.source} is under key {rotation.progress.new}; key {old} is disabled, and {rotation.way_back()} takes that back"
    )
    return DONE
