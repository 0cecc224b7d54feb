#!/usr/bin/env python3
"""goals.py FOLDER [N]: the N goals, 20 if it is left out, that the check of a crate took most steps for, of those
that were left to the search and of those that have a written answer.

FOLDER is what a check of the crate kept, crates/NAME/out/incremental after `rt check`. A line is the steps, the
function and the goal, which is the name that an answer to it has. Steps are the prover's own count, which does not go
by the machine or by what else runs on it: a million takes about a second on a slow one."""
import glob
import os
import re
import sys

RECORD = re.compile(r'"name":"([^"]*)","notes":.{0,3000}?"steps":\[(\d+)', re.S)


def goals(folder):
    """The steps, the function and the name of each goal, by the records of the folder."""
    for path in glob.glob(f"{glob.escape(folder)}/*/records/*.decls.oantt"):
        module = re.sub(r"^Rattle-\w+-proofs\.", "", os.path.basename(path)).removesuffix(".decls.oantt")
        function, _, kind = module.rpartition(".")
        if kind in ("Proof", "Answers"):
            with open(path, encoding="utf-8", errors="replace") as it:
                for name, steps in RECORD.findall(it.read()):
                    yield int(steps), kind, function, name


found = sorted(goals(sys.argv[1]), reverse=True)
for kind, words in (("Proof", "left to the search"), ("Answers", "answered")):
    print(f"{sum(it[0] for it in found if it[1] == kind):12,} steps of goals that are {words}")
for steps, kind, function, name in found[: int(sys.argv[2]) if len(sys.argv) > 2 else 20]:
    print(f"{steps:12,}  {function}  {name}{' (answered)' * (kind == 'Answers')}")
