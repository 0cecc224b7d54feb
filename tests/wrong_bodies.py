"""wrong_bodies.py: reads what `rt ci` or `rt must-fail` prints, passes it on, and counts the wrong bodies by what refused each.

contract: the search found no proof of a goal of the contract.
answer:   what is written for such a goal no longer fits: its answer, or the invariant of a loop before it.
proof:    only the proof failed: a removed name, a lemma, a limit of the prover, a place or a number out of range. So too if
          the answer speaks of a value before a call that the edit added: a right body with this call fails there as well.
open:     not refused, or not tried.

`python3 -m doctest tests/wrong_bodies.py` checks the rule on lines that the toolchain printed.
"""
import pathlib
import re
import sys

EDIT = re.compile(r"(?:rt: )?must-fail ((\S+)/(\S+\.edit)): (.*)")
REFUSED = "refused, as it must be"
# What is not proved, at a line of the source; the goal's name comes last, and may be cut off.
OPEN_GOAL = re.compile(r": note: (?:\./)?(?:src|specs)/\S+: it is not proved that (.*)")
# An answer of a goal that antt refuses, with the goal's name.
ANSWER = re.compile(r": (?:note: )?(?:\./)?proofs/\S*Answers\.antt:\S+ error: `([^`]+)`: ")
# A goal's name says what it is of: what is returned, what a call requires, what a type holds.
OF_CONTRACT = re.compile(r"returns(-|$)|invariant_of-|.+-requires(-|$)|requires(-|$)")
# The index of a list, which is a call of std.
OF_INDEX = re.compile(r"(.*-)?index(_mut)?(-.*)?-requires(-|$)")
OF_LOOP = re.compile(r".+-(init|preserved)(-|$)")
# The same at a line of the source, in the check's words.
SAID_OF_CONTRACT = re.compile(r"what the function ensures|what `(?!index)[^`]*` requires|what the trait object requires|the struct's ghost fields|the `invariant`")
SAID_OF_LOOP = re.compile(r"the invariant ")
# What is wanted of a value after a call.
AFTER_CALL = re.compile(r"where one has `c\.(\w+)(?:-[\w-]+)?\.new\b")
CALL = re.compile(r"(\w+)\(")


def of_goal(goal):
    """What refused an edit if the written answer of this goal no longer fits."""
    if OF_INDEX.match(goal):
        return "proof"
    return "answer" if OF_CONTRACT.match(goal) or OF_LOOP.match(goal) else "proof"


def added_calls(edit):
    """The calls that an edit adds to the body."""
    if not edit.is_file():
        return set()
    lines = edit.read_text(encoding="utf-8").split("\n")
    calls = {part: {name for line in lines if line.startswith(part) for name in CALL.findall(line)} for part in ("old:", "new:")}
    return calls["new:"] - calls["old:"]


def why(said, added=frozenset()):
    """What refused an edit, by what is said of it and the calls that it adds.

    >>> why("refused, as it must be: note: src/lib.rt:11:1: it is not proved that what the function ensures holds when it returns (`returns`)")
    'contract'
    >>> why("refused, as it must be: ./proofs/places/take_out/Answers.antt:5:13: error: `returns`: as printed, the two types differ only where one has `c.retain")
    'answer'
    >>> why("refused, as it must be: ./proofs/places/take_out/Answers.antt:5:13: error: `returns`: where one has `c.retain.new.self.items`", {"retain"})
    'proof'
    >>> why("refused, as it must be: note: src/lib.rt:9:1: it is not proved that the subtraction does not go below 0 (`overflow_sub-n`)")
    'proof'
    >>> why("refused, as it must be (only because a proof file names what the edit took away, so this says little of the contract: change a value and keep")
    'proof'
    >>> why("NOT REFUSED: the crate is still proved with this edit")
    'open'
    """
    if not said.startswith(REFUSED):
        return "open"
    said = said[len(REFUSED) :]
    goal = OPEN_GOAL.match(said)
    if goal and SAID_OF_CONTRACT.match(goal[1]):
        return "contract"
    if goal and SAID_OF_LOOP.match(goal[1]):
        return "answer"
    answer, after = ANSWER.match(said), AFTER_CALL.search(said)
    if not answer or after and after[1] in added:
        return "proof"
    return of_goal(answer[1])


def main():
    found = {"contract": [], "answer": [], "proof": [], "open": []}
    for line in sys.stdin:
        print(line, end="", flush=True)
        edit = EDIT.match(line)
        if edit:
            added = added_calls(pathlib.Path("crates", edit[2], "must-fail", edit[3]))
            found[why(edit[4], added)].append(edit[1])
    for name in found["answer"]:
        print(f"refused by a written answer: {name}")
    for name in found["proof"]:
        print(f"refused by its proof alone: {name}")
    for name in found["open"]:
        print(f"not refused, or not tried: {name}")
    counts = ", ".join(f"{len(names)} {kind}" for kind, names in found.items())
    print(f"wrong bodies by what refused them: {counts}")
    sys.exit(1 if found["proof"] or found["open"] or not (found["contract"] or found["answer"]) else 0)


if __name__ == "__main__":
    main()
