"""What GNU parallel starts: one call of a driver, in a process of its own."""
import fcntl
import json
import os
import sys

from tink_fleet import calls
from tink_fleet.locks import is_driven


def work(state: str, number: str) -> int:
    """What `fleet worker STATE NUMBER` does: the call of that number, whose results are one line on standard output."""
    held = os.open(os.path.join(state, "workers"), os.O_RDONLY | os.O_CLOEXEC)
    fcntl.flock(held, fcntl.LOCK_SH)
    try:
        with open(os.path.join(state, "calls", f"{number}.json"), encoding="ascii") as file:
            call = json.load(file)
    except FileNotFoundError:
        # The driver that wrote it is no more.
        return 0
    run = call["job"]["run"].encode()

    def may_go_on() -> bool:
        with open(os.path.join(state, "run"), "rb") as current:
            return current.read() == run and is_driven(state)

    if not may_go_on():
        return 0
    results = calls.perform(call, None, may_go_on)
    sys.stdout.write(json.dumps({"number": int(number), "results": results}) + "\n")
    sys.stdout.flush()
    return 0
