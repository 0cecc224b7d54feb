"""The errors that a user reads."""


def shown(text: str) -> str:
    """A text in one line: a name may have newlines and other characters that a terminal obeys. The program spells them so."""
    return "".join(it if it.isprintable() or "\udc80" <= it <= "\udcff" else spelled(it) for it in text)


def spelled(it: str) -> str:
    return f"\\x{ord(it):02x}" if ord(it) < 0x80 else repr(it)[1:-1]


class FleetError(Exception):
    """An error that ends the command. The message names the file, the cause and the remedy."""


class Refused(FleetError):
    """The command may not run now: another driver runs, or a step of a rotation met a surprise."""


class TaskError(Exception):
    """One task failed. `status` is the program's, or None where the program did not run."""

    def __init__(self, line: str, status: int | None = None, retry: bool = False):
        super().__init__(line)
        self.line = line
        self.status = status
        self.retry = retry

    def __str__(self) -> str:
        return self.line
