"""The lock of a driver."""
import fcntl
import os
import time

from tink_fleet.errors import Refused

TRIES = 20
SECONDS_BETWEEN_TRIES = 0.05


class Lock:
    """The one driver of a fleet. The lock ends with its process, however that ends."""

    def __init__(self, state: str):
        self.path = os.path.join(state, "lock")
        os.makedirs(state, mode=0o700, exist_ok=True)
        self.fd = os.open(self.path, os.O_CREAT | os.O_RDWR | os.O_CLOEXEC, 0o600)
        # A worker that looks whether its driver lives holds the lock for a moment.
        for _ in range(TRIES):
            try:
                fcntl.flock(self.fd, fcntl.LOCK_EX | fcntl.LOCK_NB)
                break
            except BlockingIOError:
                time.sleep(SECONDS_BETWEEN_TRIES)
        else:
            holder = os.pread(self.fd, 200, 0).decode(errors="replace").strip()
            os.close(self.fd)
            raise Refused(f"{self.path}: another driver is at work ({holder}): wait for it, or see `fleet status`")
        os.ftruncate(self.fd, 0)
        os.pwrite(self.fd, f"process {os.getpid()} of {os.uname().nodename}\n".encode(), 0)

    def close(self) -> None:
        os.ftruncate(self.fd, 0)
        os.close(self.fd)


def is_driven(state: str) -> bool:
    """Whether a driver holds the lock."""
    try:
        fd = os.open(os.path.join(state, "lock"), os.O_RDONLY | os.O_CLOEXEC)
    except FileNotFoundError:
        return False
    try:
        fcntl.flock(fd, fcntl.LOCK_SH | fcntl.LOCK_NB)
        return False
    except BlockingIOError:
        return True
    finally:
        os.close(fd)
