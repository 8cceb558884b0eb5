"""The bytes of a plan's file, bounded in their number and in the time that is waited for them."""
import os
import select
import stat
import sys
import time

from planning.ending import bad

MOST_BYTES = 16 << 20
MOST_SECONDS = 60.0         # for all that comes through a pipe
CHUNK = 1 << 16


def bytes_of(path):
    """Of a file, a pipe with a name, or standard input for `-`."""
    if path == "-" and sys.stdin is None:
        raise bad("standard input is closed")
    try:
        # Without O_NONBLOCK a pipe that nobody writes to would be waited for without end.
        handle = os.dup(sys.stdin.fileno()) if path == "-" else os.open(path, os.O_RDONLY | os.O_NONBLOCK | os.O_CLOEXEC)
        try:
            return settled(handle) if stat.S_ISREG(os.fstat(handle).st_mode) else awaited(handle)
        finally:
            os.close(handle)
    except (OSError, ValueError) as problem:
        raise bad(getattr(problem, "strerror", None) or "it can't be read")


def settled(handle):
    """All of a file to which nobody writes meanwhile."""
    before = os.fstat(handle)
    written_to = bad("it was written to while it was read; ask again when it is whole")

    def wait(count):
        # A file that grows has no end to wait for; those that the system makes up have no size.
        if count > before.st_size > 0:
            raise written_to
    data, after = all_bytes(handle, wait), os.fstat(handle)
    if (before.st_size, before.st_mtime_ns) != (after.st_size, after.st_mtime_ns):
        raise written_to
    return data


def awaited(handle):
    """All that comes through a pipe, from a device, or from a terminal, where a person may take any time."""
    ready, end = select.poll(), time.monotonic() + MOST_SECONDS
    ready.register(handle, select.POLLIN)

    def wait(count):
        left = None if os.isatty(handle) else max(0, 1000 * (end - time.monotonic()))
        if not ready.poll(left):
            raise bad("its end didn't come in %g s, %d bytes did" % (MOST_SECONDS, count) if count else "nothing came in %g s: it is a pipe, and nobody writes to it" % MOST_SECONDS)
    return all_bytes(handle, wait)


def all_bytes(handle, wait):
    """Up to the end, or to one more than the most; before each part `wait` is told how many there are."""
    data = bytearray()
    while True:
        wait(len(data))
        part = os.read(handle, CHUNK)
        data += part
        if len(data) > MOST_BYTES:
            raise bad("it has more than %d bytes" % MOST_BYTES)
        if not part:
            return bytes(data)
