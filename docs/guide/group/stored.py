"""What a host stores: files, and the log of each process, under a lock."""
import fcntl
import os
import re

STEP = re.compile(rb"(?:round|ballot|learned)\||batch ")  # the first line of a step in a log


class Stopped(Exception):
    """What the host can't go on from."""


def read(path):
    with open(path, "rb") as file:
        return file.read()


def write(path, text, mode):
    """Writes, and sees it stored."""
    with open(path, mode) as file:
        file.write(text)
        file.flush()
        os.fsync(file.fileno())


def replace(path, text):
    """Writes a file anew: it takes the old one's name once it is stored."""
    write(f"{path}.new", text, "wb")
    os.replace(f"{path}.new", path)
    sync(os.path.dirname(path))


def sync(path):
    at = os.open(path, os.O_RDONLY)
    os.fsync(at)
    os.close(at)


class Log:
    """What a process stored, under a lock that no other host on this machine gets as long as this one has it: that of the folder. No
    other may write it, or put another in its place."""

    def __init__(self, room):
        self.room, self.path, self.size, self.lock = room, f"{room}/log", 0, os.open(room, os.O_RDONLY)
        try:
            fcntl.flock(self.lock, fcntl.LOCK_EX | fcntl.LOCK_NB)
        except BlockingIOError:
            raise Stopped(f"another host has the lock of {os.path.basename(room)}") from None

    def unlock(self):
        os.close(self.lock)

    def text(self):
        """Its whole lines. A piece of a line is cut off: nothing that stands behind it in an answer was passed on."""
        text = read(self.path)
        self.look(len(text))
        whole = text[: text.rfind(b"\n") + 1]
        if not whole:
            raise Stopped(f"{os.path.basename(self.room)} has a log without a line")
        if whole != text:
            self.cut_to(whole)
        return whole

    def settled(self):
        """The same, written anew: a host that ended may have written lines and not seen them stored."""
        whole = self.text()
        self.renew(whole)
        return whole

    def renew(self, text):
        self.look(os.path.getsize(self.path))
        replace(self.path, text)
        self.size = len(text)

    def cut(self, line):
        """Cuts off what begins on a line, if it is the last step, which is taken never to have been stored whole. A kept text was, before
        the log had its name; and where a step would take others with it, lines are lost that were stored."""
        lines = self.text().splitlines(True)
        if lines[line - 1].startswith(b"kept ") or any(STEP.match(it) for it in lines[line:]):
            raise Stopped(f"{os.path.basename(self.room)} has lost lines of its log that were stored")
        self.cut_to(b"".join(lines[: line - 1]))

    def cut_to(self, text):
        """Says how much goes, and has what is left of it: a host that ends between the two has said so, and the next one says it again."""
        torn = os.path.getsize(self.path) - len(text)
        print(f"{os.path.basename(self.room)}: a torn end of {torn} bytes is cut off its log", flush=True)
        self.renew(text)

    def look(self, size):
        """It is as long as it was left, once this host has read it."""
        if self.size not in (0, size):
            raise Stopped(f"the log of {os.path.basename(self.room)} was changed by another")

    def append(self, text):
        self.look(os.path.getsize(self.path))
        write(self.path, text, "ab")
        self.size += len(text)
