"""A group's folder: its name and its numbers, its sheet and its issuer, and for each process a folder with its log."""
import os

from process import head_line
from stored import Stopped, read, replace, sync
from typed import told_by


def make(room, focusd, name, sizes, sections):
    """A directory with the group's name and numbers, its sheet and its issuer, and a log for each process, of its head line alone. It
    has its name once all of this is stored. There is none where a node can't be begun so."""
    if os.path.exists(room):
        raise Stopped(f"{os.path.basename(room)} is there already, with its sheet and its issuer")
    if os.path.exists(f"{room}.new"):
        raise Stopped(f"{os.path.basename(room)}.new is left of a group that was not finished: remove it")
    told_by([focusd, "node"], b"NODE 1\n%s%snew\n" % (head_line(name, "node", 0, sizes), sections))
    os.mkdir(f"{room}.new")
    os.mkdir(f"{room}.new/periods")
    for kind, numbers in ("node", range(sizes[0] + sizes[1])), ("agent", range(1, sizes[2] + 1)):
        for number in numbers:
            os.mkdir(f"{room}.new/{kind}-{number}")
            replace(f"{room}.new/{kind}-{number}/log", head_line(name, kind, number, sizes))
    replace(f"{room}.new/group", b"%s %d %d %d\n%s" % (name.encode(), *sizes, sections))
    os.rename(f"{room}.new", room)
    sync(os.path.dirname(room))


def has_log(room, name):
    """Whether a process has its log. One that lost it is left away for good, also where some log is put there later."""
    lost = f"{room}/{name}/lost"
    if not os.path.exists(f"{room}/{name}/log"):
        os.makedirs(f"{room}/{name}", exist_ok=True)
        replace(lost, b"")
    if os.path.exists(lost):
        sync(os.path.dirname(lost))  # an operator may have made it
        print(f"{name} has lost its log: it is left away", flush=True)
    return not os.path.exists(lost)


class Folder:
    """The folder of a group, as who begins its processes finds it."""

    def __init__(self, room):
        self.room, self.line = room, read(f"{room}/group").partition(b"\n")[0]
        self.name, *sizes = self.line.decode().split()
        self.sizes = self.voters, observers, agents = tuple(map(int, sizes))
        self.numbers = {"node": range(self.voters + observers), "agent": range(1, agents + 1)}

    def head(self, kind, number):
        return head_line(self.name, kind, number, self.sizes)

    def sections(self):
        """Sheet and issuer, for who has the locks by now: a host that had them until then may have stored a longer sheet, or named a file
        and ended before that was stored."""
        for it in f"{self.room}/group", self.room, os.path.dirname(os.path.abspath(self.room)):
            sync(it)
        return read(f"{self.room}/group").partition(b"\n")[2]
