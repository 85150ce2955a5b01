"""A node or an agent as a process: what it is asked, and its answers, of which what has to be kept is stored before more is read."""
import os
import re
import subprocess

from stored import Stopped, write

TRIES = 3  # to have a command answered
LONG, LONGEST = 1_048_576, 3_221_225_472  # bytes of a log that is worth to be written anew, and that has to be
KEPT, SEND = re.compile(rb"kept (\d+)\n"), re.compile(rb"send (all|\d+) (\d+)\n")
BELOW = re.compile(rb"(?:exported period \d+|kept) lines (\d+)\n")


class Lost(Exception):
    """A process that ended before it had answered."""


def parts(read_line):
    """The parts of an answer, in their order, each once it is there whole: "kept" with the lines that the log gets, "send" with whom to
    and a packet, "last" with the last line and what stands below it."""

    def lines(found):
        return b"".join(read_line() for _ in range(int(found[found.lastindex])))

    while line := read_line():
        if found := KEPT.fullmatch(line):
            yield "kept", None, lines(found)
        elif found := SEND.fullmatch(line):
            yield "send", found[1].decode(), lines(found)
        else:
            found = BELOW.fullmatch(line)
            yield "last", line.decode().strip(), lines(found) if found else b""
            return


def counted(word, text):
    """A line that counts lines, and these."""
    return b"%s %d\n%s" % (word, text.count(b"\n"), text)


def head_line(name, kind, number, sizes):
    return "|".join(map(str, ("G1", name, kind, number, *sizes))).encode() + b"\n"


class Process:
    """A node or an agent, and its log. `send` gets its packets."""

    def __init__(self, log, focusd, kind, head, sections, send):
        self.log, self.room, self.words, self.head, self.send, self.long = log, log.room, [focusd, kind], head, send, LONG
        self.front, self.sections, self.is_begun = b"%s 1\n%s" % (kind.upper().encode(), head), sections, False
        self.begin()

    def begin(self):
        """Begins it with its log. What another host left is cut where the process says that it is torn: this one stores whole steps alone."""
        self.child = subprocess.Popen(self.words, stdin=subprocess.PIPE, stdout=subprocess.PIPE, stderr=subprocess.PIPE)
        try:
            self.tell(self.front + self.sections + counted(b"log", self.log.settled()))
            _, _, at, *of = self.read_line().split()
            self.at, self.round, self.is_begun = int(at), int(of[1]) if of else 0, True  # a node's period and round, an agent's next sequence
        except Lost as why:
            torn = re.search(r"refused log: torn line (\d+)", str(why))
            if not torn or self.is_begun:
                raise Stopped(f"{os.path.basename(self.room)}: {why}") from None
            self.log.cut(int(torn[1]))
            self.begin()
        write(f"{self.room}/pid", b"%d\n" % self.child.pid, "wb")

    def tell(self, text):
        try:
            self.child.stdin.write(text)
            self.child.stdin.flush()
        except BrokenPipeError:
            self.lose()

    def read_line(self):
        line = self.child.stdout.readline()
        return line if line.endswith(b"\n") else self.lose()

    def lose(self):
        self.child.kill()
        told = self.child.communicate()[1].decode().strip()
        raise Lost(told or f"status {self.child.returncode}")

    def ask_once(self, command):
        """The last line of an answer, and what stands below it. All that is above was stored, and given to `send`, as it came."""
        self.tell(command)
        for part, of, text in parts(self.read_line):
            if part == "kept":
                self.log.append(text)
            elif part == "send":
                self.send(of, text)
        return of, text

    def ask(self, command):
        """The same, also where the process is lost: it is begun again, and asked again."""
        for _ in range(TRIES):
            try:
                return self.ask_once(command)
            except Lost as why:
                print(f"{os.path.basename(self.room)} was lost: {why}", flush=True)
                self.begin()
        raise Stopped(f"{os.path.basename(self.room)} was lost {TRIES} times over one command")

    def take(self, packet):
        """Hands a packet to a node."""
        line = self.ask(counted(b"packet", packet))[0]
        if " learned " in line:
            self.at = int(line.split()[-1]) + 1

    def shorten(self):
        """Writes the log anew, of what is kept alone."""
        text = self.ask(b"keep\n")[1]
        self.log.renew(self.head + counted(b"kept", text))
        self.long = max(LONG, min(4 * len(text), LONGEST))
