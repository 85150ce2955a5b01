"""The processes of a group, each asked one at a time, and the way of their packets."""
import collections
import os
import re

from folder import has_log
from process import Process
from stored import Log, Stopped, read, replace


class Carrier:
    def __init__(self, folder):
        """Has the lock of each process's log, and no process yet."""
        self.folder, self.queue = folder, collections.deque()
        names = [(kind, it) for kind, its in folder.numbers.items() for it in its]
        self.logs = {it: Log("%s/%s-%d" % (folder.room, *it)) for it in names if has_log(folder.room, "%s-%d" % it)}

    def begin(self, focusd, sections):
        """Begins all of them, and brings them to where the others are."""

        def begun(kind):
            its = [(it, log) for (of, it), log in self.logs.items() if of == kind]
            return {str(it): Process(log, focusd, kind, self.folder.head(kind, it), sections, self.send) for it, log in its}

        self.nodes, self.agents = begun("node"), begun("agent")
        self.send_again()
        self.catch_up()

    def send(self, whom, packet):
        """Of each period one packet that asks for promises, or one with a cut, is kept for who is away."""
        if found := re.match(rb"P1\|[^|]+\|(?:prepare|accept)\|(\d+)\|", packet):
            path = f"{self.folder.room}/periods/{int(found[1])}"
            if not os.path.exists(path):
                replace(path, packet)
        self.queue.append((whom, packet))

    def carry(self):
        """Hands on what was sent, and what is sent for it, until nothing is left."""
        while self.queue:
            whom, packet = self.queue.popleft()
            for number, node in self.nodes.items():
                if whom in ("all", number):
                    node.take(packet)

    def send_again(self):
        """Sends each batch to all nodes: one that was journaled may have reached none. Where its agent is away, a node may have it. An agent
        that lacks a batch which a node has goes on from an older log, and would journal another in its place."""
        for agent in self.folder.numbers["agent"]:
            seq, own = 1, self.agents.get(str(agent))
            while True:
                if not own or own.ask(b"again %d\n" % seq)[0] != "sent":
                    if not any(it.ask(b"give %d %d\n" % (agent, seq))[0] == "sent" for it in self.nodes.values()):
                        break
                    if own:
                        raise Stopped(f"agent-{agent} has an older log: a node has its batch {seq}, and it has not")
                self.carry()
                seq += 1

    def known(self):
        return max((it.at for it in self.nodes.values()), default=0)

    def catch_up(self):
        """Who knows a period answers the packet that was kept of it with the cut. Who was away gets that."""
        for node in self.nodes.values():
            for period in range(node.at, self.known()):
                if os.path.exists(path := f"{self.folder.room}/periods/{period}"):
                    next(it for it in self.nodes.values() if it.at > period).take(read(path))
                    while self.queue:
                        node.take(self.queue.popleft()[1])

    def shorten(self, long=None):
        for it in (*self.nodes.values(), *self.agents.values()):
            if os.path.getsize(it.log.path) > (it.long if long is None else long):
                it.shorten()
