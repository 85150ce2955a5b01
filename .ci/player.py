"""A player of schedules: what is told of a text of `focusd play`, made without the program.

Texts, refusals, rows and files are by docs/formats.md; what nodes do with packets is by the model (Ballot, Deliveries). A sheet and
an issuer are read by tomllib, and are right.
"""
import copy
import datetime
import re
import tomllib

from greatest_batch import HEAD, field, millionths, price_on, row

MOST_BYTES, MOST_PACKETS, MOST_ROUNDS, MOST_PERIODS = 16_777_216, 1_000_000, 10_000, 1_200
PRICE = "sku price_id from description service category consumed_unit pricing_unit per list contracted".split()
COMMITMENT = "id sku buy category type rate".split()
WHOLE = r"(0|[1-9][0-9]*)"


class Refused(Exception):
    """Of a schedule or of an event; what it says is how it is told."""


# ---- what a schedule says


class Lines:
    """The lines of a text, in turn. What has no line feed is none, but is told of."""

    def __init__(self, text):
        *self.lines, self.rest = text.split(b"\n")
        self.at = 0

    def next(self, code, *forms):
        """The numbers of the next line, by the first form that it has, with the place of the form."""
        if self.at == len(self.lines):
            raise Refused(f"L7 line {self.at + 1}" if self.rest else f"{code} line {self.at + 1}")
        self.at += 1
        for place, (form, *limits) in enumerate(forms):
            found = re.fullmatch(form.replace("N", WHOLE).encode(), self.lines[self.at - 1])
            numbers = [int(it) for it in found.groups()] if found else []
            if found and all(least <= it <= most for it, (least, most) in zip(numbers, limits)):
                return [place, *numbers]
        raise Refused(f"{code} line {self.at}")

    def section(self, count):
        """The lines that the one before counts."""
        if len(self.lines) < self.at + count:
            raise Refused(f"L7 line {self.at}")
        self.at += count
        return b"".join(it + b"\n" for it in self.lines[self.at - count : self.at])

    def is_over(self):
        return self.at == len(self.lines) and not self.rest


EVENTS = (
    ("journal N", (1, 1_001)),
    ("deliver N N", (0, 999_999), (0, 98)),
    ("start N", (0, 98)),
    ("restart N", (0, 98)),
    ("export N N", (0, 98), (0, 1_199)),
    ("keep N", (0, 98)),
    ("revive N N", (0, 98), (1, 200_000)),
)


def schedule_in(text):
    """The group of a schedule, and its events, each with the place of its form."""
    if len(text) > MOST_BYTES:
        raise Refused("L8 line 1")
    lines = Lines(text)
    lines.next("L1", ("SCHEDULE 1",))
    nodes = lines.next("L2", ("nodes N", (1, 99)), ("nodes N observers N", (1, 98), (1, 98)))[1:]
    if sum(nodes) > 99:
        raise Refused(f"L2 line {lines.at}")
    agents = lines.next("L3", ("agents N", (1, 64)))[1]
    sheet = lines.section(lines.next("L4", ("sheet N", (1, 200_000)))[1])
    issuer = lines.section(lines.next("L5", ("issuer N", (1, 100)))[1])
    events = []
    while not lines.is_over():
        event = lines.next("L6", *EVENTS)
        counts = EVENTS[event[0]][0].startswith(("journal ", "revive "))
        events.append([*event[:-1], lines.section(event[-1])] if counts else event)
    return World(*nodes[:1], sum(nodes), agents, tomllib.loads(sheet.decode()), tomllib.loads(issuer.decode())), events


MOMENT = "[0-9]{4}-[0-9]{2}-[0-9]{2}T[0-9]{2}:[0-9]{2}:[0-9]{2}Z"
DECIMAL = r"-?(0|[1-9][0-9]{0,11})([.][0-9]{0,5}[1-9])?"
# Each field of a reading behind its kind, and of an amendment, with the fault that is told of it.
READING = ("start V4", "end V4", "text V6", "text V6", "key V6", "value V5", "plan V6", "tags V7", "text V6")
AMENDMENT = ("seq V5", "index V5", "value V5")


def moment_in(text):
    """The moment that a text is, or None."""
    try:
        return datetime.datetime.strptime(text, "%Y-%m-%dT%H:%M:%SZ") if re.fullmatch(MOMENT, text, re.A) else None
    except ValueError:
        return None


def is_right(name, text, record):
    """Whether a field of a record has the form that is asked of it."""
    kind = record[0]
    if name == "start":
        return moment_in(text) is not None
    if name == "end":
        return moment_in(text) is not None and moment_in(record[1]) < moment_in(text)
    if name == "value":
        may_be_negative = kind in list("CTAX")
        return re.fullmatch(DECIMAL, text, re.A) and text != "-0" and (may_be_negative or text[0] != "-")
    if name in ("seq", "index"):
        least, most = (1, 1_000_000) if name == "seq" else (0, 999)
        return re.fullmatch(WHOLE, text, re.A) and least <= int(text) <= most
    if not all(" " <= it <= "~" for it in text) or (name == "key" and not text) or (name == "plan" and text and kind in list("CTA")):
        return False
    keys = [it.split("=")[0] for it in text.split(";")] if name == "tags" and text else []
    return all(keys) and all("=" in it for it in text.split(";") if keys) and all(a < b for a, b in zip(keys, keys[1:]))


def batch_in(text):
    """The agent, the sequence and the records of a batch. Of format B2 a reading has its region for a tenth field."""
    *lines, rest = text.decode("latin-1").split("\n")
    head = re.fullmatch(rf"B([12])\|{WHOLE}\|{WHOLE}\|{WHOLE}", lines[0]) if lines else None
    if len(text) > 65_536 or not head:
        raise Refused("G1 V8 line 1" if len(text) > 65_536 else "G1 V1 line 1")
    version, agent, seq, count = map(int, head.groups())
    if not 1 <= agent <= 64 or not 1 <= seq <= 1_000_000 or count > 1_000:
        raise Refused("G1 V1 line 1")
    records = [it.split("|") for it in lines[1 : count + 1]]
    for place, record in enumerate(records):
        if len(record) != {"X": 4}.get(record[0], 8 + version if record[0] in list("UPCTA") else 0):
            raise Refused(f"G1 V3 line {place + 2}")
        for form, field in zip(AMENDMENT if record[0] == "X" else READING, record[1:]):
            name, code = form.split()
            if not is_right(name, field, record):
                raise Refused(f"G1 {code} line {place + 2}")
    if len(lines) != count + 1 or rest:
        raise Refused(f"G1 V2 line {min(len(lines), count + 1) + 1}")
    return agent, seq, records


def check_kept(text):
    """Refuses what is no kept text, by its first fault."""
    *lines, rest = text.split(b"\n")
    at = 0

    def fault(code):
        return Refused(f"G14 {code} line {at + 1}")

    def numbers(code, form, limits):
        found = re.fullmatch(form.replace("N", WHOLE).encode(), lines[at]) if at < len(lines) else None
        of = [int(it) for it in found.groups()] if found else []
        if not found or not all(least <= it <= most for it, (least, most) in zip(of, limits)):
            raise fault(code)
        return of

    limits = (1, 64), (0, 10_000), (0, 1_200), (0, 990_098), (0, 990_098), (0, 64_000_000)
    agents, _, learned, _, ballot, batches = numbers("H1", r"K1\|N\|N\|N\|N\|N\|N", limits)
    for at in range(1, 1 + learned + bool(ballot)):
        numbers("H2", r"\|".join("N" * agents), [(0, 1_000_000)] * agents)
    at, before = 1 + learned + bool(ballot), (0, 0)
    for _ in range(batches):
        found = re.fullmatch(rb"B\d\|[^|]*\|[^|]*\|(\d{1,4})", lines[at]) if at < len(lines) else None
        behind = at + 1 + int(found[1]) if found else 0
        if not found or len(lines) < behind:
            raise fault("H3")
        try:
            agent, seq, _ = batch_in(b"".join(it + b"\n" for it in lines[at:behind]))
        except Refused:
            raise fault("H3") from None
        if agent > agents or (agent, seq) <= before:
            raise fault("H4")
        at, before = behind, (agent, seq)
    if at < len(lines) or rest:
        raise fault("H5")


# ---- the group


class Node:
    def __init__(self):
        self.held, self.learned, self.round, self.promised, self.vote = set(), [], 0, 0, None
        self.wake()

    def wake(self):
        """A restart: these are lost, the others kept."""
        self.attempt, self.tally = None, {}

    def learn(self, cut):
        self.learned.append(cut)
        self.promised, self.vote = 0, None
        self.wake()


class World:
    def __init__(self, voters, nodes, agents, sheet, issuer):
        self.voters = voters
        self.nodes, self.agents, self.issuer = [Node() for _ in range(nodes)], agents, issuer
        self.prices = [tuple(it[key] for key in PRICE) for it in sheet.get("price", [])]
        self.commitments = [tuple(it[key] for key in COMMITMENT) for it in sheet.get("commitment", [])]
        self.regions = {it["id"]: it["name"] for it in sheet.get("region", [])}
        self.base = sheet["base"]
        self.journals, self.packets, self.texts = [[] for _ in range(agents)], [], {}

    def reply(self, event):
        try:
            done = self.journal, self.deliver, self.start, self.restart, self.export, self.keep, self.revive
            return done[event[0]](*event[1:])
        except Refused as why:
            return f"refused {why}\n"

    def send(self, packet):
        if len(self.packets) == MOST_PACKETS:
            raise Refused("G11")
        self.packets.append(packet)
        return len(self.packets) - 1

    def node(self, i):
        if i >= len(self.nodes):
            raise Refused("G6")
        return self.nodes[i]

    def moment(self, period):
        """The first moment of a period."""
        month = int(self.base[:4]) * 12 + int(self.base[5:]) - 1 + period
        return f"{month // 12:04}-{month % 12 + 1:02}-01T00:00:00Z"

    # Journals

    def check_priced(self, record):
        found = [it for it in self.commitments if it[0] == record[7]]
        fits = not record[7] or (found and found[0][1 if record[0] == "U" else 2] == record[5])
        if not fits or not price_on(self.prices, record[5], record[1][:10]):
            raise Refused("G4")

    def journal(self, text):
        agent, seq, records = batch_in(text)
        if agent > self.agents:
            raise Refused("G12")
        journal = self.journals[agent - 1]
        if seq != len(journal) + 1:
            raise Refused(f"G2 wanted {len(journal) + 1}")
        for place, record in enumerate(records):
            if record[0] == "X":
                of, index = int(record[1]), int(record[2])
                there = records[:place] if of == seq else journal[of - 1] if of < seq else []
                kind = there[index][0] if index < len(there) else "X"
                if kind == "X" or (kind in "UP" and record[3][0] == "-"):
                    raise Refused("G3")
            elif record[0] in "UP":
                self.check_priced(record)
        packet = self.send(("batch", agent, seq))
        journal.append(records)
        self.texts[agent, seq] = text.decode()
        return f"journaled packet {packet}\n"

    # Ballots

    def due_front(self, node):
        """Of each agent the last of the batches that a node holds without a gap and that are due for its period."""
        end = self.moment(len(node.learned) + 1)
        front = list(node.learned[-1] if node.learned else [0] * self.agents)
        for a, journal in enumerate(self.journals):
            while (a + 1, front[a] + 1) in node.held and all(it[0] == "X" or it[1] < end for it in journal[front[a]]):
                front[a] += 1
        return tuple(front)

    def handle(self, i, node, kind, *told):
        """What a node does with a packet: the one that it sends, if any."""
        if kind == "batch":
            node.held.add(told)
            return None
        period, ballot, *told = told
        majority = self.voters // 2 + 1
        if kind in ("prepare", "accept") and period < len(node.learned):
            return ("decided", period, 0, node.learned[period])
        if period != len(node.learned) or (i >= self.voters and kind in ("prepare", "promise", "accept")):
            return None
        if kind == "prepare" and ballot > node.promised:
            node.promised = ballot
            return ("promise", period, ballot, i, node.vote)
        if kind == "promise" and node.attempt and node.attempt[0] == ballot:
            votes = node.attempt[1]
            votes[told[0]] = told[1]
            if len(votes) >= majority and not node.attempt[2]:
                node.attempt[2] = True
                cut = max([it for it in votes.values() if it], default=(0, None))[1]
                return ("accept", period, ballot, cut or self.due_front(node))
        if kind == "accept" and ballot >= node.promised:
            node.promised, node.vote = ballot, (ballot, told[0])
            return ("accepted", period, ballot, i, told[0])
        if kind == "accepted":
            node.tally.setdefault(ballot, set()).add(told[0])
            if len(node.tally[ballot]) >= majority:
                node.learn(told[1])
        if kind == "decided":
            node.learn(told[0])
        return None

    def deliver(self, k, i):
        if k >= len(self.packets):
            raise Refused("G5")
        node = self.node(i)
        if len(self.packets) == MOST_PACKETS:
            node = copy.deepcopy(node)
        learned = len(node.learned)
        packet = self.handle(i, node, *self.packets[k])
        told = f" sent {self.send(packet)}" if packet else ""
        told += f" learned {learned}" if len(node.learned) > learned else ""
        self.nodes[i] = node
        return f"delivered{told}\n"

    def start(self, i):
        node = self.node(i)
        if i >= self.voters:
            raise Refused("G13")
        if len(node.learned) == MOST_PERIODS or node.round == MOST_ROUNDS:
            raise Refused("G9" if len(node.learned) == MOST_PERIODS else "G10")
        ballot = (node.round + 1) * self.voters + i
        packet = self.send(("prepare", len(node.learned), ballot))
        node.round, node.attempt = node.round + 1, [ballot, {}, False]
        return f"started ballot {ballot} packet {packet}\n"

    def restart(self, i):
        self.node(i).wake()
        return "restarted\n"

    # What a node keeps

    def kept_text(self, node):
        ballot, *voted = node.vote or (0,)
        cuts, ballots = node.learned + voted, (node.promised, ballot)
        lines = [("K1", self.agents, node.round, len(node.learned), *ballots, len(node.held)), *cuts]
        return "".join("|".join(map(str, it)) + "\n" for it in lines) + "".join(self.texts[it] for it in sorted(node.held))

    def keep(self, i):
        text = self.kept_text(self.node(i))
        return "kept lines %d\n" % text.count("\n") + text

    def revive(self, i, text):
        node = self.node(i)
        check_kept(text)
        if text.decode("latin-1") != self.kept_text(node):
            raise Refused("G15")
        return self.restart(i)

    # Exports

    def export(self, i, period):
        node = self.node(i)
        if period >= len(node.learned):
            raise Refused(f"G7 learned {len(node.learned)}")
        to = node.learned[period]
        for a, last in enumerate(to):
            for seq in range(1, last + 1):
                if (a + 1, seq) not in node.held:
                    raise Refused(f"G8 agent {a + 1} seq {seq}")
        rows = self.rows(period, node.learned[period - 1] if period else [0] * self.agents, to)
        lines = [HEAD] + [[it[name] for name in HEAD] for it in rows]
        file = "".join(",".join(map(field, it)) + "\n" for it in lines)
        return f"exported period {period} lines {len(lines)}\n{file}"

    def rows(self, period, before, to):
        bounds = self.moment(period), self.moment(period + 1)
        for journal, low, high in zip(self.journals, before, to):
            then, now, records = {}, {}, []
            for seq, batch in enumerate(journal[:high], 1):
                for index, record in enumerate(batch):
                    place = (int(record[1]), int(record[2])) if record[0] == "X" else (seq, index)
                    now[place] = millionths(record[3 if record[0] == "X" else 6])
                    if seq <= low:
                        then[place] = now[place]
                    if record[0] != "X":
                        records.append((place, record))
            for place, record in records:
                if place not in then or then[place] != now[place]:
                    of_what = self.prices, self.commitments, self.issuer, self.regions
                    made = row(record, then.get(place, 0), now[place], bounds, *of_what)
                    yield {**made, "ChargeClass": "Correction"} if place in then else made


def told_of(text):
    """What is told of a schedule: status, standard output, standard error."""
    try:
        world, events = schedule_in(text)
    except Refused as why:
        return 1, b"", f"focusd: refused {why}\n".encode()
    return 0, "".join(map(world.reply, events)).encode(), b""
