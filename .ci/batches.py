"""Inputs of batches that `focusd schedule` takes: what stands in one, by docs/formats.md and player.py's journals; and some at random."""
import copy
import datetime
import re
import tomllib

from greatest_batch import ISSUER, sheet_lines, toml
from player import Refused, World, batch_in

CLOSE = b"close\n"


# ---- what an input says


def section(word, lines):
    return f"{word} {len(lines)}\n{''.join(it + chr(10) for it in lines)}".encode()


REGIONS = ["[[region]]", 'id = "eu-1"', 'name = "Zürich, 1"']
ODD = ["[[zones]]", 'id = "z-1"']  # no reader takes this table
SHEETS = [section("sheet", [f'base = "{base}"', *sheet_lines()[1:], *REGIONS, *odd]) for base, odd in (("2025-01", []), ("2024-11", []), ("2025-03", ODD))]
ISSUED = section("issuer", [*(f"{key} = {toml(value)}" for key, value in ISSUER), 'note = "x"'])
# What is taken where an input has no sheet, or no issuer.
PLAIN = {"base": "2025-01"}
SAMPLE = {"provider": "Sample Cloud", "publisher": "Sample Cloud", "issuer": "Sample Cloud Ltd", "account_id": "A-100",
          "account_name": "Payer", "currency": "USD", "other_service": "Billing"}


def world_of(front, agents=64):
    """The journals of a group, by the sheet and the issuer, both or none, that stand before the batches."""
    told, lines = {"sheet": PLAIN, "issuer": SAMPLE}, front.decode().split("\n")
    while lines[0]:
        word, count = lines[0].split()
        told[word] = tomllib.loads("\n".join(lines[1 : int(count) + 1]))
        lines = lines[int(count) + 1 :]
    return World(1, 1, agents, told["sheet"], told["issuer"])


def batch_size(text):
    """How many bytes are taken for the next batch: a head line and the lines that it counts, or all that is left where there are
    fewer; of a line that is no head this line."""
    first = text[: text.find(b"\n") + 1] or text
    try:
        batch_in(first)
        return len(first)
    except Refused as why:
        if str(why) != "G1 V2 line 2":
            return len(first)
    lines = text.split(b"\n", int(first.split(b"|")[3]) + 1)
    size = len(text) - len(lines[-1])
    return size if len(lines) == int(first.split(b"|")[3]) + 2 and size <= 65_536 else len(text)


def items_in(front, text):
    """The batches and the lines `close` behind the sections. Refuses the first batch that the journals refuse."""
    world, line, items = world_of(front), 1 + front.count(b"\n"), []
    while text:
        size = len(CLOSE) if text.startswith(CLOSE) else batch_size(text)
        items.append(text[:size])
        if items[-1] != CLOSE:
            try:
                world.journal(items[-1])
            except Refused as why:
                raise Refused(refused_at(world, items[-1], line, why)) from None
        line += items[-1].count(b"\n")
        text = text[size:]
    return items


def refused_at(world, batch, line, why):
    """What is told of a batch that the journals refuse: the line of the input, of which its head stands on this one, and the code."""
    code = re.fullmatch(r"(G1 V\d) line (\d+)|(G\d+).*", str(why))
    within = int(code[2]) - 1 if code[2] else first_refused(world, batch) if code[3] in ("G3", "G4") else 0
    return f"line {line + within}: {code[1] or code[3]}"


def first_refused(world, batch):
    """The number of the record for which the journals refuse a batch: they take it with those above."""
    head, *records = batch.splitlines(True)
    for count in range(1, len(records) + 1):
        try:
            counted = b"|".join([*head.split(b"|")[:3], b"%d\n" % count])
            copy.deepcopy(world).journal(b"".join([counted, *records[:count]]))
        except Refused:
            return count
    return 0


# ---- inputs at random


def month_of(moment):
    return int(moment[:4]) * 12 + int(moment[5:7]) - 1


KINDS = (("U", "c", ""), ("U", "c", "k1"), ("U", "o", 'k"2'), ("U", "d", ""), ("P", "p", "k1"), ("P", "p", ""), ("P", "c", ""),
         ("C", 'Gift, "x"', ""), ("T", "VAT 7 %", ""), ("A", '"', ""))


def some_record(rng, month, kinds, places, version):
    """A reading that starts in about that month, or an amendment of the one at some place."""
    value = rng.choice(("0", "1", "5400", "0.000001", "-2.5", "-0.25", "999999.999999", str(rng.randint(1, 10**6))))
    if places and rng.random() < 0.4:
        return "X|%d|%d|" % rng.choice(places) + value
    kind, key, plan = rng.choice(kinds)
    start = datetime.datetime(month // 12, month % 12 + 1, 1) + datetime.timedelta(seconds=rng.choice((-1, 0, rng.randint(0, 27 * 86_400))))
    end = start + datetime.timedelta(seconds=rng.choice((1, 3_600, 40 * 86_400)))
    region = "|" + rng.choice(("", "eu-1", "us, 9")) if version == 2 else ""
    return f"{kind}|{start.isoformat()}Z|{end.isoformat()}Z|acc|vm,1|{key}|{value}|{plan}|{rng.choice(('', 'a=1;b=', 'env=x'))}{region}"


def some_batch(rng, world, agent, month, kinds):
    """A batch that the journals take, and have taken."""
    while True:
        version, journal = rng.randint(1, 2), world.journals[agent - 1]
        places = [(seq, index) for seq, batch in enumerate(journal, 1) for index, it in enumerate(batch) if it[0] != "X"]
        records = []
        for index in range(rng.randint(0, 4)):
            records.append(some_record(rng, month, kinds, places, version))
            places += [(len(journal) + 1, index)] * (records[-1][0] != "X")
        text = "".join(it + "\n" for it in (f"B{version}|{agent}|{len(journal) + 1}|{len(records)}", *records)).encode()
        try:
            world.journal(text)
            return text
        except Refused:
            pass


def some_input(rng):
    """The sections, the batches with lines `close` among them, and what is asked for."""
    sheet, issuer = rng.choice((b"", *SHEETS)), rng.choice((b"", ISSUED))
    world, agents = world_of(sheet + issuer), rng.choice(((1,), (1, 2), (1, 2, 3), (2, 5, 64)))
    items, month, often = [], month_of("2025-01") + rng.randint(-1, 1), rng.choice((0, 0.3, 0.6))
    for _ in range(rng.randint(1, 6)):
        items += [CLOSE] * (rng.choice((1, 1, 2)) if rng.random() < often else 0)
        items.append(some_batch(rng, world, rng.choice(agents), month, KINDS if sheet else KINDS[-3:]))
        month += rng.choice((-1, 0, 0, 1, 1, 2, 2, 14))
    items += [CLOSE] * (rng.random() < often)
    return sheet + issuer, items, (rng.randint(1, 5), rng.choice((0, 0, 1, 2)), rng.choice((None, None, *range(6))))


# What the journals refuse once it is changed so: a SKU, a commitment, what an amendment names, its value.
OTHER_PARTS = ((b"|c|", b"|gpu|"), (b"|k1|", b"|k9|"), (b"|p|", b"|o|"), (b"\nX|1|", b"\nX|9|"), (b"\nX|1|0|", b"\nX|1|4|"), (b"\nX|1|0|", b"\nX|1|0|-"))


def changed(rng, text):
    """Batches with a part, a line or a byte that is gone, twice, moved, or another one."""
    lines, parts = text.splitlines(True), [it for it in OTHER_PARTS if it[0] in text]
    at, other, place = rng.randrange(len(lines)), rng.randrange(len(lines)), rng.randrange(len(text))
    fields = lines[at].split(b"|")
    fields[rng.randrange(len(fields))] = rng.choice((b"", b"0", b"2", b"-1", b"1.50", b"X", b"U", b"\t", b"a=1;a=2", b"2025-02-30"))
    front, rest = lines[:at], lines[at + 1 :]
    return rng.choice((
        b"".join(front + rest), b"".join(front + [lines[other]] + lines[at:]), b"".join(front + [CLOSE] + lines[at:]),
        b"".join([*front, b"|".join(fields).strip() + b"\n", *rest]), text[:place], text[:place] + text[place + 1 :],
        *(text.replace(*it, 1) for it in parts[:3]), b"".join(text.rpartition(it[0])[0] + it[1] + text.rpartition(it[0])[2] for it in parts[-1:]),
    ))
