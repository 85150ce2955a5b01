"""What `focusd check` warns of in an input, by docs/formats.md: keys that no reader takes, and readings far ahead of those above them."""
import datetime
import re
import tomllib

TAKEN = {
    "": "base price commitment region",
    "price": "sku price_id from description service category consumed_unit pricing_unit per list contracted",
    "commitment": "id sku buy category type rate",
    "region": "id name",
}
ISSUER_KEYS = {"": "provider publisher issuer account_id account_name currency other_service"}


def sections_of(lines, at):
    """The sections of a sheet and an issuer that stand from a line on: their word, and the lines on which they begin and end."""
    for word in (b"sheet ", b"issuer "):
        if at < len(lines) and lines[at].startswith(word):
            end = at + 1 + int(lines[at][len(word) :])
            yield word, at, end
            at = end


def unknown_keys(document, taken):
    """The tables and names of keys that no reader takes, each once: by bytes, at the top and then row by row."""
    found = []
    for table, names in taken.items():
        for row in document.get(table, []) if table else [document]:
            for name in sorted(row, key=str.encode):
                if name not in names.split() and (table, name) not in found:
                    found.append((table, name))
    return found[:100]


def unknown_told(lines, at, end, taken):
    """The warnings of a section that begins on this line, each key's at the first line of its table whose first word it is."""
    left, table = unknown_keys(tomllib.loads(b"\n".join(lines[at + 1 : end]).decode()), taken), ""
    told = []
    for number, line in enumerate(lines[at + 1 : end], at + 2):
        word = re.match(rb"[ \t\['\"]*([A-Za-z0-9_-]*)", line)[1].decode()
        opens = re.match(rb"[ \t]*\[", line)
        key = ("" if opens else table, word)
        if key in left:
            told.append((number, word))
            left.remove(key)
        table = word if opens else table
    return [b"line %d: unknown %s" % (number, re.sub(r"[\x00-\x1f\x7f]", "?", it).encode()) for number, it in [*((at + 1, it) for _, it in left), *told]]


def ahead_told(batches):
    """The warnings of batches that are journaled, each with its lines and the line of the input that stands above them."""
    latest = {}
    for above, lines in batches:
        agent = lines[0].split(b"|")[1]
        for number, it in enumerate(lines[1:], above + 2):
            fields = it.split(b"|")
            if fields[0] in (b"U", b"P", b"C", b"T", b"A"):
                day = datetime.date.fromisoformat(fields[1][:10].decode())
                if agent in latest and day - latest[agent] > datetime.timedelta(366):
                    yield b"line %d: ahead %s" % (number, fields[1][:10])
                latest[agent] = max(day, latest.get(agent, day))


def keys_told(lines, at):
    """The warnings of the sections that stand from a line on."""
    told = [unknown_told(lines, *it, TAKEN if word == b"sheet " else ISSUER_KEYS) for word, *it in sections_of(lines, at)]
    return sum(told, [])
