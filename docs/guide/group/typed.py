"""What an operator types: words and files that may be wrong, which stops no group."""
import os
import re
import subprocess
import sys

from process import counted
from stored import read, replace, sync


class Asked(Exception):
    """What the operator asked for and can't have."""


def take_any_bytes():
    """A file may have any name, and a line that is typed any bytes."""
    for it in sys.stdin, sys.stdout:
        if hasattr(it, "reconfigure"):
            it.reconfigure(errors="surrogateescape")


def one_of(kind, known, name):
    if name not in known:
        raise Asked(f"there is no {kind} {name}")
    return known[name]


def operators(act, path, *of):
    """Does something with a file of the operator's: what goes wrong there stops no group."""
    try:
        return act(path, *of)
    except (OSError, ValueError) as why:
        raise Asked(f"{path}: {getattr(why, 'strerror', why)}") from None


def put(path, text):
    """A new file, which takes the name of no other: it has its own once all of it is stored. Until then its name ends in `.part`, or in
    `.part.new`, so no file may be called so. What a host left as a part may be a whole one's second name."""
    path = os.path.abspath(path)
    if path.endswith((".part", ".part.new")):
        raise Asked("no file's name may end in .part or .part.new")
    try:
        replace(f"{path}.part", text)
        os.link(f"{path}.part", path)
        sync(os.path.dirname(path))
    finally:
        if os.path.exists(f"{path}.part"):
            os.remove(f"{path}.part")


def as_batch(text):
    """The same text. What has any other number of lines is no command, and then each of the lines is answered as one."""
    if not 1 <= text.count(b"\n") <= 1_001 or not text.endswith(b"\n"):
        raise Asked("that is no batch")
    return text


def journaled(agent, path, sent):
    """Has an agent journal the batch of a file. What it answers, and, where one stands in its place, whether that is the same: `sent` tells
    which packet was sent last."""
    text = operators(read, path)
    line = agent.ask(counted(b"journal", as_batch(text)))[0]
    seq = re.match(rb"B\d\|\d+\|(\d+)\|", text)
    if line.startswith("refused G2") and seq and agent.ask(b"again %s\n" % seq[1])[0] == "sent":
        line += ": the same is journaled" if sent().partition(b"\n")[2] == text else ": another is journaled"
    return line


def exported(node, period, path):
    """Has a node export a period, and makes a new file of it. What the node answers."""
    line, file = node.ask(b"export %s\n" % os.fsencode(period))
    if file:
        operators(put, path, file)
    return line


def told_by(words, text, wanted=""):
    """What a program says of a text that it takes."""
    run = subprocess.run(words, input=text, capture_output=True)
    if run.returncode:
        raise Asked(wanted + (run.stdout or run.stderr).decode().strip().replace("\n", ", "))
    return run.stdout.decode().strip()
