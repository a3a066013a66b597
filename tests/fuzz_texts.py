#!/usr/bin/env python3
"""Holds a program that prints canonical texts against a reader of its own: fuzz_texts.py PROGRAM [COUNT [SEED]]

PROGRAM reads a network text and prints the canonical text of the network that it states, or one line
`c refused NUMBER PLACE` (docs/text-format.md, docs/refusals.md). The reader below is written from those
pages alone. COUNT texts are made: whole ones, damaged ones, ones at the limits, and noise. Prints how many
texts of each sort there were, how they were answered, and how many answers differ; each text whose answer
differs is written to a folder. The status is 1 if any does.
"""

import collections
import random
import re
import subprocess
import sys

from fuzzing import fuzz

MOST_BYTES, MOST_NODES, MOST_ARCS = 65536, 240, 3000
MOST_FLOW, MOST_CAPACITY, MOST_COST = 500, 500, 10000

FORMS = {
    "c": re.compile(rb"c(?: [^\n]*)?", re.S),
    "p": re.compile(rb"p min ([0-9]{1,9}) ([0-9]{1,9})"),
    "n": re.compile(rb"n ([0-9]{1,9}) (-?[0-9]{1,9})"),
    "a": re.compile(rb"a ([0-9]{1,9}) ([0-9]{1,9}) ([0-9]{1,9}) ([0-9]{1,9}) ([0-9]{1,9})"),
}


def read(text):
    """The bytes that have to be printed for a text."""
    if len(text) > MOST_BYTES:
        return refused(1, 0)
    rows = text.split(b"\n")
    if rows[-1] == b"":
        rows.pop()
    header, balances, arcs = None, {}, []
    for number, row in enumerate(rows, 1):
        kind, fields = form_of(row)
        if kind is None:
            return refused(2, number)
        if kind == "p" and header or kind in "na" and not header or kind == "n" and arcs:
            return refused(3, number)
        if kind == "p":
            nodes, count = fields
            if not (1 <= nodes <= MOST_NODES and count <= MOST_ARCS):
                return refused(4, number)
            header = nodes, count
        elif kind == "n":
            node, flow = fields
            if not (1 <= node <= header[0] and -MOST_FLOW <= flow <= MOST_FLOW):
                return refused(4, number)
            balances[node] = flow
        elif kind == "a":
            source, target, low, capacity, cost = fields
            ends = 1 <= source <= header[0] and 1 <= target <= header[0] and source != target
            if not (ends and low == 0 and capacity <= MOST_CAPACITY and cost <= MOST_COST):
                return refused(4, number)
            if len(arcs) == header[1]:
                return refused(6, number)
            arcs.append((source, target, capacity, cost))
    if header is None or len(arcs) != header[1]:
        return refused(6, len(rows))
    out = ["p min %d %d" % header]
    out += ["n %d %d" % (node, flow) for node, flow in sorted(balances.items()) if flow]
    out += ["a %d %d 0 %d %d" % arc for arc in arcs]
    return "".join(line + "\n" for line in out).encode()


def form_of(row):
    kind = row[:1].decode("latin-1")
    if kind in FORMS and kind:
        found = FORMS[kind].fullmatch(row)
        if found:
            return kind, [int(field) for field in found.groups()] if kind != "c" else []
    return None, None


def refused(number, place):
    return b"c refused %d %d\n" % (number, place)


def number(r, most, spoilt=0.03):
    """A number up to most, now and then at or beyond its limit, or with zeros in front."""
    value = r.choice([0, 1, most - 1, most, most + 1]) if r.random() < spoilt else r.randint(0, most)
    value = max(value, 0)
    return str(value).zfill(r.randint(1, 10)) if r.random() < 0.02 else str(value)


def whole(r):
    """A text that mostly has no fault."""
    nodes = r.choice([1, 2, 3, 5, 8, 40, MOST_NODES]) if r.random() < 0.9 else r.randint(1, MOST_NODES)
    count = 0 if nodes == 1 else r.choice([0, 1, 2, 5, 9, 30])
    rows = ["c " + r.choice(["", "morning", "north end", "é"])] if r.random() < 0.3 else []
    rows.append("p min %d %d" % (nodes, count))
    for _ in range(r.randint(0, min(nodes, 12) + 1)):
        flow = r.randint(-MOST_FLOW, MOST_FLOW)
        rows.append("n %d %s" % (r.randint(1, nodes), r.choice([str(flow), "-0", "0", str(flow % 7)])))
    for _ in range(count):
        source = r.randint(1, nodes)
        target = r.choice([k for k in (source - 1, source + 1, source % nodes + 1) if 1 <= k <= nodes and k != source])
        rows.append("a %d %d 0 %s %s" % (source, target, number(r, MOST_CAPACITY, 0.02), number(r, MOST_COST, 0.02)))
    for _ in range(r.choice([0, 0, 0, 1, 2])):
        rows.insert(r.randint(0, len(rows)), r.choice(["c", "c ", "c x y", "c\tno form" if r.random() < 0.2 else "c ok"]))
    text = "\n".join(rows).encode()
    return text + (b"\n" if r.random() < 0.8 else b"")


def damaged(r):
    """A whole text with one to three faults of a byte, a field or a line."""
    text = bytearray(whole(r))
    for _ in range(r.randint(1, 3)):
        if not text:
            break
        at = r.randrange(len(text))
        how = r.randrange(8)
        if how == 0:
            text[at] = r.choice(b" \n\r\t-+0123456789pnacmix\x00\xff")
        elif how == 1:
            text.insert(at, r.choice(b" \n\r\t-+0123456789pnac"))
        elif how == 2:
            del text[at]
        elif how == 3:
            del text[at:]
        else:
            rows = bytes(text).split(b"\n")
            i, j = r.randrange(len(rows)), r.randrange(len(rows))
            if how == 4:
                rows[i], rows[j] = rows[j], rows[i]
            elif how == 5:
                rows.insert(j, rows[i])
            elif how == 6:
                del rows[i]
            else:
                fields = rows[i].split(b" ")
                k = r.randrange(len(fields))
                fields[k] = r.choice([b"", b"-1", b"0", b"240", b"241", b"500", b"501", b"-500", b"-501", b"3000", b"3001",
                                      b"10000", b"10001", b"999999999", b"1000000000", b"000000001", b"0000000001", b"x"])
                rows[i] = b" ".join(fields)
            text = bytearray(b"\n".join(rows))
    return bytes(text)


def large(r):
    """A text at the limits of its length, its counts or its numbers."""
    how = r.randrange(3)
    if how == 0:
        tail = r.choice([b"", b"\n"])
        head = b"p min 1 0\nc "
        return head + b"x" * (MOST_BYTES - len(head) - len(tail) + r.choice([-1, 0, 1])) + tail
    nodes, count = r.choice([239, 240]), r.choice([2998, 2999, 3000])
    rows = ["p min %d %d" % (nodes, count)]
    rows += ["a %d %d 0 %d %d" % (k % nodes + 1, (k + 1) % nodes + 1, k % 10, k % 100) for k in range(count + r.choice([-1, 0, 0, 1]))]
    if how == 2:
        rows += ["a 1 2 0 501 0"] * r.choice([0, 1])
    return ("\n".join(rows) + "\n").encode()


def noise(r):
    """Bytes of which some may look like lines."""
    return bytes(r.choice(b"pnac  \n\n0123456789-mi") for _ in range(r.randint(0, 60)))


SORTS = [(whole, 35), (damaged, 45), (noise, 18), (large, 2)]


def run(program, seed, count):
    """Answers to count texts: how many of each sort and answer, and the texts whose answers differ."""
    r = random.Random(seed)
    seen, apart = collections.Counter(), []
    sorts, weights = zip(*SORTS)
    for _ in range(count):
        sort = r.choices(sorts, weights)[0]
        text = sort(r)
        wanted = read(text)
        done = subprocess.run([program], input=text, capture_output=True)
        answer = wanted.split()[2].decode() if wanted.startswith(b"c refused") else "accepted"
        seen[sort.__name__, answer] += 1
        if done.stdout != wanted or done.returncode != 0:
            apart.append((text, wanted, done.stdout))
    return seen, apart


def show(seen):
    for sort, _ in SORTS:
        row = {answer: n for (name, answer), n in sorted(seen.items()) if name == sort.__name__}
        print("%-8s %6d  " % (sort.__name__, sum(row.values())) + "  ".join("%s %d" % item for item in row.items()))


if __name__ == "__main__":
    sys.exit(fuzz("texts", run, 100_000, 1000, show))
