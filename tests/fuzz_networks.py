#!/usr/bin/env python3
"""Holds the planner against a planner of its own: fuzz_networks.py PROGRAM [COUNT [SEED]]

PROGRAM reads a network text and prints the best plan from a standing plan that carries nothing, or one line
`c refused NUMBER PLACE` (docs/text-format.md). COUNT networks are drawn at random: tiny ones, ones of many
ties, parallel legs, zero charges, too little capacity, balances that do not sum to 0, and some larger ones.
The planner below sends bikes along one cheapest walk after another, by cents and then by bikes, with a label
for each station found by going over all legs until none changes.

A printed plan has to name the legs in their order, to obey, to cost what its first line says, and to have the
cents and the number of bikes that the other planner finds. `refused 14 0` has to come exactly where balances
do not sum to 0, and `refused 15 COUNT` exactly where no plan obeys; for up to ten stations there has to be a
cut of COUNT stations. Prints the counts, and how many answers differ; the status is 1 if any does.
"""

import collections
import random
import subprocess
import sys

from fuzzing import fuzz

CENT = 1 << 24  # what a cent counts beside a bike


def best(nodes, balances, legs):
    """(cents, bikes) of the best plan from an empty one, or None where no plan obeys."""
    carried = [0] * len(legs)
    over = list(balances)
    while any(left > 0 for left in over):
        label = [0 if left > 0 else None for left in over]
        last = [None] * nodes
        changed = True
        while changed:
            changed = False
            for k, (start, end, capacity, charge) in enumerate(legs):
                price = charge * CENT + 1
                for here, there, room, cost, forth in ((start, end, capacity - carried[k], price, True), (end, start, carried[k], -price, False)):
                    if room > 0 and label[here] is not None and (label[there] is None or label[here] + cost < label[there]):
                        label[there], last[there], changed = label[here] + cost, (k, forth), True
        targets = [v for v in range(nodes) if over[v] < 0 and label[v] is not None]
        if not targets:
            return None
        target = min(targets, key=lambda v: label[v])
        walk, v = [], target
        while last[v] is not None:
            k, forth = last[v]
            walk.append((k, forth))
            v = legs[k][0] if forth else legs[k][1]
        bikes = min([over[v], -over[target]] + [legs[k][2] - carried[k] if forth else carried[k] for k, forth in walk])
        for k, forth in walk:
            carried[k] += bikes if forth else -bikes
        over[v] -= bikes
        over[target] += bikes
    return sum(leg[3] * amount for leg, amount in zip(legs, carried)), sum(carried)


def cut_sizes(nodes, balances, legs):
    """How many stations the sets have that owe more than their legs outwards can carry."""
    sizes = set()
    for chosen in range(1, 1 << nodes):
        owes = sum(balances[v] for v in range(nodes) if chosen >> v & 1)
        carries = sum(leg[2] for leg in legs if chosen >> leg[0] & 1 and not chosen >> leg[1] & 1)
        if owes > carries:
            sizes.add(bin(chosen).count("1"))
    return sizes


def draw(r):
    """A network: how many stations, their balances, and legs (start, end, capacity, charge)."""
    nodes = r.choice([1, 2, 3, 3, 4, 4, 5, 6, 7, 8, 10, 25])
    count = 0 if nodes == 1 else r.randint(0, 3 * nodes)
    most_bikes = r.choice([1, 3, 9, 500])
    charges = r.choice([[0], [0, 1], [7], [0, 10, 20, 30], list(range(0, 10001, 97)), [1, 10000]])
    legs = []
    for _ in range(count):
        start, end = r.sample(range(nodes), 2)
        if legs and r.random() < 0.2:
            start, end = legs[-1][:2]
        legs.append((start, end, r.randint(0, most_bikes), r.choice(charges)))
    balances = [0] * nodes
    if r.random() < 0.75:
        for start, end, capacity, _ in legs:  # what some plan sends, so that one obeys
            bikes = r.randint(0, capacity)
            if abs(balances[start] + bikes) <= 500 and abs(balances[end] - bikes) <= 500:
                balances[start] += bikes
                balances[end] -= bikes
    else:
        for _ in range(r.randint(0, nodes)):
            v, w = r.randrange(nodes), r.randrange(nodes)
            bikes = r.randint(0, most_bikes)
            if abs(balances[v] + bikes) <= 500 and abs(balances[w] - bikes) <= 500:
                balances[v] += bikes
                balances[w] -= bikes
    if r.random() < 0.04:
        v = r.randrange(nodes)
        balances[v] += 1 if balances[v] < 500 else -1
    return nodes, balances, legs


def text_of(nodes, balances, legs):
    rows = ["p min %d %d" % (nodes, len(legs))]
    rows += ["n %d %d" % (v + 1, bikes) for v, bikes in enumerate(balances) if bikes]
    rows += ["a %d %d 0 %d %d" % (start + 1, end + 1, capacity, charge) for start, end, capacity, charge in legs]
    return "".join(row + "\n" for row in rows)


def fault(nodes, balances, legs, printed):
    """What is wrong with what was printed, or None; and what sort of answer it had to be."""
    rows = printed.split("\n")
    if sum(balances):
        return "uneven", None if printed == "c refused 14 0\n" else "the balances do not sum to 0"
    wanted = best(nodes, balances, legs)
    if wanted is None:
        words = rows[0].split(" ")
        if len(rows) != 2 or rows[1] or words[:3] != ["c", "refused", "15"] or len(words) != 4:
            return "no plan", "no plan obeys"
        if nodes <= 10 and int(words[3]) not in cut_sizes(nodes, balances, legs):
            return "no plan", "no cut has so many stations"
        return "no plan", None
    if len(rows) != len(legs) + 2 or rows[-1] or rows[0] != "s %d" % wanted[0]:
        return "a plan", "cents %d, and a line for each leg" % wanted[0]
    cents, bikes, over = 0, 0, list(balances)
    for row, (start, end, capacity, charge) in zip(rows[1:], legs):
        words = row.split(" ")
        if len(words) != 4 or words[:3] != ["f", str(start + 1), str(end + 1)] or not words[3].isdigit() or int(words[3]) > capacity:
            return "a plan", "the line of a leg: " + row
        amount = int(words[3])
        cents += charge * amount
        bikes += amount
        over[start] -= amount
        over[end] += amount
    if any(over) or (cents, bikes) != wanted:
        return "a plan", "it does not obey, or has other cents or bikes than %d and %d" % wanted
    return "a plan", None


def run(program, seed, count):
    r = random.Random(seed)
    seen, apart = collections.Counter(), []
    for _ in range(count):
        net = draw(r)
        text = text_of(*net)
        done = subprocess.run([program], input=text, capture_output=True, text=True)
        sort, wrong = fault(*net, done.stdout)
        seen[sort] += 1
        if wrong or done.returncode != 0:
            apart.append([part.encode() for part in (text, wrong or "status %d" % done.returncode, done.stdout)])
    return seen, apart


def show(seen):
    print("  ".join("%s %d" % item for item in sorted(seen.items())))


if __name__ == "__main__":
    sys.exit(fuzz("networks", run, 20_000, 250, show))
