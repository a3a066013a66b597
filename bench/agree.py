#!/usr/bin/env python3
"""Says whether two answers to one network text agree: agree.py NETWORK ANSWER OTHER

Two plans agree if each obeys the network and costs what its first line says, and if both cost the same
and carry the same number of bikes over all legs together (which is how far they are from a plan that
carries nothing). They need not be the same plan. Two refusals agree if each says that there is no plan.
Prints "yes", or "no: " and the reason.
"""

import sys

NO_PLAN = 15


def network(path):
    stations, balance, legs = 0, {}, {}
    with open(path) as file:
        for line in file:
            fields = line.split()
            if fields[0] == "p":
                stations = int(fields[2])
            elif fields[0] == "n":
                balance[int(fields[1])] = int(fields[2])
            elif fields[0] == "a":
                legs.setdefault((int(fields[1]), int(fields[2])), []).append((int(fields[5]), int(fields[4])))
    for room in legs.values():
        room.sort()
    return stations, balance, legs


def weigh(path, net):
    """(cents, bikes) of a plan, or None of a refusal. Raises ValueError if the answer is out of order."""
    stations, balance, legs = net
    with open(path, errors="replace") as file:
        lines = [line.split() for line in file]
    lines = [line for line in lines if line and not (line[0] == "c" and line[1:2] != ["refused"])]
    if not lines:
        raise ValueError("it is empty")
    if lines[0][:2] == ["c", "refused"]:
        if lines[0][2] != str(NO_PLAN):
            raise ValueError("refused for another reason: " + " ".join(lines[0]))
        return None
    if lines[0][0] != "s":
        raise ValueError("it has no line with the cents")
    stated = int(lines[0][1])
    carried = {}
    for line in lines[1:]:
        if line[0] != "f":
            raise ValueError("it has a line " + " ".join(line))
        pair = int(line[1]), int(line[2])
        carried[pair] = carried.get(pair, 0) + int(line[3])
    left = [0] * (stations + 1)
    for station, bikes in balance.items():
        left[station] = bikes
    cents = 0
    for (source, end), bikes in carried.items():
        left[source] -= bikes
        left[end] += bikes
        # Over several legs between the same stations a cheapest plan fills the cheaper ones first.
        for charge, room in legs.get((source, end), []):
            part = min(bikes, room)
            cents += part * charge
            bikes -= part
        if bikes > 0:
            raise ValueError("more than fits from %d to %d" % (source, end))
    if any(left):
        raise ValueError("a balance is not met")
    if cents != stated:
        raise ValueError("it costs %d and says %d" % (cents, stated))
    return cents, sum(carried.values())


def verdict(text, answer, other):
    """"yes", or "no: " and the reason."""
    net = network(text)
    found = []
    for path in answer, other:
        try:
            found.append(weigh(path, net))
        except (ValueError, IndexError) as fault:
            return "no: %s: %s" % (path.rsplit("/", 1)[-1], fault)
    if found[0] == found[1]:
        return "yes"
    return "no: %s against %s (cents, bikes)" % tuple("no plan" if f is None else f for f in found)


if __name__ == "__main__":
    print(verdict(*sys.argv[1:4]))
