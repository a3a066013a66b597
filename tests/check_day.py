#!/usr/bin/env python3
"""Checks a recorded day: check_day.py CALLS RECORDED PATH [LAYER [LAYER]]
                      check_day.py CALLS RECORDED promenade STATIONS CAPACITY CHARGE [LAYER [LAYER]]

CALLS is what `office_day` read from standard input and RECORDED what it printed, with the same arguments behind them
(docs/day.md). Networks, layers and boards are those of the model in board_stdout.py, a text is read by the reader in
fuzz_texts.py, and neither runs the planner nor the board. A plan that was recorded has to obey, to have the cents and the
difference that are printed with it and that the plan of the model has, and its prices have to be the prices under it; it then
stands. A cut has to be one, where the model finds no plan. All else has to be as the model says. Prints how many lines were
checked, or the first that differs; the status is 1 if one does.
"""

import re
import sys

from board_stdout import Board, Refused, Table, VanLimit, Yard, entries, promenade
from fuzz_texts import read
from planning_stdout import Leg, is_cut, obeys, prices_of, refusal, solve, weigh

MOST_ENTRIES = 4_000_000
NUMBER = "(0|[1-9][0-9]*)"
FORMS = [
    re.compile("(report) %s (0|-?[1-9][0-9]*)" % NUMBER),
    re.compile("(plan) %s" % " ".join([NUMBER] * 4)),
    re.compile("(close|reopen|stations|runs|read) %s" % NUMBER),
]


class Differs(Exception):
    pass


def need(holds, what):
    if not holds:
        raise Differs(what)


def call_of(line, net):
    """The call that a line tells, as a list, or None."""
    n, m = len(net.balances()), len(net.legs())
    alone = {"plan": ["plan", n, n, 240, 3000], "stations": ["stations", net.open_stations()], "runs": ["runs", m]}
    if line in alone:
        return alone[line]
    for form in FORMS:
        found = form.fullmatch(line)
        if found:
            call = [found[1]] + [int(field) for field in found.groups()[1:]]
            within = -(2**31) <= call[2] < 2**31 if call[0] == "report" else True
            return call if within and all(number < 2**64 for number in call[1:]) else None
    return None


class Recorded:
    """The lines that were printed, one after the other."""

    def __init__(self, text):
        need(text.endswith("\n") or not text, "the last line is not ended")
        self.lines, self.at = text.split("\n")[:-1], 0

    def next(self):
        need(self.at < len(self.lines), "lines are lacking")
        self.at += 1
        return self.lines[self.at - 1]

    def numbers(self, word):
        line = self.next()
        found = re.fullmatch(r"  %s \[((-?\d+)(, -?\d+)*)?\]" % word, line)
        need(found, "a line `  %s [..]`" % word)
        return [int(number) for number in found[1].split(", ")] if found[1] else []


class Checked(Board):
    """A board that takes over the plans that were recorded, once they are checked."""

    def plan(self, recorded, answer, prices, cut, stations, legs):
        legs_now, balances = self.net.legs(), self.net.balances()
        refused = refusal(legs_now, balances, dict(prices=prices, cut=cut, by_station=stations, by_leg=legs))
        if refused is not None:
            raise Refused(*refused)
        best, _ = solve(legs_now, balances, self.amounts)
        if best is None:
            stations = recorded.numbers("cut")
            need(len(set(stations)) == len(stations), "different stations")
            need(all(0 <= v < len(balances) for v in stations), "stations")
            need(is_cut(legs_now, balances, stations), "a cut")
            raise Refused(15, len(stations))
        need("cents" in answer, "a plan obeys")
        amounts, found = recorded.numbers("amounts"), recorded.numbers("prices")
        need(len(amounts) == len(legs_now), "an amount for each leg")
        need(all(0 <= x <= leg.room for x, leg in zip(amounts, legs_now)), "amounts within the capacities")
        need(obeys(legs_now, balances, amounts), "a plan that obeys")
        weight = weigh(legs_now, self.amounts, amounts)
        need(weight == weigh(legs_now, self.amounts, best), "the cents and the difference of the best plan")
        need(found == prices_of(legs_now, len(balances), amounts), "the prices under the plan")
        answer = "%d cents, difference %d" % weight
        self.amounts = amounts
        return answer

    def answer(self, recorded, printed, name, *numbers):
        if name == "plan":
            return self.plan(recorded, printed, *numbers)
        sheet = {"numbers": [0] * numbers[0]} if name in ("stations", "runs") else {}
        answer = getattr(super(), name)(sheet, *numbers)
        if sheet:
            wanted = self.short if name == "stations" else self.running
            need(recorded.numbers("list") == wanted, "the list %s" % wanted)
        return answer


def suffices(calls, legs):
    taken = [entries(call, legs) for call in calls]
    tables = [max(call[3:]) for call in calls if call[0] == "plan"]
    sums = [sum(part[kind] for part in taken) for kind in ("prices", "numbers", "amounts")]
    return max(sums + tables) <= MOST_ENTRIES


def check(net, lines, recorded):
    calls = [call_of(line, net) for line in lines]
    if not suffices([call for call in calls if call], len(net.legs())):
        need(recorded.next() == "c refused 11 0", "the calls take too much memory")
        return
    board = Checked(net)
    for number, call in enumerate(calls, 1):
        line = recorded.next()
        if call is None:
            need(line == "%d: no call has this form" % number, "no call has this form")
            continue
        head = "%d %s: " % (number, " ".join(map(str, call)))
        need(line.startswith(head), "the call `%s`" % head)
        try:
            answer = board.answer(recorded, line[len(head) :], *call)
        except Refused as refused:
            answer = "refused %d %d" % (refused.number, refused.place)
        need(line[len(head) :] == answer, "the answer `%s`" % answer)


def table(path):
    """The network that a text states, or the line that refuses it."""
    with open(path, "rb") as file:
        told = read(file.read(65_537)).decode()
    if told.startswith("c "):
        return told
    rows = [row.split(" ") for row in told.split("\n")[:-1]]
    balances = [0] * int(rows[0][2])
    for _, node, flow in [row for row in rows if row[0] == "n"]:
        balances[int(node) - 1] = int(flow)
    arcs = [[int(field) for field in row[1:]] for row in rows if row[0] == "a"]
    return Table([Leg(source - 1, target - 1, capacity, charge) for source, target, _, capacity, charge in arcs], balances)


def layered(net, words):
    for name, number in zip(words[::2], map(int, words[1::2])):
        if name == "limit":
            net = VanLimit(net, min(number, 500))
        elif len(net.balances()) < 240 and len(net.legs()) + 2 * len(net.balances()) <= 3000:
            net = Yard(net, min(number, 10_000))
    return net


def network(words):
    if words[0] == "promenade":
        stations, capacity, charge = map(int, words[1:4])
        return layered(promenade(min(stations, 40), min(capacity, 500), min(charge, 10_000)), words[4:])
    below = table(words[0])
    return below if isinstance(below, str) else layered(below, words[1:])


def fault(told, calls, words):
    """What is wrong with what was told of calls, or None, and how many lines were right."""
    net = network(words)
    if isinstance(net, str):
        return None if told == net else "only " + net, 0
    lines = calls.split("\n")
    if lines[-1] == "":
        lines.pop()
    recorded = None
    try:
        recorded = Recorded(told)
        check(net, lines, recorded)
        need(recorded.at == len(recorded.lines), "no further line")
    except Differs as what:
        return str(what), recorded.at if recorded else 0
    return None, recorded.at


def main():
    with open(sys.argv[1], encoding="latin-1", newline="") as file:
        calls = file.read()
    with open(sys.argv[2], encoding="latin-1", newline="") as file:
        told = file.read()
    wrong, count = fault(told, calls, sys.argv[3:])
    print("%d lines checked" % count if wrong is None else "line %d: wanted is %s" % (count, wrong))
    return 0 if wrong is None else 1


if __name__ == "__main__":
    sys.exit(main())
