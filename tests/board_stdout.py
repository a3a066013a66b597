#!/usr/bin/env python3
"""Prints what the program `board_tests` has to print: board_stdout.py > crates/board_tests/stdout

Nothing here runs the board. Networks, boards and runs are modelled below by the rules in docs/, and plans are made by the model
in planning_stdout.py. Every plan that is printed has to be the only best one and every cut the only one that there is, so that
the rules leave nothing open but the order in which a cut is named: by rising number. The seeds of the long runs are such that
this is so.
"""

import itertools

from planning_stdout import FEW, Generator, Leg, UNTOUCHED, every_plan, is_cut, obeys, prices_of, refusal, solve, standing_at, weigh

ALL = dict(prices=500, numbers=500, amounts=500, stations=241, legs=3001)


class Refused(Exception):
    def __init__(self, number, place=0):
        self.number, self.place = number, place


class Table:
    def __init__(self, legs, balances):
        self.held, self.reported = list(legs), list(balances)

    def legs(self):
        return self.held

    def balances(self):
        return self.reported

    def open_stations(self):
        return len(self.reported)

    def road_legs(self):
        return len(self.held)

    def report(self, station, balance):
        if station >= self.open_stations():
            raise Refused(7, station)
        if abs(balance) > 500:
            raise Refused(8, station)
        self.reported[station] = balance

    def mark(self, leg, is_open):
        if leg >= self.road_legs():
            raise Refused(9, leg)
        if self.held[leg].open == is_open:
            raise Refused(10, leg)
        self.held[leg] = self.held[leg].but(is_open=is_open)


def promenade(stations, capacity, charge):
    """As a table: it has nothing but open stations and road legs, too."""
    ends = [ends for i in range(stations - 1) for ends in ((i, i + 1), (i + 1, i))]
    return Table([Leg(start, end, capacity, charge) for start, end in ends], [0] * stations)


class Layer:
    def __init__(self, below):
        self.below = below

    def __getattr__(self, name):
        return getattr(self.below, name)


class VanLimit(Layer):
    def __init__(self, below, limit):
        super().__init__(below)
        self.limit = limit

    def legs(self):
        return [leg.but(capacity=min(leg.capacity, self.limit)) for leg in self.below.legs()]


class Yard(Layer):
    def __init__(self, below, charge):
        super().__init__(below)
        self.charge = charge

    def legs(self):
        yard = len(self.below.balances())
        pairs = [(Leg(v, yard, 500, self.charge), Leg(yard, v, 500, self.charge)) for v in range(yard)]
        return self.below.legs() + [leg for pair in pairs for leg in pair]

    def balances(self):
        over = sum(self.below.balances())
        return self.below.balances() + [max(-120_000, min(120_000, -over))]


def only_best(legs, balances, standing, plan):
    """Whether no walk in a circle, out of steps that the plan leaves, weighs nothing."""
    steps = []
    for k, (leg, amount) in enumerate(zip(legs, plan)):
        before = standing_at(standing, k)
        if amount < leg.room:
            steps.append((leg.start, leg.end, (leg.charge, 1 if amount >= before else -1), k))
        if amount > 0:
            steps.append((leg.end, leg.start, (-leg.charge, 1 if amount <= before else -1), k))

    def circles(start, at, weight, seen):
        for end, to, step, k in steps:
            if end == at and k not in seen:
                total = weight[0] + step[0], weight[1] + step[1]
                if to == start:
                    yield total
                elif all(place != to for place in seen.values()):
                    yield from circles(start, to, total, {**seen, k: to})

    weights = [weight for start in range(len(balances)) for weight in circles(start, start, (0, 0), {})]
    assert all(weight >= (0, 0) for weight in weights)
    return (0, 0) not in weights


def the_plan(legs, balances, standing):
    plan, cut = solve(legs, balances, standing)
    if plan is None:
        stations = range(len(balances))
        cuts = [s for size in stations for s in itertools.combinations(stations, size + 1) if is_cut(legs, balances, s)]
        assert cuts == [tuple(cut)], (cuts, cut)
        return plan, cut
    assert obeys(legs, balances, plan) and only_best(legs, balances, standing, plan)
    plans = 1
    for leg in legs:
        plans *= leg.room + 1
    if plans <= FEW:
        ranked = sorted((weigh(legs, standing, p), p) for p in every_plan(legs, balances))
        assert [p for w, p in ranked if w == ranked[0][0]] == [plan]
    return plan, cut


def listed(earlier, count, belongs):
    kept = [number for number in earlier if belongs(number)]
    return kept + [number for number in range(count) if belongs(number) and number not in kept]


class Board:
    def __init__(self, net):
        self.net, self.amounts, self.short, self.running = net, [0] * len(net.legs()), [], []

    def report(self, sheet, station, balance):
        self.net.report(station, balance)
        return "done"

    def close(self, sheet, leg):
        self.net.mark(leg, False)
        return "done"

    def reopen(self, sheet, leg):
        self.net.mark(leg, True)
        return "done"

    def plan(self, sheet, prices, cut, stations, legs):
        lengths = dict(prices=prices, cut=cut, by_station=stations, by_leg=legs)
        legs, balances = self.net.legs(), self.net.balances()
        refused = refusal(legs, balances, lengths)
        if refused is not None:
            raise Refused(*refused)
        plan, stations = the_plan(legs, balances, self.amounts)
        if plan is None:
            sheet["numbers"][: len(stations)] = stations
            raise Refused(15, len(stations))
        cents, difference = weigh(legs, self.amounts, plan)
        sheet["prices"][: len(balances)] = prices_of(legs, len(balances), plan)
        sheet["amounts"][:] = self.amounts = plan
        return "%d cents, difference %d" % (cents, difference)

    def hand_out(self, sheet, earlier, count, belongs):
        if len(sheet["numbers"]) < count:
            raise Refused(11)
        numbers = listed(earlier, count, belongs)
        sheet["numbers"][: len(numbers)] = numbers
        return numbers

    def stations(self, sheet, length):
        balances = self.net.balances()
        self.short = self.hand_out(sheet, self.short, self.net.open_stations(), lambda v: balances[v] < 0)
        return "%d listed" % len(self.short)

    def runs(self, sheet, length):
        self.running = self.hand_out(sheet, self.running, len(self.amounts), lambda k: self.amounts[k] > 0)
        return "%d listed" % len(self.running)

    def read(self, sheet, leg):
        return str(self.amounts[leg]) if leg < len(self.amounts) else "absent"


def entries(call, legs):
    name, *numbers = call
    if name == "plan":
        return dict(prices=numbers[0], numbers=numbers[1], amounts=legs)
    return dict(prices=0, numbers=numbers[0] if name in ("stations", "runs") else 0, amounts=0)


def suffices(calls, legs, lent):
    for part in "prices", "numbers", "amounts":
        if sum(entries(call, legs)[part] for call in calls) > lent[part]:
            return False
    plans = [call for call in calls if call[0] == "plan"]
    return len(calls) <= lent["answers"] and all(call[3] <= lent["stations"] and call[4] <= lent["legs"] for call in plans)


def run(name, net, calls, **lent):
    board, lent = Board(net), {"answers": len(calls), **ALL, **lent}
    made = suffices(calls, len(net.legs()), lent)
    memory = {part: [UNTOUCHED] * lent[part] for part in ("prices", "numbers", "amounts")}
    print("%s: %s" % (name, "made" if made else "refused 11"))
    for call in calls[: lent["answers"]]:
        taken = entries(call, len(net.legs()))
        sheet = {part: memory[part][:count] for part, count in taken.items()}
        memory = {part: memory[part][count:] for part, count in taken.items()}
        answer = "%d listed" % UNTOUCHED
        if made:
            try:
                answer = getattr(board, call[0])(sheet, *call[1:])
            except Refused as refused:
                answer = "refused %d %d" % (refused.number, refused.place)
        line = "  %s: %s" % (" ".join(map(str, call)), answer)
        if sheet["numbers"]:
            line += "".join(", %s %s" % part for part in sheet.items())
        print(line)


TO_1, FROM_1, PAST_1 = Leg(0, 1, 4, 20), Leg(1, 2, 4, 10), Leg(0, 2, 3, 40)
T = [TO_1, FROM_1, PAST_1]
U = [TO_1, FROM_1, PAST_1.but(charge=30)]
BALANCES = [4, 0, -4]


def plan(stations):
    return "plan", stations, stations, 240, 3000


def worked():
    reads = [("read", leg) for leg in range(4)]
    calls = [("read", 0), plan(3), ("close", 1), plan(3), *reads, ("reopen", 1), plan(3)]
    calls += [("report", 1, 1), plan(3), ("report", 0, 3), plan(3), ("runs", 3)]
    run("T", Table(T, BALANCES), calls)
    run("U", Table(U, BALANCES), [plan(3), ("runs", 3), ("close", 2), plan(3), ("runs", 3), plan(3), ("read", 2)])
    calls = [("stations", 4), ("report", 0, 1), ("stations", 4), ("report", 0, -2), ("stations", 5)]
    run("lists", Table([], [-2, 3, -2, 1]), calls)
    run("T under van limit 3", VanLimit(Table(T, BALANCES), 3), [plan(3), ("runs", 3)])
    run("a yard", Yard(Table([], [3]), 25), [plan(2), ("read", 0), ("read", 1), ("read", 2)])


def limits():
    calls = [plan(4), ("stations", 3), ("runs", 9)]
    calls += [("report", 3, 0), ("report", 3, 501), ("report", 2, 501), ("report", 2, -501)]
    calls += [("close", 3), ("reopen", 3), ("reopen", 2)]
    calls += [("plan", 3, 4, 240, 3000), ("plan", 4, 3, 240, 3000), ("plan", 4, 4, 239, 3000), ("plan", 4, 4, 240, 2999)]
    calls += [("stations", 2), ("runs", 8)]
    calls += [("read", 0), ("read", 1), ("read", 2), ("read", 8), ("read", 9), ("stations", 3), ("runs", 9), plan(4)]
    calls += [("report", 2, 500), ("stations", 3), plan(4), ("runs", 9), ("report", 2, -500), ("stations", 4)]
    calls += [("close", 2), ("close", 2), ("plan", 5, 5, 241, 3001), ("runs", 10), ("reopen", 2), ("reopen", 2), plan(4)]
    calls += [("runs", 8), ("runs", 9), ("report", 0, -1), ("stations", 2), ("stations", 3)]
    calls += [("report", 2, 0), ("stations", 3), ("report", 2, -1), ("stations", 3)]
    run("limits", Yard(VanLimit(Table(T, BALANCES), 3), 25), calls)
    few = [plan(3), ("stations", 3), ("runs", 3), ("close", 1), plan(3)]
    least = dict(answers=5, prices=6, numbers=12, amounts=6, stations=240, legs=3000)
    for name, less in [
        ("the least memory", {}),
        ("4 answers", dict(answers=4)),
        ("5 prices", dict(prices=5)),
        ("11 numbers", dict(numbers=11)),
        ("5 amounts", dict(amounts=5)),
        ("239 for stations", dict(stations=239)),
        ("2,999 for legs", dict(legs=2999)),
    ]:
        run(name, Table(T, BALANCES), few, **{**least, **less})
    run("capacity 501", Table([TO_1, FROM_1, PAST_1.but(capacity=501)], BALANCES), [plan(3), ("close", 2), plan(3)])
    run("balance 120,001", Table(T, [120_001, 0, -4]), [plan(3), ("report", 0, 4), plan(3)])


def draw(generator):
    kind, number, bikes = generator.below(16), generator.below(15), generator.below(25)
    if kind < 5:
        return "report", number % 5, bikes - 12
    if kind < 9:
        return "close" if kind < 7 else "reopen", number % 7
    if kind < 13:
        return "plan", 5, 4 + min(number, 1), 240, 3000
    if kind < 15:
        return ("stations", 3 + min(number, 1)) if kind == 13 else ("runs", 13 + min(number, 1))
    return "read", number


def drawn(seed):
    generator = Generator(seed)
    return [draw(generator) for _ in range(60)]


ROUND = [Leg(0, 1, 5, 7), Leg(1, 2, 9, 11), Leg(2, 3, 4, 13), Leg(3, 0, 8, 5), Leg(2, 0, 6, 16, False), Leg(1, 3, 7, 21)]
SEEDS = 23, 177


def long_runs():
    run("drawn over a table", Yard(VanLimit(Table(ROUND, [0] * 4), 6), 18), drawn(SEEDS[0]))
    run("drawn over a promenade", VanLimit(Yard(promenade(4, 12, 7), 18), 9), drawn(SEEDS[1]))


if __name__ == "__main__":
    worked()
    limits()
    long_runs()
