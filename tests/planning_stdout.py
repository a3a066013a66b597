#!/usr/bin/env python3
"""Prints what the program `planning_tests` has to print: planning_stdout.py > crates/planning_tests/stdout

Nothing here runs the planner. Small networks are planned by the model below: bikes go one walk at a time
over arcs at a single price, charge times a large number and one more or less for each bike of difference.
Where a network has few plans, all of them are weighed, too, and the best has to be the only best. The
networks drawn at random have all their plans weighed.

The cents of the texts come from GLPK, from its solver of linear programs:

    glpsol --mincost TEXT -w SOLUTION

The line `s` of SOLUTION ends in the cents. Where there is no plan, it says that there is no feasible solution. The lines in the
stored file were made with GLPSOL 5.0 (Debian's package glpk-utils 5.0-1). The model above plans the texts,
too, and has to come to the same cents; the difference and the prices are its own.

Whatever a planning guesses to begin with, it has to come to the same: the same answer and prices, and some plan or some cut that
goes by the rules. So every other guess is expected to agree with the planning that is printed.
"""

import itertools
import os
import subprocess
import tempfile

CHARGE = 1 << 30  # what a cent counts next to a bike of difference
FEW = 100_000  # so many plans are all weighed
UNTOUCHED = 77
# the guesses beside the planner's own, whose plannings are printed
OTHERS = ["no guess", "junk", "the simplex without a pivot", "the simplex after 1 pivot"]
OTHERS += ["the simplex after %d pivots" % pivots for pivots in (5, 50, 200)]


class Leg:
    def __init__(self, start, end, capacity, charge, is_open=True):
        self.start, self.end, self.capacity, self.charge, self.open = start, end, capacity, charge, is_open
        self.room = capacity if is_open else 0

    def but(self, **changes):
        fields = dict(start=self.start, end=self.end, capacity=self.capacity, charge=self.charge, is_open=self.open)
        return Leg(**{**fields, **changes})


def standing_at(standing, k):
    return standing[k] if k < len(standing) else 0


def weigh(legs, standing, plan):
    cents = sum(leg.charge * amount for leg, amount in zip(legs, plan))
    return cents, sum(abs(amount - standing_at(standing, k)) for k, amount in enumerate(plan))


def obeys(legs, balances, plan):
    left = list(balances)
    for leg, amount in zip(legs, plan):
        left[leg.start] -= amount
        left[leg.end] += amount
    return not any(left)


class Flow:
    """Arcs in pairs, arc k and its reverse k ^ 1, with what is left of their room."""

    def __init__(self, nodes):
        self.heads, self.room, self.cost, self.at = [], [], [], [[] for _ in range(nodes)]

    def arc(self, start, end, room, cost):
        self.at[start].append(len(self.heads))
        self.at[end].append(len(self.heads) + 1)
        self.heads += [end, start]
        self.room += [room, 0]
        self.cost += [cost, -cost]
        return len(self.heads) - 2

    def send(self, arc, bikes):
        self.room[arc] -= bikes
        self.room[arc ^ 1] += bikes

    def walks(self, source):
        """The least cost to every node that is reached, and the last arc."""
        cost, last, waiting, queued = {source: 0}, {}, [source], {source}
        for node in waiting:
            queued.discard(node)
            for arc in self.at[node]:
                to = self.heads[arc]
                if self.room[arc] > 0 and (to not in cost or cost[node] + self.cost[arc] < cost[to]):
                    cost[to], last[to] = cost[node] + self.cost[arc], arc
                    if to not in queued:
                        waiting.append(to)
                        queued.add(to)
        return cost, last


def solve(legs, balances, standing):
    """The amounts of a best plan, or None and the stations of a cut."""
    n = len(balances)
    source, sink = n, n + 1
    flow, left, parts = Flow(n + 2), list(balances), []
    for k, leg in enumerate(legs):
        near = min(leg.room, standing_at(standing, k))
        pair = (near, CHARGE * leg.charge - 1), (leg.room - near, CHARGE * leg.charge + 1)
        parts.append([flow.arc(leg.start, leg.end, room, cost) for room, cost in pair])
        if pair[0][1] < 0:
            flow.send(parts[-1][0], near)
            left[leg.start] -= near
            left[leg.end] += near
    wanted = 0
    for station, bikes in enumerate(left):
        if bikes > 0:
            flow.arc(source, station, bikes, 0)
            wanted += bikes
        elif bikes < 0:
            flow.arc(station, sink, -bikes, 0)
    while wanted > 0:
        cost, last = flow.walks(source)
        if sink not in cost:
            return None, sorted(node for node in cost if node < n)
        walk, node = [], sink
        while node != source:
            walk.append(last[node])
            node = flow.heads[last[node] ^ 1]
        bikes = min(flow.room[arc] for arc in walk)
        for arc in walk:
            flow.send(arc, bikes)
        wanted -= bikes
    return [sum(flow.room[arc ^ 1] for arc in pair) for pair in parts], None


def prices_of(legs, n, plan):
    steps = []
    for leg, amount in zip(legs, plan):
        if amount < leg.room:
            steps.append((leg.start, leg.end, leg.charge))
        if amount > 0:
            steps.append((leg.end, leg.start, -leg.charge))
    prices = [0] * n
    for _ in range(n):
        for start, end, cents in steps:
            prices[end] = min(prices[end], prices[start] + cents)
    assert all(prices[end] <= prices[start] + cents for start, end, cents in steps)
    return prices


def every_plan(legs, balances):
    for plan in itertools.product(*(range(leg.room + 1) for leg in legs)):
        if obeys(legs, balances, plan):
            yield list(plan)


def refusal(legs, balances, sizes):
    n = len(balances)
    if sizes["prices"] < n or sizes["cut"] < n or sizes["by_station"] < 240 or sizes["by_leg"] < 3000:
        return 11, 0
    for k, leg in enumerate(legs):
        if max(leg.start, leg.end) >= n or leg.start == leg.end or leg.capacity > 500 or leg.charge > 10_000:
            return 12, k
    for station, balance in enumerate(balances):
        if abs(balance) > 120_000:
            return 13, station
    return (14, 0) if sum(balances) != 0 else None


def is_cut(legs, balances, cut):
    room = sum(leg.room for leg in legs if leg.start in cut and leg.end not in cut)
    return sum(balances[station] for station in cut) > room


def show(name, legs, balances, standing=(), **sizes):
    sizes = {"prices": 3, "cut": 3, "by_station": 240, "by_leg": 3000, **sizes}
    prices, cut = [UNTOUCHED] * sizes["prices"], [UNTOUCHED] * sizes["cut"]
    refused = refusal(legs, balances, sizes)
    if refused is None:
        plan, stations = solve(legs, balances, standing)
        plans = 1
        for leg in legs:
            plans *= leg.room + 1
        if plans <= FEW:
            ranked = sorted((weigh(legs, standing, p), p) for p in every_plan(legs, balances))
            assert [p for w, p in ranked if w == ranked[0][0]] == ([] if plan is None else [plan])
        if plan is None:
            assert is_cut(legs, balances, stations)
            refused = 15, len(stations)
            cut[: len(stations)] = stations
        else:
            assert obeys(legs, balances, plan)
            prices[: len(balances)] = prices_of(legs, len(balances), plan)
    if refused is None:
        print("%s: %d cents, difference %d" % (name, *weigh(legs, standing, plan)))
        print("  amounts %s" % plan)
    else:
        print("%s: refused %d %d" % (name, *refused))
    print("  prices %s" % prices)
    print("  cut %s" % cut)
    by_others()


def by_others():
    print("  the same by %d other guesses" % len(OTHERS))


BALANCES = [4, 0, -4]
TO_1, FROM_1, PAST_1 = Leg(0, 1, 4, 20), Leg(1, 2, 4, 10), Leg(0, 2, 3, 40)
T = [TO_1, FROM_1, PAST_1]
U = [TO_1, FROM_1, PAST_1.but(charge=30)]
LARGEST = Leg(0, 2, 500, 10_000)


def worked():
    show("T", T, BALANCES)
    show("T with leg 1 shut, standing 4 4 0", [TO_1, FROM_1.but(is_open=False), PAST_1], BALANCES, [4, 4, 0])
    show("U", U, BALANCES)
    show("U with leg 2 shut, standing 1 1 3", [TO_1, FROM_1, U[2].but(is_open=False)], BALANCES, [1, 1, 3])
    show("one station", [], [0], prices=1, cut=1)
    show("nothing", [], [], prices=0, cut=0)
    show("T under van limit 3", [leg.but(capacity=min(leg.capacity, 3)) for leg in T], BALANCES)
    show("a yard", [Leg(0, 1, 500, 25), Leg(1, 0, 500, 25)], [3, -3])


def standing_plans():
    for name, standing in [
        ("2 2", [2, 2]),
        ("3 3 1", [3, 3, 1]),
        ("3 3 1 and 9 beyond", [3, 3, 1, 9, 65535]),
        ("0 0 65535", [0, 0, 65535]),
        ("65535 on one leg", [65535]),
        ("65535 on every leg", [65535] * 3),
    ]:
        print("standing %s" % name)
        show("T", T, BALANCES, standing)
        show("U", U, BALANCES, standing)


def limits():
    for prices, cut in [(2, 3), (3, 2), (2, 2), (3, 3), (4, 3), (3, 4), (4, 4)]:
        print("%d prices, a cut of %d" % (prices, cut))
        show("T", T, BALANCES, prices=prices, cut=cut)
        show("5 bikes", [TO_1], [5, -5, 0], prices=prices, cut=cut)
    by_leg = "amounts", "lower arcs", "upper arcs", "nexts"
    for name in (
        "amounts", "left", "potentials", "lower arcs", "upper arcs", "nodes", "folded potentials", "best arcs",
        "labels", "labels in cents", "heads", "nexts", "heap", "places", "marks",
    ):
        print("one entry less in %s" % name)
        show("T", T, BALANCES, **({"by_leg": 2999} if name in by_leg else {"by_station": 239}))
    show("one more of each", T, BALANCES, by_station=241, by_leg=3001)
    for name, changes in [
        ("the largest leg", dict()),
        ("capacity 501", dict(capacity=501)),
        ("capacity 65,535", dict(capacity=65535)),
        ("charge 10,001", dict(charge=10_001)),
        ("charge 4,294,967,295", dict(charge=4_294_967_295)),
        ("end 3", dict(end=3)),
        ("start 3", dict(start=3)),
        ("equal ends", dict(start=2)),
        ("shut and sensible", dict(is_open=False)),
        ("shut and senseless", dict(charge=10_001, is_open=False)),
    ]:
        show(name, [TO_1, LARGEST.but(**changes)], [504, -4, -500])
    for name, balances in [
        ("no bikes", [0, 0]),
        ("sum 1", [1, 0]),
        ("sum -1", [0, -1]),
        ("balance 120,000", [120_000, -120_000]),
        ("balance -120,000", [-120_000, 120_000]),
        ("balance 120,001", [120_000, 120_001]),
        ("balance -120,001", [-120_001, 120_000]),
        ("balances of 32 bits", [-(2**31), 2**31 - 1]),
    ]:
        show(name, [], balances)
    wide, narrow, astray = FROM_1.but(capacity=501), FROM_1.but(capacity=3), PAST_1.but(end=3)
    show("all faults", [TO_1, wide, astray], [7, -120_001, 120_001], cut=2)
    show("slices mended", [TO_1, wide, astray], [7, -120_001, 120_001])
    show("leg 1 mended", [TO_1, narrow, astray], [7, -120_001, 120_001])
    show("legs mended", [TO_1, narrow, PAST_1], [7, -120_001, 120_001])
    show("station 1 mended", [TO_1, narrow, PAST_1], [7, 0, 120_001])
    show("stations mended", [TO_1, narrow, PAST_1], [7, 0, 0])
    show("sum mended", [TO_1, narrow, PAST_1], [7, 0, -7])
    show("all mended", [TO_1, narrow, PAST_1], [6, 0, -6])
    show("120,000 bikes", [LARGEST] * 240, [120_000, 0, -120_000])
    show("room for 119,999", [LARGEST] * 239 + [LARGEST.but(capacity=499)], [120_000, 0, -120_000])


class Generator:
    """The program's, number for number."""

    def __init__(self, seed):
        self.state = seed

    def below(self, bound):
        self.state = (self.state * 6364136223846793005 + 1442695040888963407) % 2**64
        return (self.state >> 33) % 2**16 % bound

    def leg(self, stations, capacities, charges):
        start = self.below(stations)
        turn = self.below(stations - 1)
        capacity = self.below(capacities)
        return Leg(start, turn if turn < start else turn + 1, capacity, self.below(charges))


def random_networks():
    generator = Generator(1)
    planned = refused = cents = difference = prices = 0
    for _ in range(400):
        balances = [0] * (2 + generator.below(3))
        legs = []
        for _ in range(1 + generator.below(5)):
            leg = generator.leg(len(balances), 3, 4)
            bikes = min(generator.below(3), generator.below(3))
            balances[leg.start] += bikes
            balances[leg.end] -= bikes
            legs.append(leg.but(is_open=generator.below(8) != 0))
        standing = [generator.below(4) for _ in range(generator.below(7))]
        plans = [(weigh(legs, standing, plan), plan) for plan in every_plan(legs, balances)]
        if not plans:
            refused += 1
            continue
        planned += 1
        (c, d), plan = min(plans)
        cents += c
        difference += d
        prices += sum(prices_of(legs, len(balances), plan))
    for name in ["the planner's own guess"] + OTHERS:
        print("random networks by %s: %d with a plan, %d without, %d agree" % (name, planned, refused, planned + refused))
        print("  %d cents, difference %d, prices %d in all" % (cents, difference, prices))


# name, stations, legs, capacities, charges, one in so many legs carries, more bikes from station 0 to 1
RECIPES = [
    ("small", 40, 200, 21, 101, 3, 0),
    ("sparse", 120, 300, 51, 1001, 2, 0),
    ("dense", 40, 1500, 31, 1001, 9, 0),
    ("narrow", 80, 1000, 2, 10_001, 2, 0),
    ("ties", 160, 2000, 12, 3, 3, 0),
    ("wide", 200, 1200, 501, 10_001, 8, 0),
    ("free", 100, 800, 41, 1, 4, 0),
    ("large", 240, 3000, 100, 1001, 12, 0),
    ("full", 240, 3000, 9, 10_001, 2, 0),
    ("no plan", 240, 3000, 5, 1001, 9, 300),
]


def carry(balances, start, end, bikes):
    if balances[start] + bikes <= 500 and balances[end] - bikes >= -500:
        balances[start] += bikes
        balances[end] -= bikes


def drawn(seed, stations, count, capacities, charges, one_in, more):
    generator = Generator(seed)
    balances, legs = [0] * stations, []
    for _ in range(count):
        leg = generator.leg(stations, capacities, charges)
        if generator.below(one_in) == 0:
            carry(balances, leg.start, leg.end, leg.capacity)
        legs.append(leg)
    carry(balances, 0, 1, more)
    return legs, balances


def glpk_cents(legs, balances):
    lines = ["p min %d %d" % (len(balances), len(legs))]
    lines += ["n %d %d" % (k + 1, balance) for k, balance in enumerate(balances) if balance != 0]
    lines += ["a %d %d 0 %d %d" % (leg.start + 1, leg.end + 1, leg.capacity, leg.charge) for leg in legs]
    text = "".join(line + "\n" for line in lines)
    assert len(text) <= 65536, len(text)
    with tempfile.TemporaryDirectory() as folder:
        network, solution = os.path.join(folder, "network.min"), os.path.join(folder, "solution")
        with open(network, "w") as file:
            file.write(text)
        command = ["glpsol", "--mincost", network, "-w", solution]
        told = subprocess.run(command, check=True, capture_output=True, text=True).stdout
        if "PROBLEM HAS NO PRIMAL FEASIBLE SOLUTION" in told:
            return None
        with open(solution) as file:
            (fields,) = [line.split() for line in file if line.startswith("s ")]
    assert fields[4] == "f" and float(fields[-1]).is_integer(), fields
    return int(float(fields[-1]))


def texts():
    for seed, (name, *recipe) in enumerate(RECIPES):
        legs, balances = drawn(seed, *recipe)
        cents = glpk_cents(legs, balances)
        plan, cut = solve(legs, balances, [])
        if cents is None:
            assert is_cut(legs, balances, cut)
            print("text %s refused 15" % name)
            print("  with a cut true")
            by_others()
            continue
        assert obeys(legs, balances, plan)
        total, difference = weigh(legs, [], plan)
        assert total == cents, (name, total, cents)
        prices = sum(prices_of(legs, len(balances), plan))
        print("text %s cents %d" % (name, cents))
        print("  difference %d, prices %d in all, sound true" % (difference, prices))
        by_others()


if __name__ == "__main__":
    worked()
    standing_plans()
    limits()
    random_networks()
    texts()
