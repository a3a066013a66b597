#!/usr/bin/env python3
"""The networks of the bench, as texts.

Every network is made from a fixed seed, so the texts are the same on every machine. All but one have a plan:
bikes are first sent along walks that are drawn at random, and the balances and the least capacities
follow from them. The other, no-plan, has a cut that is a few bikes too narrow.

Three of them are made in smaller sizes, too: with fewer stations, and as many legs to a station.
"""

import random

STATIONS = 240
LEGS = 3000
MOST_BIKES = 500
MOST_CENTS = 10000
MOST_BYTES = 65536


class Draft:
    """A network in the making. Stations count from 0."""

    def __init__(self, seed, stations=STATIONS, count=LEGS):
        self.rng = random.Random(seed)
        self.stations = stations
        self.count = count
        self.legs = []
        self.taken = set()
        self.out = [[] for _ in range(stations)]
        self.balance = [0] * stations

    def leg(self, source, end, capacity, cents, twice=False):
        """Adds a leg unless the pair has one already."""
        if source == end or ((source, end) in self.taken and not twice):
            return False
        self.taken.add((source, end))
        self.out[source].append(len(self.legs))
        self.legs.append([source, end, capacity, cents, 0])
        return True

    def fill(self, draw, twice=False):
        """Adds the legs that draw() proposes until there are enough."""
        while len(self.legs) < self.count:
            self.leg(*draw(), twice=twice)

    def walk(self, source, end, bikes, among=None):
        """Legs of a walk that has room for the bikes, found in a random order, over the stations
        `among` or any; None if none is found."""
        came = {source: None}
        edge = [source]
        while edge and end not in came:
            at = edge.pop(self.rng.randrange(len(edge)))
            for number in self.out[at]:
                leg = self.legs[number]
                if (leg[1] not in came and leg[4] + bikes <= MOST_BIKES
                        and (among is None or leg[1] in among)):
                    came[leg[1]] = number
                    edge.append(leg[1])
        if end not in came:
            return None
        steps = []
        while came[end] is not None:
            steps.append(came[end])
            end = self.legs[came[end]][0]
        return steps

    def send(self, source, end, bikes):
        """Plants bikes on a random walk and owes them to the balances."""
        if self.balance[source] + bikes > MOST_BIKES or self.balance[end] - bikes < -MOST_BIKES:
            return False
        steps = self.walk(source, end, bikes)
        if steps is None:
            return False
        for number in steps:
            self.legs[number][4] += bikes
        self.balance[source] += bikes
        self.balance[end] -= bikes
        return True

    def send_among(self, sources, ends, total, most):
        """Plants about total bikes from sources to ends, at most `most` at a time."""
        tries = 0
        while total > 0 and tries < 20000:
            tries += 1
            bikes = min(total, self.rng.randint(1, most))
            if self.send(self.rng.choice(sources), self.rng.choice(ends), bikes):
                total -= bikes

    def text(self, shuffle=True):
        if shuffle:
            self.rng.shuffle(self.legs)
        names = list(range(1, self.stations + 1))
        if shuffle:
            self.rng.shuffle(names)
        lines = ["p min %d %d" % (self.stations, len(self.legs))]
        owed = sorted((names[at], bikes) for at, bikes in enumerate(self.balance) if bikes != 0)
        lines += ["n %d %d" % pair for pair in owed]
        for source, end, capacity, cents, planted in self.legs:
            room = max(capacity, planted)
            assert 0 <= room <= MOST_BIKES and 0 <= cents <= MOST_CENTS and source != end
            lines.append("a %d %d 0 %d %d" % (names[source], names[end], room, cents))
        assert len(self.legs) == self.count
        assert sum(self.balance) == 0 and max(map(abs, self.balance)) <= MOST_BIKES
        text = "\n".join(lines) + "\n"
        assert len(text) <= MOST_BYTES, len(text)
        return text


def legs_of(n):
    """How many legs a network of n stations has: as many to a station as the largest."""
    return LEGS * n // STATIONS


def random_network(n=STATIONS):
    """Legs between any two stations; a tenth of the stations have many bikes, a tenth need many."""
    d = Draft(1, n, legs_of(n))
    r = d.rng
    d.fill(lambda: (r.randrange(n), r.randrange(n), r.randint(0, 60), r.randint(1, 9999)))
    d.send_among(range(0, n // 10), range(n // 10, n // 5), n // 10 * 350, 25)
    return d.text()


def spread():
    """Nearly every station has some bikes too many or too few."""
    d = Draft(2)
    r = d.rng
    d.fill(lambda: (r.randrange(240), r.randrange(240), r.randint(0, 40), r.randint(1, 9999)))
    d.send_among(range(0, 120), range(120, 240), 120 * 60, 12)
    return d.text()


def transport():
    """Legs only from stations that have bikes to stations that need them."""
    d = Draft(3)
    r = d.rng
    d.fill(lambda: (r.randrange(120), r.randrange(120, 240), r.randint(0, 50), r.randint(1, 9999)))
    for _ in range(1500):
        leg = r.choice(d.legs)
        bikes = r.randint(1, 30)
        if (leg[4] + bikes <= MOST_BIKES and d.balance[leg[0]] + bikes <= MOST_BIKES
                and d.balance[leg[1]] - bikes >= -MOST_BIKES):
            leg[4] += bikes
            d.balance[leg[0]] += bikes
            d.balance[leg[1]] -= bikes
    return d.text()


def netgen():
    """Chains from each source over passing stations to sinks carry everything, dearly; then random legs."""
    d = Draft(4)
    r = d.rng
    sources, sinks, passing = list(range(0, 40)), list(range(40, 80)), list(range(80, 240))
    r.shuffle(passing)
    chains = [[s] for s in sources]
    for at in passing:
        r.choice(chains).append(at)
    for chain in chains:
        bikes = r.randint(100, 500)
        links = []
        for a, b in zip(chain, chain[1:]):
            d.leg(a, b, 0, r.choice([9999, r.randint(1, 9999)]))
            links.append(d.legs[-1])
        parts = []
        for end in r.sample(sinks, 3):
            if d.leg(chain[-1], end, 0, r.choice([9999, r.randint(1, 9999)])):
                parts.append((d.legs[-1], end))
        for leg, end in parts:
            share = min(bikes // len(parts), d.balance[end] + MOST_BIKES)
            leg[4] += share
            for link in links:
                link[4] += share
            d.balance[chain[0]] += share
            d.balance[end] -= share
    d.fill(lambda: (r.choice(sources + passing), r.choice(sinks + passing),
                    r.randint(1, 120), r.randint(1, 9999)))
    return d.text()


def grid():
    """16 by 15 stations; legs to near stations, from the left side to the right."""
    d = Draft(5)
    r = d.rng
    near = []
    for x in range(16):
        for y in range(15):
            for dx in range(-2, 3):
                for dy in range(-2, 3):
                    if 0 <= x + dx < 16 and 0 <= y + dy < 15 and (dx, dy) != (0, 0):
                        near.append((abs(dx) + abs(dy), r.random(), x * 15 + y, (x + dx) * 15 + y + dy))
    near.sort()
    for far, _, a, b in near[:LEGS]:
        d.leg(a, b, r.randint(10, 60), far * r.randint(100, 1500))
    d.send_among(range(0, 30), range(210, 240), 30 * 200, 15)
    return d.text()


def chains(n=STATIONS):
    """Two chains of n / 2 stations. Skipping stations is dearer than going through them."""
    d = Draft(6, n, legs_of(n))
    r = d.rng
    half, ends = n // 2, n // 24
    for far in range(1, 14):
        for side in (0, half):
            for at in range(half - 1):
                if at + far < half and len(d.legs) < d.count - n // 6:
                    d.leg(side + at, side + at + far, r.randint(20, 90) if far == 1 else r.randint(1, 30),
                          far * far * 40 + r.randint(0, 40) * far)
    d.fill(lambda: (r.randrange(n), r.randrange(n), r.randint(1, 20), r.randint(1, 9999)))
    tops = list(range(0, ends)) + list(range(half, half + ends))
    tails = list(range(half - ends, half)) + list(range(n - ends, n))
    d.send_among(tops, tails, 2 * ends * 60, 6)
    d.send_among(range(n), range(n), n * 5 // 2, 6)
    return d.text()


# How many layers a network of so many stations has.
LAYERS = {30: 3, 60: 5, 120: 8, 240: 12}


def layered(n=STATIONS):
    """Layers of stations, legs from each to the next; in the smaller sizes some pairs have more than one."""
    d = Draft(7, n, legs_of(n))
    r = d.rng
    layers, wide = LAYERS[n], n // LAYERS[n]

    def draw():
        layer = r.randrange(layers - 1)
        return (layer * wide + r.randrange(wide), layer * wide + wide + r.randrange(wide),
                r.randint(0, 40), r.randint(1, 9999))
    d.fill(draw, twice=n < STATIONS)
    d.send_among(range(0, wide), range(n - wide, n), wide * 300, 20)
    return d.text()


def ties():
    """Few different charges, zero among them."""
    d = Draft(8)
    r = d.rng
    d.fill(lambda: (r.randrange(240), r.randrange(240), r.randint(0, 40), r.choice([0, 0, 1, 2, 5])))
    d.send_among(range(0, 60), range(60, 120), 60 * 120, 12)
    return d.text()


def no_plan():
    """Sources in one half, sinks in the other, and seven bikes too little room between the halves."""
    d = Draft(9)
    r = d.rng
    between = 300
    while len(d.legs) < between:
        d.leg(r.randrange(120), r.randrange(120, 240), r.randint(5, 25), r.randint(1, 9999))

    def draw():
        side = r.choice([0, 120])
        return side + r.randrange(120), side + r.randrange(120), r.randint(10, 80), r.randint(1, 9999)
    d.fill(draw)
    # Only what fits between the halves is planted, and then seven bikes more are owed.
    room = sum(leg[2] for leg in d.legs[:between])
    left = d.legs[:between]
    while left:
        leg = r.choice(left)
        bikes = min(leg[2] - leg[4], r.randint(1, 8))
        source, end = r.randrange(0, 40), r.randrange(200, 240)
        if d.balance[source] + bikes > MOST_BIKES or d.balance[end] - bikes < -MOST_BIKES:
            continue
        first = [] if source == leg[0] else d.walk(source, leg[0], bikes, range(0, 120))
        last = [] if end == leg[1] else d.walk(leg[1], end, bikes, range(120, 240))
        if first is None or last is None:
            continue
        for number in first + last:
            d.legs[number][4] += bikes
        leg[4] += bikes
        d.balance[source] += bikes
        d.balance[end] -= bikes
        left = [leg for leg in left if leg[4] < leg[2]]
    assert sum(leg[4] for leg in d.legs[:between]) == room
    for _ in range(7):
        source = min(range(0, 40), key=lambda at: d.balance[at])
        end = max(range(200, 240), key=lambda at: d.balance[at])
        d.balance[source] += 1
        d.balance[end] -= 1
    return d.text()


def dense():
    """55 stations, nearly every two of them joined both ways."""
    d = Draft(10, 55)
    r = d.rng
    for a in range(55):
        for b in range(55):
            d.leg(a, b, r.randint(0, 30), r.randint(1, 9999))
    d.fill(lambda: (r.randrange(55), r.randrange(55), r.randint(0, 30), r.randint(1, 9999)), twice=True)
    d.send_among(range(0, 25), range(25, 55), 25 * 400, 20)
    return d.text()


def longest():
    """About as many bytes as a text may have: every number is written with as many digits as it may have."""
    return with_long_numbers(STATIONS, LEGS)


def half_as_long():
    return with_long_numbers(STATIONS // 2, LEGS // 2)


def with_long_numbers(stations, legs):
    """A text with so many lines that state a balance and a leg."""
    r = random.Random(11)
    lines = ["p min %d %d" % (STATIONS, legs)]
    lines += ["n %d %d" % (STATIONS - k, r.randint(100, 500)) for k in range(stations)]
    for _ in range(legs):
        source, end = r.sample(range(100, STATIONS + 1), 2)
        lines.append("a %d %d 0 %d %d" % (source, end, r.randint(100, 500), r.randint(1000, 9999)))
    return "\n".join(lines) + "\n"


# The ten of the largest size, by name.
NETWORKS = {
    "random": random_network,
    "spread": spread,
    "transport": transport,
    "netgen": netgen,
    "grid": grid,
    "chains": chains,
    "layered": layered,
    "ties": ties,
    "no-plan": no_plan,
    "dense": dense,
}

# Those that are made in several sizes, and the sizes.
GROWING = ["random", "chains", "layered"]
SIZES = sorted(LAYERS)
