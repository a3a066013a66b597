#!/usr/bin/env python3
"""Holds `office_day` against the model in check_day.py: fuzz_days.py PROGRAM [COUNT [SEED]]

Draws COUNT days at random: a network text or a promenade, up to two layers, and calls of all sorts, some of them beyond their limits,
with slices that are too short, and some lines that tell no call or tell one in another spelling. Runs PROGRAM on each and checks
what it prints as check_day.py does. Prints how many answers of each sort there were, and how many days differ; the status is 1 if
any does.
"""

import collections
import os
import random
import re
import subprocess
import sys
import tempfile

from check_day import fault
from fuzz_networks import draw, text_of
from fuzzing import fuzz

SPOILT = ["", "plan ", " runs", "tea", "close", "close -1", "close +1", "close 01", "report 0 -0", "report 1 2 3", "read 1\r"]
SPOILT += ["stations\t3", "plan 3 3 240", "Plan", "reopen 18446744073709551616", "report 0 2147483648", "report 0 -2147483649", "runs x", "read \u00e9"]
STRANGE = ["read 18446744073709551615", "close 18446744073709551615", "report 0 2147483647", "report 0 -2147483648"]


def layers(r):
    words = []
    for _ in range(r.choice([0, 0, 1, 1, 2])):
        words += ["limit", str(r.choice([0, 1, 3, 9, 500, 70_000]))] if r.random() < 0.5 else ["yard", str(r.choice([0, 5, 25, 10_001]))]
    return words


def call(r, stations, legs):
    """A line for so many stations and legs, with those of two yards among them or not."""
    station, leg = r.randint(0, stations + 1), r.randint(0, legs + 1)
    long = r.choice([stations, stations + 1, stations + 2, legs, 250])
    return r.choice([
        "report %d %d" % (station, r.choice([-1, 1]) * r.choice([0, 1, 2, 5, 40, 500, 501])),
        "report %d %d" % (station, r.randint(-9, 9)),
        "close %d" % leg,
        "reopen %d" % leg,
        "plan",
        "plan",
        "plan %d %d %d %d" % (long, r.choice([long, stations + 2]), r.choice([240, 240, 239, 300]), r.choice([3000, 3000, 2999])),
        "stations",
        "runs",
        "stations %d" % long,
        "runs %d" % r.choice([legs, long]),
        "read %d" % leg,
        r.choice(SPOILT),
        r.choice(STRANGE),
    ])


def day(r, folder):
    """Arguments, and the calls."""
    if r.random() < 0.25:
        stations = r.choice([0, 1, 2, 4, 7, 41])
        words = ["promenade", str(stations), str(r.choice([0, 3, 12, 501])), str(r.choice([0, 7, 10_001]))]
        legs = 2 * stations
    else:
        net = draw(r)
        words, stations, legs = [os.path.join(folder, "text")], net[0], len(net[2])
        with open(words[0], "w") as file:
            file.write(text_of(*net) + ("n 0\n" if r.random() < 0.02 else ""))
    lines = [call(r, stations, legs + 2 * stations) for _ in range(r.choice([0, 1, 5, 12, 30]))]
    if r.random() < 0.01:
        lines.append("runs 4000001")
    return words + layers(r), "\n".join(lines) + ("\n" if r.random() < 0.8 else "")


def run(program, seed, count):
    r = random.Random(seed)
    seen, apart = collections.Counter(), []
    with tempfile.TemporaryDirectory() as folder:
        for _ in range(count):
            words, calls = day(r, folder)
            done = subprocess.run([program, *words], input=calls.encode("latin-1"), capture_output=True)
            told = done.stdout.decode("latin-1")
            seen.update(re.findall(r"(?<=: )(?:done|refused \d+|no call|absent)|cents|listed|c refused \d+", told))
            seen["days"] += 1
            wrong, _ = fault(told, calls, words)
            if wrong or done.returncode != 0:
                apart.append([part.encode() for part in (calls, wrong or "status %d" % done.returncode, " ".join(words) + "\n" + told)])
    return seen, apart


def show(seen):
    print("  ".join("%s %d" % item for item in sorted(seen.items())))


if __name__ == "__main__":
    sys.exit(fuzz("answers", run, 2_000, 50, show))
