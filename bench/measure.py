#!/usr/bin/env python3
"""Prints the tables of the bench: measure.py WORK PLANNER PEER [--quick] [--reader READER] [NETWORK...]

Called by bench/run, which builds the programs. WORK is a folder for texts and answers. With --quick one method of LEMON
is run beside its own program, else three. With a READER all tables are printed, else the first alone. bench/README.md says what they hold.
"""

import argparse
import math
import os
import re
import shutil
import statistics
import subprocess
import sys
import time

import agree
import instances

METHODS = {"NetworkSimplex": "network-simplex", "CostScaling": "cost-scaling", "successive paths": "successive-paths"}
SOLVER = "dimacs-solver"  # LEMON's own program
RUNS = 50  # of so many the shortest counts


def reading(command, text):
    """The command, with the text named to LEMON's own program, which reads a file faster than its input."""
    return command + [text] if os.path.basename(command[0]) == SOLVER else command


def count(command, text):
    """The instructions of a whole process on a text, the file with what it printed, and what it reported."""
    answer = "%s.%s" % (text, "-".join(os.path.basename(word) for word in command))
    callgrind = ["valgrind", "--tool=callgrind", "--callgrind-out-file=/dev/null"]
    with open(text) as stdin, open(answer, "w") as stdout:
        told = subprocess.run(callgrind + reading(command, text), stdin=stdin, stdout=stdout, stderr=subprocess.PIPE, text=True)
    counted = re.search(r"Collected : (\d+)", told.stderr)
    if told.returncode != 0 or counted is None:
        sys.exit("bench: %s failed on %s:\n%s" % (command[0], text, told.stderr))
    return int(counted[1]), answer, told.stderr


def solver_verdict(answer, report):
    """Whether LEMON's program, which tells its cents alone, agrees with the planner."""
    with open(answer) as file:
        first = file.readline().split()
    found = re.search(r"Min flow cost: (-?\d+)", report)
    theirs = found[1] if found else None
    ours = first[1] if first[0] == "s" else None
    return "yes" if ours == theirs else "no: the planner says %s, the solver %s" % (ours, theirs)


def milliseconds(command, text):
    """How long a whole process takes on a text: the shortest of many runs."""
    files = [(os.POSIX_SPAWN_OPEN, 0, text, os.O_RDONLY, 0), (os.POSIX_SPAWN_OPEN, 1, os.devnull, os.O_WRONLY, 0), (os.POSIX_SPAWN_DUP2, 1, 2)]
    least = math.inf
    for _ in range(RUNS):
        start = time.perf_counter()
        os.waitpid(os.posix_spawn(command[0], reading(command, text), os.environ, file_actions=files), 0)
        least = min(least, time.perf_counter() - start)
    return 1000 * least


class Table:
    """A table that is printed row by row, in columns that are wide enough for what stands in them."""

    def __init__(self, title, *columns):
        self.widths = [max(16, len(str(column))) for column in columns]
        print("\n%s\n" % title)
        self.row(*columns)
        print("|".join(["", "---"] + ["---:"] * (len(columns) - 1) + [""]))

    def row(self, *cells):
        padded = [str(cells[0]).ljust(self.widths[0])]
        padded += [str(cell).rjust(width) for cell, width in zip(cells[1:], self.widths[1:])]
        print("| %s |" % " | ".join(padded), flush=True)


def grouped(number):
    return "{:,}".format(number)


class Bench:
    """The folder for texts and answers, the planner, and its peers by name."""

    def __init__(self, folder, planner, peer, methods):
        self.folder, self.planner = folder, [planner]
        self.peers = {name: [peer, METHODS[name]] for name in methods}
        self.peers[SOLVER] = [shutil.which(SOLVER)]
        self.programs = {"planner": self.planner, **self.peers}
        self.apart = []

    def text(self, name, text):
        path = os.path.join(self.folder, name + ".min")
        with open(path, "w", newline="\n") as file:
            file.write(text)
        return path

    def counts(self, path):
        """The instructions of the planner and of each peer, and whether each peer agrees."""
        ours, answer, _ = count(self.planner, path)
        counted, verdicts = [ours], []
        for name, command in self.peers.items():
            theirs, other, report = count(command, path)
            verdict = solver_verdict(answer, report) if name == SOLVER else agree.verdict(path, answer, other)
            if verdict != "yes":
                self.apart.append("%s, %s: %s" % (os.path.basename(path), name, verdict))
            counted.append(theirs)
            verdicts.append(verdict.split(":")[0])
        return counted, " ".join(verdicts)

    def largest(self, names):
        columns = [column for name in self.peers for column in (name, "ratio")]
        table = Table("Instructions", "network", "planner", *columns, "agree")
        ratios = []
        for name in names:
            (ours, *theirs), verdicts = self.counts(self.text(name, instances.NETWORKS[name]()))
            ratios.append([ours / count for count in theirs])
            cells = [cell for pair in zip(map(grouped, theirs), map("%.2f".__mod__, ratios[-1])) for cell in pair]
            table.row(name, grouped(ours), *cells, verdicts)
        for name, least in ("geometric mean", statistics.geometric_mean), ("worst", max):
            table.row(name, "", *(cell for peer in zip(*ratios) for cell in ("", "%.2f" % least(peer))), "")

    def growth(self):
        sizes = instances.SIZES
        table = Table("Instructions by stations", "network", "program", *sizes, "exponent")
        for name in instances.GROWING:
            texts = [self.text("%s-%d" % (name, n), instances.NETWORKS[name](n)) for n in sizes]
            counted = [self.counts(text)[0] for text in texts]
            for program, series in zip(self.programs, zip(*counted)):
                exponent = math.log(series[-1] / series[0]) / math.log(sizes[-1] / sizes[0])
                table.row(name, program, *map(grouped, series), "%.2f" % exponent)

    def times(self, names):
        table = Table("Milliseconds", "network", *self.programs)
        for name in names:
            path = self.text(name, instances.NETWORKS[name]())
            table.row(name, *("%.2f" % milliseconds(command, path) for command in self.programs.values()))

    def reading(self, reader):
        table = Table("Reading", "text", "bytes", "instructions", "a byte")
        for name, make in ("half as long", instances.half_as_long), ("longest", instances.longest):
            path = self.text(name.replace(" ", "-"), make())
            counted, _, _ = count([reader], path)
            size = os.path.getsize(path)
            table.row(name, grouped(size), grouped(counted), "%.1f" % (counted / size))


def main():
    parser = argparse.ArgumentParser(usage=__doc__)
    for name in "work", "planner", "peer":
        parser.add_argument(name)
    parser.add_argument("--quick", action="store_true")
    parser.add_argument("--reader")
    parser.add_argument("networks", nargs="*")
    given = parser.parse_intermixed_args()
    for name in given.networks:
        if name not in instances.NETWORKS:
            parser.error("no network " + name)
    methods = list(METHODS)[:1] if given.quick else list(METHODS)
    bench = Bench(given.work, given.planner, given.peer, methods)
    names = given.networks or list(instances.NETWORKS)
    bench.largest(names)
    if given.reader:
        bench.growth()
        bench.times(names)
        bench.reading(given.reader)
    for line in bench.apart:
        print("disagree: " + line)
    sys.exit(1 if bench.apart else 0)


main()
