"""What the fuzzing scripts share: many runs of a program side by side, their sum, and a report of what differs."""

import collections
import concurrent.futures
import os
import sys
import tempfile


def fuzz(name, run, count, share, show):
    """Runs `run(program, seed, count)` on shares of the count, which the second argument may set, as the third the seed.

    `run` answers a Counter of what it saw and a list of (text, wanted, printed), in bytes, of what differs. `show` prints the
    sum of the counters. The status is 1 if anything differs; that is written to a folder, which is printed.
    """
    program = os.path.abspath(sys.argv[1])
    count = int(sys.argv[2]) if len(sys.argv) > 2 else count
    seed = int(sys.argv[3]) if len(sys.argv) > 3 else 1
    seen, apart = collections.Counter(), []
    with concurrent.futures.ProcessPoolExecutor() as pool:
        parts = [pool.submit(run, program, seed * 1_000_003 + k, min(share, count - k * share)) for k in range(-(-count // share))]
        for part in parts:
            some, differing = part.result()
            seen.update(some)
            apart += differing
    show(seen)
    if apart:
        folder = tempfile.mkdtemp(prefix="fuzz.")
        for k, parts in enumerate(apart):
            for kind, data in zip(("text", "wanted", "printed"), parts):
                with open(os.path.join(folder, "%d.%s" % (k, kind)), "wb") as file:
                    file.write(data)
        print("%s whose answers differ: %s" % (name, folder))
    print("%d %s, %d answers differ" % (sum(seen.values()), name, len(apart)))
    return 1 if apart else 0
