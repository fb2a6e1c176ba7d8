#!/usr/bin/env python3
"""Times the policy's structures: moves in a queue, timers, counts of a sketch.

Each figure is the difference of two runs, one of which only
builds the structure, in processor time, the best of three; the work itself is bounded. The status is 1 if a move of the first node takes
more than three times as long at a million nodes as at a thousand: these go through memory in order. A random node of a million is
usually in no processor cache, so its figure says more about the machine.
"""
import os
import subprocess
import sys

import build
import figures
import progress

MOST_GROWTH = 3.0


def seconds_of(what, size, rounds):
    """The processor seconds of the best of three runs."""
    best, words = None, [build.bench(), "policy", what, str(size), str(rounds)]
    progress.show(f"{what} of {size:,}, {rounds:,} rounds")
    for _ in range(3):
        before = os.times()
        subprocess.run(words, stdout=subprocess.DEVNULL, check=True)
        after = os.times()
        spent = after.children_user + after.children_system - before.children_user - before.children_system
        best = spent if best is None else min(best, spent)
    progress.clear()
    return best


def nanos_a_round(what, size, rounds):
    """The nanoseconds of one round, without what building the structure takes."""
    return (seconds_of(what, size, rounds) - seconds_of(what, size, 0)) / rounds * 1e9


FIGURES = {
    "fronts": "the first node moved to the back",
    "moves": "a random node moved to the back",
    "counts": "a hash counted by a sketch of that size",
    "frequencies": "a hash looked up there",
    "rising": "a timer scheduled, in rising order",
    "random": "a timer scheduled, in random order",
    "lives": "a timer scheduled, a minute or a day ahead at random",
}


def keep(what, size, nanos):
    figures.keep("policy", {FIGURES[what]: {str(size): round(nanos)}})


def main():
    small = nanos_a_round("fronts", 1_000, 10_000_000)
    large = nanos_a_round("fronts", 1_000_000, 10_000_000)
    for what, size, nanos in [("fronts", 1_000, small), ("fronts", 1_000_000, large)]:
        keep(what, size, nanos)
    print(f"the first node moved to the back: {small:.0f} ns at 1,000 nodes, {large:.0f} ns at 1,000,000")
    drawn = [nanos_a_round("moves", size, 10_000_000) for size in (1_000, 1_000_000)]
    for size, nanos in zip((1_000, 1_000_000), drawn):
        keep("moves", size, nanos)
    print(f"a drawn node moved to the back: {drawn[0]:.0f} ns at 1,000 nodes, {drawn[1]:.0f} ns at 1,000,000")
    for what in ["rising", "random", "lives"]:
        for size in [10_000, 100_000, 1_000_000]:
            made, scheduled, expired = [seconds_of(what, size, rounds) / size * 1e9 for rounds in (0, 1, 2)]
            keep(what, size, scheduled - made)
            print(f"{size:,} timers, {what}: {scheduled - made:.0f} ns a schedule, {expired - scheduled:.0f} ns an expiration")
    for what in ["counts", "frequencies"]:
        for size in [1_000, 1_000_000]:
            once = nanos_a_round(what, size, 10_000_000)
            keep(what, size, once)
            print(f"{what} of a sketch for {size:,}: {once:.0f} ns each, {1000 / once:.0f} million a second")
    sys.exit(large > MOST_GROWTH * small)


if __name__ == "__main__":
    main()
