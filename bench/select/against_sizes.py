#!/usr/bin/env python3
"""against_sizes.py PROGRAM [ROUNDS]: runs the selector's bench on roots of four kinds that double from a thousand nodes to a million.

Each round (20 by default; the largest roots have a third of them) runs each root and the one of twice its nodes, one directly
after the other, so that what else the machine does disturbs both alike. For how many times as long the second takes the median of all
rounds counts, and for nodes a second the best time.
"""
import statistics
import subprocess
import sys

# The kinds, with the nodes that one step adds.
KINDS = {"sums": (0, 3), "quotients": (1, 3), "products": (2, 4), "calls": (3, 2)}
# The first `select` of a process gets all its memory new; of the others the best of five calls in one process counts.
PARTS = ["first select", "select", "rows", "is_derivation", "code_of"]
SIZES = [1000 << doubling for doubling in range(11)]


def run(program, name, size):
    """The nodes of a root of about this size, and the time of each part in nanoseconds."""
    kind, nodes = KINDS[name]
    done = subprocess.run([program], input=f"{kind} {size // nodes}", capture_output=True, text=True, check=True)
    return [int(number) for number in done.stdout.split()]


def measure(program, rounds):
    """For each kind and size the nodes with the least time of each part, and how many times as long twice the nodes took in each round."""
    best, ratios = {}, {}
    for turn in range(rounds):
        for size in SIZES[:-1] if 3 * turn < rounds else [size for size in SIZES if size < 200000]:
            for name in KINDS:
                found = {}
                for each in (size, 2 * size) if turn % 2 else (2 * size, size):
                    found[each] = run(program, name, each)
                    best[name, each] = [min(pair) for pair in zip(found[each], best.get((name, each), found[each]))]
                ratios.setdefault((name, size), []).append([new / old if old else 0 for old, new in zip(found[size][1:], found[2 * size][1:])])
    return best, ratios


def main():
    best, ratios = measure(sys.argv[1], int(sys.argv[2]) if len(sys.argv) > 2 else 20)
    for name in KINDS:
        for size in SIZES:
            nodes, *times = best[name, size]
            rates = [f"{part} {nodes * 1000 / time:.1f}" for part, time in zip(PARTS, times) if time]
            print(f"{name}, {nodes} nodes, million nodes/s: {', '.join(rates)}")
        steps = [[statistics.median(column) for column in zip(*ratios[name, size])] for size in SIZES[:-1]]
        told = ", ".join(f"{part} {max(medians):.2f}" for part, medians in zip(PARTS, zip(*steps)))
        print(f"{name}: twice the nodes take at most so many times as long: {told}")


main()
