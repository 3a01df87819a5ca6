#!/usr/bin/env python3
"""Times the interpreter beside the C ones, on each program of programs/.

    bench.py [REPEAT] [PROGRAM]

PROGRAM is the built program (crates/bcpl/out/bcpl if left out). Runs of the three take turns, and the
best processor time of REPEAT (5) counts: times of a shared machine swing, ratios of interleaved runs less.
"""
import hashlib
import os
import subprocess
import sys

here = os.path.dirname(os.path.abspath(__file__))
repeat = int(sys.argv[1]) if len(sys.argv) > 1 else 5
program = sys.argv[2] if len(sys.argv) > 2 else os.path.join(here, "../../crates/bcpl/out/bcpl")
subprocess.run(["make", "-s", "-C", here], check=True)
steps = str(2**63)
ways = {
    "switch": [os.path.join(here, "intcode"), "--steps", steps],
    "threaded": [os.path.join(here, "intcode-threaded"), "--steps", steps],
    "bcpl": [program, "run", "--steps", steps],
}


def run(command):
    """The processor time and the output of a command."""
    process = subprocess.Popen(command, stdin=subprocess.DEVNULL, stdout=subprocess.PIPE)
    output = process.stdout.read()
    _, status, usage = os.wait4(process.pid, 0)
    process.returncode = status
    assert status == 0, command
    return usage.ru_utime, output


with open(os.path.join(here, "programs/OUTPUTS")) as file:
    wanted = dict(line.split()[:2] for line in file)
for name, digest in wanted.items():
    text = os.path.join(here, "programs", name + ".int")
    best = {}
    for _ in range(repeat):
        for way, command in ways.items():
            time, output = run(command + [text])
            assert hashlib.sha256(output).hexdigest() == digest, (name, way)
            best[way] = min(best.get(way, time), time)
    print(
        "%-8s switch %6.3f s  threaded %6.3f s  bcpl %6.3f s: %.2f of switch, %.2f of threaded"
        % (name, best["switch"], best["threaded"], best["bcpl"],
           best["bcpl"] / best["switch"], best["bcpl"] / best["threaded"]),
        flush=True,
    )
