#!/usr/bin/env python3
"""times.py REPEAT PROGRAM: the times of `interpret` and of `run` on each program of programs/, and their ratio."""
import glob
import os
import subprocess
import sys
import tempfile

HERE = os.path.dirname(os.path.abspath(__file__))
MOST = "1000000000"


def timed(command):
    """The processor time and the output of a command."""
    process = subprocess.Popen(command, stdin=subprocess.DEVNULL, stdout=subprocess.PIPE)
    output = process.stdout.read()
    _, status, usage = os.wait4(process.pid, 0)
    if status != 0:
        sys.exit(f"{' '.join(command)}: status {status}")
    return usage.ru_utime + usage.ru_stime, output


def main():
    repeat, program = int(sys.argv[1]), sys.argv[2]
    worst = 0.0
    with tempfile.TemporaryDirectory() as folder:
        for source in sorted(glob.glob(os.path.join(HERE, "programs", "*.bcpl"))):
            name = os.path.splitext(os.path.basename(source))[0]
            image = os.path.join(folder, name + ".int")
            subprocess.run([program, "build", "--out", image, source], check=True, stdout=subprocess.DEVNULL)
            ways = {"interpret": [program, "interpret", "--turns", MOST, source], "run": [program, "run", "--steps", MOST, image]}
            best, written = {}, {}
            for _ in range(repeat):
                for way, command in ways.items():
                    time, written[way] = timed(command)
                    best[way] = min(time, best.get(way, time))
            if written["interpret"] != written["run"]:
                sys.exit(f"{name}: interpret writes something else than run")
            ratio = best["interpret"] / best["run"]
            worst = max(worst, ratio)
            print(f"{name:8} interpret {best['interpret']:.3f} s, run {best['run']:.3f} s: {ratio:.2f} times as long", flush=True)
    print(f"at most {worst:.2f} times as long")


main()
