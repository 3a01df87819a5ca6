#!/usr/bin/env python3
"""check_times.py BCPL WHOLE HALF: the processor time of `check` on two certificates, the second of half as many entries as the first: the best of
ten runs of each, taken in turn."""
import os
import subprocess
import sys


def checked(bcpl, path):
    """The processor time, and the most memory in bytes."""
    process = subprocess.Popen([bcpl, "check", path], stdout=subprocess.PIPE)
    told = process.stdout.read()
    _, status, usage = os.wait4(process.pid, 0)
    process.returncode = status
    if status:
        sys.exit(f"{path}: {told.decode()}")
    return usage.ru_utime + usage.ru_stime, usage.ru_maxrss * 1024


def main():
    bcpl, whole, half = sys.argv[1:]
    best = {}
    for _ in range(10):
        for path in whole, half:
            best[path] = min(best.get(path, (1e9, 0)), checked(bcpl, path))
    time, memory = best[whole]
    size = os.path.getsize(whole)
    print(f"{size} bytes: check {size / time / 1e6:.1f} MB/s, twice the entries take {time / best[half][0]:.2f} times as long, {memory / 1e6:.1f} MB of memory, {memory / size:.3f} bytes a byte")


main()
