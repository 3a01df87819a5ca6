#!/usr/bin/env python3
"""times.py PROGRAM FOLDER: the processor time and the memory of `build` with a certificate on the pairs KIND-whole and KIND-half of the folder,
and on whole and half themselves: the best of ten runs of each, taken in turn."""
import os
import subprocess
import sys


def built(program, folder, source):
    """The processor time, and the most memory in bytes."""
    command = [program, "build", "--out", f"{folder}/out", "--cert", f"{folder}/cert", f"{folder}/{source}"]
    process = subprocess.Popen(command, stdout=subprocess.PIPE, stderr=subprocess.STDOUT)
    told = process.stdout.read()
    _, status, usage = os.wait4(process.pid, 0)
    process.returncode = status
    if status:
        sys.exit(f"{source}: {told.decode()}")
    return usage.ru_utime + usage.ru_stime, usage.ru_maxrss * 1024


def main():
    program, folder = sys.argv[1:]
    for kind in ["", "constants-", "routines-", "blocks-", "nested-"]:
        best = {}
        for _ in range(10):
            for size in "whole", "half":
                time, memory = built(program, folder, kind + size)
                best[size] = min(best.get(size, (time, memory)), (time, memory))
        source = os.path.getsize(f"{folder}/{kind}whole")
        time, memory = best["whole"]
        ratio = time / best["half"][0]
        print(f"{kind.rstrip('-') or 'program':10} {source} bytes: {time:.3f} s, twice the program takes {ratio:.2f} times as long; {memory / source:.0f} bytes of memory a byte of source")


main()
