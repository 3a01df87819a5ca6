#!/usr/bin/env python3
"""against_tcc.py PROGRAM FOLDER: the processor time of `build` with a certificate on the folder's file whole, and of `tcc -c` on its file
whole.c, which has the same routines: forty runs of each, taken in turn. It prints medians and best times, the pages of memory that each requested
the system for, and how many times as long the build takes."""
import os
import statistics
import sys


def run(command):
    """The processor time, and the pages requested."""
    silent = [(os.POSIX_SPAWN_OPEN, 1, os.devnull, os.O_WRONLY, 0)]
    process = os.posix_spawnp(command[0], command, os.environ, file_actions=silent)
    _, status, usage = os.wait4(process, 0)
    if status:
        sys.exit(f"failed: {' '.join(command)}")
    return usage.ru_utime + usage.ru_stime, usage.ru_minflt


def main():
    program, folder = sys.argv[1:]
    commands = {
        "build": [program, "build", "--out", f"{folder}/out", "--cert", f"{folder}/cert", f"{folder}/whole"],
        "tcc -c": ["tcc", "-c", "-o", f"{folder}/whole.o", f"{folder}/whole.c"],
    }
    times = {name: [] for name in commands}
    pages = {}
    for _ in range(40):
        for name, command in commands.items():
            time, pages[name] = run(command)
            times[name].append(time)
    for name, found in times.items():
        print(f"{name:10} {1000 * statistics.median(found):.1f} ms of a processor in the middle, {1000 * min(found):.1f} at best; {pages[name]} pages")
    ratios = [statistics.median(times["build"]) / statistics.median(times["tcc -c"]), min(times["build"]) / min(times["tcc -c"])]
    print(f"build takes {ratios[0]:.1f} times as long as tcc on the same routines in C, by medians; {ratios[1]:.1f} by best times")


main()
