#!/usr/bin/env python3
"""peephole.py IN OUT: reads a text of INTCODE, makes it shorter, and writes it."""
import re
import sys


def read(path):
    """The segments of a text: lists of items without their `Z`."""
    with open(path, encoding="latin-1") as file:
        text = re.sub(r"/.*", "", file.read())
    items = re.findall(r"Z|[DCG]?L?-?\d+L\d+|[LSAJTFKX]I?[PGL]?-?\d+|D-?\d+|DL\d+|C\d+|\d+", text)
    segments = [[]]
    for item in items:
        if item == "Z":
            segments.append([])
        else:
            segments[-1].append(item)
    return segments[:-1]


def is_label(item):
    return item.isdigit()


def is_operation(item):
    return item[0] in "LSAJTFKX"


def never_goes_on(item):
    return item[0] == "J" or item in ("X4", "X22")


def without_dead_code(segment):
    kept, is_dead = [], False
    for item in segment:
        is_dead = is_dead and is_operation(item)
        if not is_dead:
            kept.append(item)
            is_dead = never_goes_on(item)
    return kept


def without_idle_jumps(segment):
    kept = []
    for place, item in enumerate(segment):
        after = place + 1
        while after < len(segment) and is_label(segment[after]):
            after += 1
        jumps = re.fullmatch(r"[JTF]L(\d+)", item)
        if not (jumps and jumps.group(1) in segment[place + 1:after]):
            kept.append(item)
    return kept


def shortened(segment):
    """The segment without what nobody needs."""
    while True:
        shorter = without_idle_jumps(without_dead_code(segment))
        if shorter == segment:
            return segment
        segment = shorter


def main():
    with open(sys.argv[2], "w", encoding="latin-1") as file:
        for segment in read(sys.argv[1]):
            file.write("\n".join(shortened(segment) + ["Z"]) + "\n")


if __name__ == "__main__":
    main()
