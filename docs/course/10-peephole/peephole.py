#!/usr/bin/env python3
"""peephole.py IN OUT: reads a text of INTCODE, makes it shorter, and writes it."""
import re
import sys


def read(path):
    """The segments of a text: lists of items without their `Z`."""
    with open(path, encoding="latin-1") as file:
        text = re.sub(r"/.*", "", file.read())
    items = re.findall(r"Z|[DCG]?L?-?\d+L\d+|[LSAJTFKX]I?[PGL]?-?\d+|D-?\d+|DL\d+|C\d+|\d+", text)
    segments = [[]]
    for item in items:
        if item == "Z":
            segments.append([])
        else:
            segments[-1].append(item)
    return segments[:-1]


def is_label(item):
    return item.isdigit()


def is_operation(item):
    return item[0] in "LSAJTFKX"


def shortened(segment):
    """The segment without what nobody needs."""
    return segment


def main():
    with open(sys.argv[2], "w", encoding="latin-1") as file:
        for segment in read(sys.argv[1]):
            file.write("\n".join(shortened(segment) + ["Z"]) + "\n")


if __name__ == "__main__":
    main()
