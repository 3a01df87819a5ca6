#!/usr/bin/env python3
"""Compares the program with the interpreter in C beside this file, on random texts.

    against_c.py PROGRAM [SEED [COUNT]]

COUNT (3,000) texts are made at random: instructions of all forms, any words as code, calls of the primitives, and the examples with a
byte changed. Each runs for at most 3,000 instructions over a random input, by PROGRAM and by the C interpreter: status, output and
what is printed on standard error must be equal.
"""
import os
import random
import subprocess
import sys
import tempfile
from concurrent.futures import ThreadPoolExecutor

HERE = os.path.dirname(os.path.abspath(__file__))
EXAMPLES = os.path.join(HERE, "../../examples/intcode")
OPERATIONS = [*range(1, 30), 33, 34]


def number(chance):
    """Numbers of all sizes, more often small ones and those at bounds."""
    return chance.choice([chance.randrange(8), chance.randrange(512), chance.choice([511, 512, 513, 32767, 32768, 65535, 520]),
                          chance.randrange(65536), -chance.randrange(32769)])


def instruction(chance, labels):
    function = chance.choice("LLLLSAJTFKXXXX")
    if function == "X" and chance.random() < 0.9:
        return f"X{chance.choice(OPERATIONS)}"
    indirect = chance.choice(["", "", "I"])
    base = chance.choice(["", "", "P", "G", "L"])
    if base == "L" or function in "JTF" and chance.random() < 0.8:
        return f"{function}{indirect if function not in 'JTF' else ''}L{chance.choice(labels)}"
    return f"{function}{indirect}{base}{number(chance) if chance.random() < 0.4 else chance.randrange(12)}"


def instructions(chance):
    """A segment of instructions, data and labels."""
    labels = list(range(1, chance.randrange(2, 8)))
    items = [instruction(chance, labels) for _ in range(chance.randrange(5, 60))]
    items += [f"D{number(chance)}" for _ in range(chance.randrange(4))] + [f"DL{chance.choice(labels)}", "C5 C83 C89 C83 C73 C78"]
    for label in labels[1:]:
        items.insert(chance.randrange(len(items)), str(label))
    return "1 " + " ".join(items) + " G1L1 Z"


def words(chance):
    """Any words as code."""
    return "1 " + " ".join(f"D{chance.randrange(65536)}" for _ in range(chance.randrange(3, 60))) + " G1L1 Z"


def calls(chance):
    """Operators on values, their results written, and calls of the primitives."""
    items = []
    for _ in range(chance.randrange(1, 12)):
        items += [f"L{number(chance)}", f"L{number(chance)}", f"X{chance.choice([*range(5, 22), *range(5, 22), 2, 3, 1])}", "SP4", "SP5", "X27",
                  f"L{chance.choice([8, 256, 1])}", "LIP5", "X17", "X27"]
        items += [f"L{chance.choice([0, 1, 1, 2])} SP7", f"LIG{chance.choice([11, 12, 13, 14, 15, 16, 17, 18])} K5", "SP4"]
    return "1 " + " ".join(items) + " X22 G1L1 Z"


def changed(chance, examples):
    text = bytearray(chance.choice(examples))
    for _ in range(chance.randrange(1, 3)):
        text[chance.randrange(len(text))] = chance.choice(b"LSAJTFKXIPGDCZ/0123456789 -$\n!q")
    return text.decode("latin-1")


def main():
    program = sys.argv[1]
    chance = random.Random(int(sys.argv[2]) if len(sys.argv) > 2 else 1)
    count = int(sys.argv[3]) if len(sys.argv) > 3 else 3000
    subprocess.run(["make", "-s", "-C", HERE], check=True)
    examples = [open(os.path.join(EXAMPLES, it), "rb").read() for it in sorted(os.listdir(EXAMPLES)) if it.endswith(".int")]
    makers = [instructions, instructions, words, calls, lambda chance: changed(chance, examples)]
    cases = [(chance.choice(makers)(chance), bytes(chance.randrange(256) for _ in range(chance.randrange(20)))) for _ in range(count)]
    with tempfile.TemporaryDirectory() as folder:

        def both(at):
            text, given = cases[at]
            path = os.path.join(folder, f"{at}.int")
            with open(path, "wb") as file:
                file.write(text.encode("latin-1"))
            said = []
            for command in ([os.path.join(HERE, "intcode")], [program, "run"]):
                ran = subprocess.run([*command, "--steps", "3000", path], input=given, stdout=subprocess.PIPE, stderr=subprocess.PIPE)
                said.append((ran.returncode, ran.stdout, ran.stderr))
            os.remove(path)
            return said

        ends, unequal = {}, 0
        with ThreadPoolExecutor() as pool:
            for (text, given), (wanted, answered) in zip(cases, pool.map(both, range(count))):
                end = " ".join(wanted[2].decode("latin-1").split()[1:3]) or "done"
                ends[end] = ends.get(end, 0) + 1
                if wanted != answered:
                    unequal += 1
                    if unequal < 5:
                        print(f"--- {text}\n    on {given}: in C {wanted}, by the program {answered}")
    print(", ".join(f"{end} {number}" for end, number in sorted(ends.items())))
    print(f"{count} texts: {unequal} answered otherwise")
    return unequal > 0


if __name__ == "__main__":
    sys.exit(main())
