"""The numbers of tests that counts.txt pins, so that none is lost unseen: of the cases of each file, and of the inputs of a folder."""
import os

COUNTS = os.path.join(os.path.dirname(os.path.abspath(__file__)), "counts.txt")
HEAD = "# The number of cases of each file, and of the tests of folders. The option --counts of what runs them writes their numbers.\n"


def read_counts():
    """How many tests there must be, by name."""
    with open(COUNTS, encoding="ascii") as file:
        return {name: int(count) for name, count in (line.rsplit(" ", 1) for line in file if not line.startswith("#"))}


def write_counts(counts):
    """Writes how many tests there must be, by name."""
    with open(COUNTS, "w", encoding="ascii") as file:
        file.write(HEAD)
        file.writelines(f"{name} {count}\n" for name, count in sorted(counts.items()))


def renew_counts(found):
    """Writes how many tests these names have, and prints what was there."""
    before = read_counts()
    write_counts({**before, **found})
    for name, count in found.items():
        print(f"{name}: {count}; it was {before.get(name, 0)}")


def miscounted(found, command):
    """What is wrong with the numbers of tests that these names have, a line each. The command is the one that counts again."""
    wanted = read_counts()
    for name, count in found.items():
        if wanted.get(name) != count:
            yield f"{name}: {count} are there, and tests/counts.txt says {wanted.get(name, 0)}: if that is meant, run {command}"
