"""What the random tests share: calls of the program, and the runner, which tries numbers beside each other and counts what they come to.

Calls are limited in processor time, since the machine may be busy.
"""
import argparse
import collections
import functools
import multiprocessing
import os
import shutil
import subprocess
import sys
import tempfile
import time
import traceback
from typing import NamedTuple

TOP = os.path.dirname(os.path.dirname(os.path.dirname(os.path.abspath(__file__))))
sys.path.insert(1, os.path.join(TOP, "tests"))
# How many seconds of a processor a call may take, and how many seconds of the clock. The latter only ends what waits for nothing.
PROCESSOR, CLOCK = 60, 3600
MOST_SHOWN = 20


@functools.lru_cache(maxsize=None)
def program():
    """The path of the program: the one that BCPL names, else the one that ./bcpl runs."""
    named = os.environ.get("BCPL") or subprocess.run([os.path.join(TOP, "bcpl"), "--which"], stdout=subprocess.PIPE, text=True, check=True).stdout.strip()
    return os.path.abspath(named)


class Fault(Exception):
    """What is wrong in a trial."""


def expect(holds, what):
    """Ends a trial by a fault if something doesn't hold."""
    if not holds:
        raise Fault(what)


class Done(NamedTuple):
    """What a command answered: its status, standard output and standard error."""

    status: int
    out: bytes
    err: bytes


def called(words, folder, given=b""):
    """The status, standard output and standard error of a command that runs in a folder."""
    limited = ["bash", "-c", 'ulimit -c 0; ulimit -t "$0"; exec "$@"', str(PROCESSOR), *words]
    done = subprocess.run(limited, cwd=folder, input=given, capture_output=True, timeout=CLOCK, check=False)
    expect(done.returncode >= 0, f"{' '.join(words[1:])}: ended by signal {-done.returncode}")
    return Done(done.returncode, done.stdout, done.stderr)


def bcpl(folder, *words, given=b""):
    """The same of the program with these arguments."""
    return called([program(), *words], folder, given)


def first_line(data):
    """The first line of what was printed, as a text."""
    return data.decode("latin-1").split("\n", 1)[0]


def read(*path):
    """A file's bytes."""
    with open(os.path.join(*path), "rb") as file:
        return file.read()


def write(text, *path):
    """Writes a file: a text, or bytes."""
    with open(os.path.join(*path), "wb") as file:
        file.write(text.encode() if isinstance(text, str) else text)


class Trials:
    """The trials of a script, and what its options say."""

    def __init__(self, tried, options):
        self.tried, self.keep, self.first = tried, options.keep, options.seed
        self.end = time.monotonic() + options.seconds

    def one(self, number):
        """What a number comes to: what is counted, as a word or several; a fault; or None if the time is over. The first one is always tried."""
        if time.monotonic() > self.end and number != self.first:
            return number, None
        with tempfile.TemporaryDirectory(prefix="stress-") as folder:
            try:
                return number, self.tried(number, folder)
            except Exception as fault:  # An answer that isn't as a script expects is a fault too.
                if self.keep:
                    shutil.copytree(folder, os.path.join(self.keep, str(number)), dirs_exist_ok=True)
                return number, fault if isinstance(fault, Fault) else Fault("".join(traceback.format_exception_only(type(fault), fault)).strip())


TRIALS = None


def one(number):
    """Tries a number, in a process of the pool."""
    return TRIALS.one(number)


def arguments(document, count):
    """The arguments that all random tests have."""
    parser = argparse.ArgumentParser(description=document, formatter_class=argparse.RawDescriptionHelpFormatter)
    parser.add_argument("count", nargs="?", type=int, default=count, metavar="COUNT", help=f"how many are tried ({count})")
    parser.add_argument("seed", nargs="?", type=int, default=0, metavar="SEED", help="the number of the first one (0)")
    parser.add_argument("--seconds", type=float, default=float("inf"), metavar="S", help="begin none but the first after S seconds")
    parser.add_argument("--keep", metavar="FOLDER", help="leave the files of each trial that fails in FOLDER/NUMBER")
    return parser.parse_args()


def main(document, tried, count):
    """Tries COUNT numbers from SEED on, each with a new folder, and prints the faults and, last, the counts. Returns the exit status."""
    global TRIALS
    options, name = arguments(document, count), os.path.basename(sys.argv[0])
    TRIALS, counts, trials, wrong = Trials(tried, options), collections.Counter(), 0, 0
    program()
    with multiprocessing.get_context("fork").Pool(os.cpu_count()) as pool:
        for number, found in pool.imap(one, range(options.seed, options.seed + options.count)):
            if isinstance(found, Fault):
                wrong += 1
                if wrong <= MOST_SHOWN:
                    print(f"{name} {number}: {found}", file=sys.stderr, flush=True)
            elif found is not None:
                counts.update([found] if isinstance(found, str) else found)
            trials += found is not None
    print(f"{name}: {trials} of {options.count} tried: {', '.join(f'{times} {what}' for what, times in [*sorted(counts.items()), ('wrong', wrong)])}")
    return 1 if wrong or not trials else 0
