"""Runs pages that show programs and commands, and compares what the commands print.

In a page a block ```file NAME is a file, and a block ```console has commands: a line that begins with `$ ` is one, and the lines after it,
up to the next one, are what it must print on standard output and standard error. Blocks run in their order, in a folder that begins empty.
This is the convention of docs/tutorial.md, which this module runs as well.
"""
import os
import re
import subprocess
import sys

TOP = os.path.dirname(os.path.dirname(os.path.dirname(os.path.abspath(__file__))))
sys.path.insert(0, os.path.join(TOP, "tests"))
from renewal import renew  # noqa: E402

FENCE = re.compile(r"(?ms)^(```.*?^```$)")
KINDS = ("file", "console", "text")
SECONDS = 60


def program():
    """The path of the program that is tried: the one that BCPL names, else the repository's own."""
    return os.path.abspath(os.environ.get("BCPL") or os.path.join(TOP, "bcpl"))


def read(path):
    with open(path, encoding="utf-8") as file:
        return file.read()


def printed(command, folder):
    """What a command prints in this folder, with a line break at its end."""
    start = f'bcpl() {{ "{program()}" "$@"; }}\n'
    kept = dict(os.environ, LC_ALL="C", PATH=os.environ.get("PATH", "") + os.pathsep + TOP, KIBVORG=TOP)
    try:
        done = subprocess.run(["bash", "-c", start + command], cwd=folder, stdin=subprocess.DEVNULL, stdout=subprocess.PIPE,
                              stderr=subprocess.STDOUT, timeout=SECONDS, env=kept)
    except subprocess.TimeoutExpired:
        return f"(not done after {SECONDS} seconds)\n"
    text = done.stdout.decode("latin-1")
    return text if not text or text.endswith("\n") else text + "\n"


def kind_of(piece):
    """The kind of a fenced block, or None for text."""
    return piece[3:].split("\n", 1)[0].split(" ")[0] if piece.startswith("```") else None


class Page:
    """A page that was run: what it has, and what it should have had."""

    def __init__(self, path, folder):
        self.path, self.commands, self.programs, self.faults = path, 0, {}, []
        self.makefile = ""
        self.text = read(path)
        pieces = FENCE.split(self.text)
        for i, piece in enumerate(pieces):
            kind = kind_of(piece)
            if kind == "file":
                self._write(piece, folder)
            elif kind == "console":
                pieces[i] = self._run(piece, folder)
            elif kind is not None and kind not in KINDS:
                self.faults.append(f"a block of the kind {kind!r}, which nothing runs")
        self.got = "".join(pieces)

    def _write(self, piece, folder):
        head, body = piece[:-3].split("\n", 1)
        name = head.split()[1]
        if name.endswith(".bcpl"):
            self.programs[name] = body
        if name == "Makefile":
            self.makefile = body
        with open(os.path.join(folder, name), "w", encoding="utf-8") as file:
            file.write(body)

    def _run(self, piece, folder):
        commands = re.findall(r"(?m)^\$ (.*)$", piece)
        self.commands += len(commands)
        return "```console\n" + "".join(f"$ {c}\n{printed(c, folder)}" for c in commands) + "```"

    def complaints(self):
        """What is wrong with the page, a line each."""
        found = list(self.faults)
        commands = "\n".join(re.findall(r"(?m)^\$ (.*)$", self.text)) + self.makefile
        for name in self.programs:
            if name not in commands:
                found.append(f"no command names {name}")
        if self.got != self.text:
            for want, have in zip(self.text.splitlines() + ["(the end)"], self.got.splitlines() + ["(the end)"]):
                if want != have:
                    found.append(f"a command prints {have!r}, and the page has {want!r}")
                    break
        return found

    def renew(self):
        """Writes what the commands print into the page, and prints what changes."""
        renew(self.path, self.got.encode())
