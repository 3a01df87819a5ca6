"""What the checks of the labs share: where files are, calls of the program, and a list of complaints."""
import os
import re
import subprocess
import sys
import tempfile

COURSE = os.path.dirname(os.path.abspath(__file__))
TOP = os.path.dirname(os.path.dirname(COURSE))
SHOWN = 8


def program():
    """The command of the program: the one that BCPL names, else the repository's own, which is the one for Node where this isn't Linux."""
    path = os.path.abspath(os.environ.get("BCPL") or os.path.join(TOP, "bcpl" if sys.platform == "linux" else "web/bcpl.mjs"))
    # Windows starts no script by its first line.
    return ["node", path] if path.endswith(".mjs") else [path]


def called(command, given="", folder=None):
    """The status, standard output and standard error of a command."""
    done = subprocess.run(command, input=given.encode("latin-1"), cwd=folder, stdout=subprocess.PIPE, stderr=subprocess.PIPE, timeout=120)
    return done.returncode, done.stdout.decode("latin-1"), done.stderr.decode("latin-1")


def bcpl(*words, given="", folder=None):
    """The same for the program with these arguments."""
    return called(program() + list(words), given, folder)


def write(path, text):
    with open(path, "w", encoding="latin-1") as file:
        file.write(text)


class Lab:
    """A lab's check. `ours` is the lab's own folder, `folder` the one with the answers, which the command line names."""

    def __init__(self, check):
        self.ours = os.path.dirname(os.path.abspath(check))
        self.folder = os.path.abspath(sys.argv[1]) if sys.argv[1:] else self.ours
        self.name = os.path.basename(self.ours)
        self.count, self.complaints = 0, []
        self.work = tempfile.TemporaryDirectory()

    def scratch(self, name):
        """The path of a file that nobody keeps."""
        return os.path.join(self.work.name, name)

    def path(self, name):
        """The path of a file of the answers. Without the file the check ends."""
        path = os.path.join(self.folder, name)
        if not os.path.exists(path):
            print(f"{self.name}: there is no {path}")
            sys.exit(1)
        return path

    def text(self, name):
        with open(self.path(name), encoding="latin-1") as file:
            return file.read()

    def given(self, name):
        """The text of a file of the lab itself."""
        with open(os.path.join(self.ours, name), encoding="latin-1") as file:
            return file.read()

    def expect(self, holds, complaint):
        """Notes one of the lab's checks, and returns whether it holds."""
        self.count += 1
        if not holds:
            self.complaints.append(complaint)
        return bool(holds)

    def end(self):
        """Says what is wrong, and ends the check with status 0 or 1."""
        for complaint in self.complaints[:SHOWN]:
            print(f"{self.name}: {complaint}")
        if len(self.complaints) > SHOWN:
            print(f"{self.name}: and {len(self.complaints) - SHOWN} more")
        if not self.complaints:
            print(f"{self.name}: done, {self.count} checks passed")
        sys.exit(1 if self.complaints else 0)


def lines_of(text):
    """The lines without comments, which begin with `//`, and without empty ones; each without blanks at its ends."""
    return [line.strip() for line in re.sub(r"(?m)^\s*//.*$", "", text).splitlines() if line.strip()]


def entries_of(cert):
    """The entries of a certificate: each a list of its lines, the E line first."""
    entries = []
    for line in cert.splitlines():
        if line.startswith("E "):
            entries.append([])
        if entries and not line.startswith("Z"):
            entries[-1].append(line)
    return entries


def forms_of(entry):
    """The forms of an entry's nodes, in the order of the certificate."""
    return [line.split()[1] for line in entry[1:-2]]


def is_running(lab, source, given, wanted, *options):
    """Expects a source to run by its meaning without complaint and to write what is wanted."""
    status, out, err = bcpl("interpret", "--no-warnings", *options, source, given=given)
    name = os.path.basename(source)
    lab.expect(status == 0, f"{name} ends with the status {status}: {err.splitlines()[0] if err else ''}")
    return lab.expect(out == wanted, f"{name} writes {out!r}, and should write {wanted!r}")
