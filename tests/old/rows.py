"""The cases of rows.cases, which has the format: one or more for each row of the table of constructs in docs/old-sources.md."""
import os
import re

HERE = os.path.dirname(os.path.abspath(__file__))
PAGE = os.path.join(os.path.dirname(os.path.dirname(HERE)), "docs", "old-sources.md")
ESCAPE = re.compile(rb"\\x([0-9A-Fa-f]{2})")


class Row:
    """A case: the row, the old source, how many places are reported, the files that are made of it by hand, and what it writes."""

    def __init__(self, title):
        self.title, self.old, self.reported, self.is_refused, self.by_hand = title, b"", 0, False, []
        self.options, self.given, self.written = [], b"", b""

    def take(self, line):
        """Takes a line after the first."""
        if line.startswith(b"! "):
            self.reported, self.is_refused = int(line.split()[1]), line.endswith(b" refused")
            self.by_hand.append(["mended", b""])
        elif line.startswith(b"== "):
            self.by_hand.append([line[3:].decode(), b""])
        elif line.startswith(b"--"):
            self.options = line.decode().split()
        elif line.startswith(b"< "):
            self.given += line[2:] + b"\n"
        elif line.startswith(b"= "):
            self.written += line[2:] + b"\n"
        elif line.startswith(b"  "):
            text = ESCAPE.sub(lambda found: bytes([int(found[1], 16)]), line[2:] + b"\n")
            text = text.replace(b"\r\n", b"\r")
            if self.by_hand:
                self.by_hand[-1][1] += text
            else:
                self.old += text
        elif line and not line.startswith(b"#"):
            raise ValueError(f"rows.cases: {line!r}")


def rows():
    """All cases."""
    found = []
    with open(os.path.join(HERE, "rows.cases"), "rb") as file:
        for line in file.read().split(b"\n"):
            if line.startswith(b"| "):
                found.append(Row(line[2:].decode()))
            elif found:
                found[-1].take(line)
    return found


def titles_of_page():
    """The first column of each row of the table of constructs."""
    with open(PAGE, encoding="utf-8") as file:
        table = file.read().split("\n| Construct |", 1)[1].split("\n\n", 1)[0]
    return [re.split(r"(?<!\\) \| ", line[2:], maxsplit=1)[0] for line in table.split("\n")[2:]]


def without_end(text):
    """A text without the line break at its end, which not every program writes."""
    return text[:-1] if text.endswith(b"\n") else text


def try_row(row, done, folder):
    """Converts a case's source, and what it becomes once more, then builds and runs it. Yields what isn't as expected."""
    def write(name, text):
        with open(os.path.join(folder, name), "wb") as file:
            file.write(text)

    write("row.old", row.old)
    got = done(["convert", "row.old"], folder)
    counted = re.match(rb"bcpl: convert 1 ByHand (\d+)\n", got.stderr)
    if (int(counted[1]) if counted else len(got.stderr)) != row.reported or got.returncode != (1 if row.reported else 0):
        yield f"status {got.returncode}, {got.stderr.decode()}"
    files = row.by_hand or [["row.new", got.stdout]]
    for name, text in [["row.new", got.stdout], *files]:
        write(name, text)
        again = done(["convert", name], folder)
        if again.stdout != text or (name != "row.new" and again.stderr):
            yield f"{name} doesn't come back as it is: {again.stderr.decode()}"
    if row.is_refused and done(["build", "--no-warnings", "--out", "row.int", "row.new"], folder).returncode == 0:
        yield "the conversion isn't refused"
    library = ["--library", "ext"] if b'GET "EXTHDR"' in files[0][1] else []
    built = done(["build", *library, "--no-warnings", "--out", "row.int", *(name for name, _ in files)], folder)
    if built.returncode:
        yield f"not built: {built.stderr.decode()}"
        return
    ran = done(["run", "--steps", "1000000", *row.options, "row.int"], folder, row.given)
    if without_end(ran.stdout) != without_end(row.written) or ran.returncode:
        yield f"writes {ran.stdout!r}, status {ran.returncode} {ran.stderr.decode()}"


def faults(done, folder):
    """What isn't as expected in the cases, and rows without one."""
    tried = rows()
    for row in tried:
        for fault in try_row(row, done, folder):
            yield f"{row.title}: {fault}"
    table = titles_of_page()
    for title in table:
        if title not in [row.title for row in tried]:
            yield f"no case has the row {title}"
    for row in tried:
        if row.title not in table:
            yield f"the page has no row {row.title}"
