"""What the checks of the compiler in BCPL share: sources to try, runs of both compilers, and comparisons."""
import concurrent.futures
import functools
import glob
import os
import re
import shutil
import subprocess
import tempfile

HERE = os.path.dirname(os.path.abspath(__file__))
TOP = os.path.dirname(os.path.dirname(HERE))
FILES = ["main", "driver", "store", "lexer", "parser", "scopes", "checker", "selector", "writer", "generator", "certificate"]
BOOT_FILES = ["boot", "editor", "streams", "loader"]
STEPS = "2000M"
MOST_STREAMS = 40       # the most streams that are connected for one file


@functools.lru_cache(maxsize=None)
def program():
    """The path of the program: the one that BCPL names, else the repository's own."""
    return os.path.abspath(os.environ.get("BCPL") or called([os.path.join(TOP, "bcpl"), "--which"])[1].decode().strip())


def called(words, folder=None, typed=b""):
    """The status, standard output and standard error of a command, as bytes."""
    done = subprocess.run(words, cwd=folder, input=typed, stdout=subprocess.PIPE, stderr=subprocess.PIPE, timeout=600, check=False)
    return done.returncode, done.stdout, done.stderr


def library(name):
    """A text of the library, LIBHDR or BLIB, as crates/bc_library has it."""
    with open(os.path.join(TOP, "crates", "bc_library", "src", "lib.rt"), encoding="ascii") as file:
        text = file.read()
    found = re.search(r'pub const %s: &str = (?:r#"|"\\\n)(.*?)"#?;' % name, text, re.DOTALL)
    return found[1].encode()


class Source:
    """A section to compile: its name, its text, and the files that it may get."""

    def __init__(self, name, text, gets=None):
        self.name, self.text, self.gets = name, text, gets or {}


def got(text):
    """The names of the files that a text gets."""
    return re.findall(rb'GET(?:\s|/\*.*?\*/|//[^\n]*)*"([^"\n]*)"', text, re.DOTALL)


def read(path):
    with open(path, "rb") as file:
        return file.read()


def source_of_file(path):
    """The section in a file, with the headers beside it."""
    text, gets, todo = read(path), {}, None
    todo = got(text)
    while todo:
        name = todo.pop().decode("latin-1")
        near = os.path.join(os.path.dirname(path), name)
        if name not in gets and name and "/" not in name and os.path.isfile(near):
            gets[name] = read(near)
            todo += got(gets[name])
    return Source(os.path.relpath(path, TOP), text, gets)


def blocks(path):
    """The indented blocks of a file of cases, that is, the inputs."""
    lines, block = read(path).split(b"\n") + [b""], []
    for line in lines:
        if line.startswith(b"  "):
            block.append(line[2:])
        elif block:
            yield b"\n".join(block) + b"\n"
            block = []


def case_sources(path):
    """The sources in the blocks of a file of cases: each of a block's sources may get the others."""
    for number, block in enumerate(blocks(path)):
        text = re.sub(rb"\\x([0-9A-Fa-f]{2})", lambda found: bytes([int(found[1], 16)]), block)
        text = re.sub(rb"\\([0-9]+)\{([^}]*)\}", lambda found: found[2] * min(int(found[1]), 70000), text)
        parts = re.split(rb"(?m)^(?:--|==) (\S+)\n", text)
        named = {parts[i].decode("latin-1"): parts[i + 1] for i in range(1, len(parts) - 1, 2)}
        main = parts[-1] if len(parts) > 1 else text
        if b"LET" in text or b"$(" in text or b"GET" in text:
            yield Source(f"{os.path.basename(path)}#{number}", main, {name: value for name, value in named.items() if value is not main})


def repository_sources():
    """Every source of the repository: its files, the cases of its tests, and the files in its pages."""
    found = {}
    listed = called(["git", "ls-files", "-z"], TOP)[1].decode().split("\0")
    for name in listed:
        path = os.path.join(TOP, name)
        if name.endswith((".bcpl", ".new")) and os.path.isfile(path):
            found.setdefault((read(path), name), source_of_file(path))
    for path in sorted(glob.glob(os.path.join(TOP, "tests", "*.cases"))):
        for source in case_sources(path):
            found.setdefault(source.text, source)
    for path in sorted(glob.glob(os.path.join(TOP, "docs", "**", "*.md"), recursive=True)):
        for block in re.finditer(rb"```file (\S+)\n(.*?)```", read(path), re.DOTALL):
            found.setdefault(block[2], Source(f"{os.path.relpath(path, TOP)} {block[1].decode()}", block[2]))
    return list(found.values())


class Connected:
    """The input streams of a run of the compiler in BCPL. A stream is read once, so a file that is got again has another name: HDR.2."""

    def __init__(self, folder):
        self.folder, self.files, self.streams, self.counts = folder, {}, [], {}

    def file(self, name, text):
        """A file that sections may get."""
        path = os.path.join(self.folder, f"got {len(self.files)}")
        with open(path, "wb") as file:
            file.write(text)
        self.files[name] = path, text

    def stream(self, name, path):
        count = self.counts[name] = self.counts.get(name, 0) + 1
        self.streams.append(f"{name}={path}" if count == 1 else f"{name}.{count}={path}")

    def section(self, path, text, folders=()):
        """A section, with the files that it gets: those given before, and those in the folders."""
        if not os.path.exists(path):
            path = os.path.join(self.folder, f"section {len(self.streams)}")
            with open(path, "wb") as file:
                file.write(text)
        self.stream("SOURCE", path)
        self.gets(text, folders, 0)

    def gets(self, text, folders, depth):
        for name in (name.decode("latin-1") for name in got(text)):
            for folder in folders:
                if name and name not in self.files and os.path.isfile(os.path.join(folder, name)):
                    self.file(name, read(os.path.join(folder, name)))
            if name in self.files and depth < 9 and self.counts.get(name, 0) < MOST_STREAMS:
                self.stream(name, self.files[name][0])
                self.gets(self.files[name][1], folders, depth + 1)

    def words(self):
        """The options for `bcpl run`."""
        return [word for stream in self.streams for word in ("--in", stream)]


class Outcome:
    """What a compiler came to: a text and a certificate, or a refusal: its words, and the file and line."""

    def __init__(self, text=b"", cert=b"", refusal=None, place=None):
        self.text, self.cert, self.refusal, self.place = text, cert, refusal, place


class Trial:
    """Runs of both compilers in one temporary folder. `image` is the text of the compiler in BCPL."""

    def __init__(self, image, folder):
        self.image, self.folder = os.path.abspath(image), folder
        self.libraries = {"LIBHDR": library("LIBHDR"), "BLIB": library("BLIB"), "EXTHDR": read(os.path.join(TOP, "library", "EXTHDR"))}

    def built(self, place, sources):
        """The outcome of `bcpl build`."""
        words = [program(), "build", "--no-library", "--library", "ext", "--no-warnings", "--places", "always", "--out", "want.int", "--cert", "want.cert"]
        for number, source in enumerate(sources, 1):
            for name, text in {f"SOURCE.{number}": source.text, **source.gets}.items():
                path = re.sub(r"[^A-Za-z0-9.]", "_", name)
                with open(os.path.join(place, path), "wb") as file:
                    file.write(text)
                if name not in self.libraries and name in source.gets:
                    words += ["--get", f"{name}={path}"]
        status, _, err = called(words + [f"SOURCE.{number}" for number in range(1, len(sources) + 1)], place)
        if status == 0:
            return Outcome(read(os.path.join(place, "want.int")), read(os.path.join(place, "want.cert")))
        lines = err.decode("latin-1").split("\n")
        first = next((line for line in lines if line.startswith("bcpl: ")), "bcpl: nothing")
        found = next((found for found in (re.match(r"(.*?):(\d+):\d+: error", line) for line in lines) if found), None)
        return Outcome(refusal=first[6:], place=(found[1], int(found[2])) if found else None)

    def compiled(self, place, sources):
        """The outcome of the compiler in BCPL."""
        connected = Connected(place)
        for name, text in [*self.libraries.items(), *(item for source in sources for item in source.gets.items())]:
            connected.file(name, text)
        for source in sources:
            connected.section("", source.text)
        words = [program(), "run", "--steps", STEPS, *connected.words(), "--to", "TEXT=got.int", "--to", "CERT=got.cert", self.image]
        status, out, err = called(words, place)
        said = (out + err).decode("latin-1").strip()
        found = re.match(r"(.*?):(\d+): (.*)", said)
        if found and found[3] == "lex 6 GetMissing" and MOST_STREAMS in connected.counts.values():
            return Outcome(refusal="store 5 too few streams are connected")
        if found:
            name = re.sub(r"[^A-Za-z0-9.]", "_", "SOURCE.1" if found[1] == "SOURCE" else found[1])
            return Outcome(refusal=found[3], place=(name, int(found[2])))
        if status != 0 or said:
            return Outcome(refusal=f"status {status} {said}")
        return Outcome(read(os.path.join(place, "got.int")), read(os.path.join(place, "got.cert")))

    def both(self, *sources):
        """What `bcpl build` and the compiler in BCPL make of sources, each a section."""
        place = tempfile.mkdtemp(dir=self.folder)
        wanted, given = self.built(place, sources), self.compiled(place, sources)
        shutil.rmtree(place)
        return wanted, given


# What may differ between the two, as docs/compiler.md says.
def is_bound(given):
    """Whether the compiler in BCPL refused because of a bound of its store."""
    return given.refusal is not None and given.refusal.startswith("store ")


def is_guess(wanted):
    """Whether `bcpl build` may show another line than that of the fault, because it guesses where the mistake was made."""
    return wanted.refusal.startswith(("parse 1 Expected", "parse 2 Unclosed", "parse 3 NotOpen"))


def verdict(wanted, given):
    """What a comparison came to: equal, same, bound, line, or else a difference."""
    if wanted.refusal is None and given.refusal is None:
        if wanted.text == given.text:
            return "equal" if wanted.cert == given.cert else "another certificate"
        return "another text"
    if is_bound(given):
        return "bound"
    if wanted.refusal is None or given.refusal is None or key(wanted.refusal) != key(given.refusal):
        return "another answer"
    if wanted.place is None or wanted.place == given.place:
        return "same"
    return "line" if is_guess(wanted) else "another line"


def in_parallel(function, items):
    """The results of a function for each of the items, in their order."""
    with concurrent.futures.ThreadPoolExecutor(os.cpu_count() or 1) as pool:
        return list(pool.map(function, items))


def key(refusal):
    """Part, number, name, and the name that a refusal of names is about; offsets are left out."""
    words = refusal.split()
    return tuple(words[:4] if words[:1] == ["scope"] or words[:3] == ["link", "3", "GlobalTwice"] else words[:3])
