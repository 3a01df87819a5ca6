"""What a program does with some files, and how two such answers differ. For tests/same.

A program runs in a folder that is made for it, with a limit of time, memory and output, and gets only names of files in that folder.
"""
import contextlib
import difflib
import fcntl
import hashlib
import json
import os
import pty
import re
import resource
import selectors
import shutil
import signal
import struct
import subprocess
import termios
import time
from typing import Callable, NamedTuple

MEGABYTE = 1 << 20
MOST_OUTPUT = 32 * MEGABYTE
MOST_FILE = 64 * MEGABYTE
MOST_MEMORY = 4096 * MEGABYTE
# Lines longer than this are split where a page or JSON has a natural end, so that a diff shows little.
LONGEST_LINE = 400
# A line of JSON in an answer of the language server has at most this many characters, where it can be split.
LONGEST_VALUE = 120
# difflib takes too long for more lines than this.
MOST_LINES = 1500
# Among the arguments: the option for the further library, if a file gets its header.
LATER = "LIBRARY"


class Call(NamedTuple):
    """One run of a program: its arguments; its standard input, as bytes, as a function from the files to messages for the language server, or
    as the name of a file; and where it is run."""

    words: tuple
    given: bytes = b""
    messages: Callable = None
    given_file: str = ""
    output_file: str = ""
    is_terminal: bool = False
    settings: tuple = ()


class Comparison(NamedTuple):
    """What both programs must do: steps, each a call or a change of the files. `load` reads the files."""

    command: str
    place: str
    load: Callable
    steps: tuple

    @property
    def label(self):
        """What a person calls this comparison."""
        return f"{self.command}: {self.place}"


class Difference(NamedTuple):
    """How two answers differ: lines to show, those of them that changed, and a digest of the latter."""

    shown: tuple
    changed: tuple
    digest: str


def limit_programs():
    """Limits this process and the programs that it starts. A core file and an endless output could fill the disk."""
    for kind, most in ((resource.RLIMIT_CORE, 0), (resource.RLIMIT_FSIZE, MOST_FILE), (resource.RLIMIT_AS, MOST_MEMORY)):
        hard = resource.getrlimit(kind)[1]
        resource.setrlimit(kind, (most if hard == resource.RLIM_INFINITY else min(most, hard), hard))


def words_of(words, files):
    """The arguments of a call on these files."""
    library = ("--library", "ext") if any(b'GET "EXTHDR"' in it for it in files.values()) else ()
    return [part for word in words for part in (library if word == LATER else (word,))]


def framed(messages, folder):
    """Messages to the language server. `@` at the start of a URI's path is this folder."""
    texts = [text.replace("file://@", "file://" + folder).encode() for text in messages]
    return b"".join(b"Content-Length: %d\r\n\r\n%s" % (len(text), text) for text in texts)


def stop(work):
    """Ends a program that was started here, with all that it started."""
    with contextlib.suppress(ProcessLookupError):
        os.killpg(work.pid, signal.SIGKILL)
    work.wait()


def read_all(ends, seconds):
    """What comes from each of these ends until it is closed. None if that takes longer, or is too much."""
    found, end = {it: b"" for it in ends}, time.monotonic() + seconds
    with selectors.DefaultSelector() as waiting:
        for it in ends:
            waiting.register(it, selectors.EVENT_READ)
        while waiting.get_map():
            left = end - time.monotonic()
            if left <= 0 or sum(map(len, found.values())) > MOST_OUTPUT:
                return None
            for key, _ in waiting.select(left):
                try:
                    data = os.read(key.fd, 1 << 16)
                except OSError:  # A terminal whose other end is closed
                    data = b""
                found[key.fd] += data
                if not data:
                    waiting.unregister(key.fd)
    return [found[it] for it in ends]


def input_of(call, folder):
    """An open file with the call's standard input. It lies outside of the folder, so that it isn't taken for a result."""
    if call.given_file:
        return open(call.given_file, "rb")
    path = folder + ".input"
    with open(path, "wb") as file:
        file.write(call.given)
    return open(path, "rb")


def outputs_of(call):
    """The names of the parts of an answer, the ends to read them from, and the ends for the program."""
    if call.is_terminal:
        ours, theirs = pty.openpty()
        fcntl.ioctl(theirs, termios.TIOCSWINSZ, struct.pack("HHHH", 24, 80, 0, 0))
        return ["terminal"], [ours], [theirs, theirs]
    if call.output_file:
        out_in = os.open(call.output_file, os.O_WRONLY | os.O_CREAT | os.O_TRUNC, 0o644)
        error, error_in = os.pipe()
        return ["stderr"], [error], [out_in, error_in]
    out, out_in = os.pipe()
    error, error_in = os.pipe()
    return ["stdout", "stderr"], [out, error], [out_in, error_in]


def run(program, call, folder, seconds):
    """What a call answers: its status and outputs by name."""
    environment = {"PATH": os.environ.get("PATH", ""), "HOME": folder, "TMPDIR": folder, "LANG": "C.UTF-8", "TERM": "xterm", **dict(call.settings)}
    ours, theirs, work = [], [], None
    try:
        names, ours, theirs = outputs_of(call)
        with input_of(call, folder) as given:
            work = subprocess.Popen(["bcpl", *call.words], executable=program, cwd=folder, env=environment, stdin=given, stdout=theirs[0],
                                    stderr=theirs[1], start_new_session=True)
        for end in set(theirs):
            os.close(end)
        theirs = []
        found = read_all(ours, seconds)
        if found is None:
            return {"status": b"no end"}
        return {"status": b"%d" % work.wait(seconds), **dict(zip(names, found))}
    except subprocess.TimeoutExpired:
        return {"status": b"no end"}
    except OSError as error:
        return {"status": b"not started: " + str(error).encode()}
    finally:
        if work is not None:
            stop(work)
        for end in {*ours, *theirs}:
            os.close(end)


def tree(folder, placed):
    """The files of a folder, as parts of an answer, without those that are as they were placed."""
    parts = {}
    for place, folders, names in os.walk(folder):
        for name in [*folders, *names]:
            path = os.path.join(place, name)
            short = os.path.relpath(path, folder)
            if os.path.islink(path):
                parts["link " + short] = os.fsencode(os.readlink(path))
            elif os.path.isdir(path):
                if not os.listdir(path):
                    parts["folder " + short] = b"empty"
            elif os.path.isfile(path):
                with open(path, "rb") as file:
                    data = file.read()
                if placed.get(short) != data:
                    parts["file " + short] = data
                if os.stat(path).st_mode & 0o111:
                    parts["mode " + short] = b"executable"
    for name in placed:
        if not os.path.exists(os.path.join(folder, name)):
            parts["file " + name] = b"removed"
    return parts


def answer(program, comparison, folder, change, seconds):
    """All that a program does in a comparison. `change` does the steps that change files, in the current folder."""
    shutil.rmtree(folder, ignore_errors=True)
    os.makedirs(folder)
    os.chdir(folder)
    files = comparison.load()
    for name, data in files.items():
        os.makedirs(os.path.dirname(name) or ".", exist_ok=True)
        with open(name, "wb") as file:
            file.write(data)
    parts, calls = {}, 0
    for step in comparison.steps:
        if isinstance(step, str):
            change(step)
            continue
        calls += 1
        given = framed(step.messages(files), folder) if step.messages else step.given
        call = step._replace(words=words_of(step.words, files), given=given)
        front = f"{calls} " if len(comparison.steps) > 1 else ""
        parts.update({front + name: data for name, data in run(program, call, folder, seconds).items()})
    parts.update(tree(folder, files))
    os.chdir(os.path.dirname(folder))
    return {name: data.replace(folder.encode(), b"@") for name, data in parts.items()}


def has_no_end(parts):
    """Whether a program was stopped because it ran too long or wrote too much."""
    return any(data == b"no end" for name, data in parts.items() if name.endswith("status"))


def leaves(value, path):
    """The lines of a JSON value, each with the way to it."""
    text = json.dumps(value, ensure_ascii=False)
    if len(text) <= LONGEST_VALUE or not isinstance(value, (dict, list)) or not value:
        yield f"{path}: {text}"
    elif isinstance(value, dict):
        for key, inner in value.items():
            yield from leaves(inner, f"{path}.{key}")
    else:
        for inner in value:
            yield from leaves(inner, path + "[]")


def messages_in(text):
    """The lines of what the language server sent."""
    lines = []
    for part in re.split(r"Content-Length: \d+\r\n\r\n", text)[1:]:
        try:
            message = json.loads(part)
            lines += leaves({key: it for key, it in message.items() if key not in ("jsonrpc", "id")}, str(message.get("id", "")))
        except ValueError:
            lines.append(part)
    return lines


def lines_of(data):
    """An answer's bytes as lines that can be printed."""
    text = data.decode("utf-8", "backslashreplace")
    if text.startswith("Content-Length: "):
        lines = messages_in(text)
    else:
        lines = text.split("\n")
        lines[-1:] = [lines[-1] + "\\"] if lines[-1] else []
    split = []
    for line in lines:
        split += re.split(r"(?<=[,>;}])(?=.)", line) if len(line) > LONGEST_LINE else [line]
    return ["".join(it if it.isprintable() else it.encode("unicode_escape").decode() for it in line) for line in split]


def diff_of(part, old, new):
    """The lines that show how one part of an answer changed."""
    one, other = lines_of(old), lines_of(new)
    if one == other:
        one, other = ([ascii(line) for line in it.splitlines(keepends=True)] for it in (old, new))
    head = len(os.path.commonprefix([one, other]))
    start = max(head - 1, 0)
    one, other = one[start:], other[start:]
    tail = len(os.path.commonprefix([one[:0:-1], other[:0:-1]]))
    keep = max(tail - 1, 0)
    one, other = one[:len(one) - keep], other[:len(other) - keep]
    rest = [one[MOST_LINES:], other[MOST_LINES:]]
    one, other = one[:MOST_LINES], other[:MOST_LINES]
    for group in difflib.SequenceMatcher(None, one, other, autojunk=False).get_grouped_opcodes(1):
        yield f"@@ {part}, line {start + group[0][1] + 1} @@"
        for kind, a, b, c, d in group:
            if kind == "equal":
                yield from (" " + it for it in one[a:b])
            else:
                yield from ("-" + it for it in one[a:b])
                yield from ("+" + it for it in other[c:d])
    if rest[0] != rest[1]:
        yield f"@@ {part}, line {start + MOST_LINES + 1} @@"
        yield f"+more that isn't compared line by line, with the digest {hashlib.sha256(repr(rest).encode()).hexdigest()[:10]}"


def difference(old, new):
    """How two answers differ, or None."""
    if old == new:
        return None
    shown, changed, part = [], [], ""
    for name in sorted(old.keys() | new.keys()):
        if old.get(name) != new.get(name):
            shown += diff_of(name, old.get(name, b"nothing"), new.get(name, b"nothing"))
    for line in shown:
        if line.startswith("@@ "):
            part = line[3:].rsplit(", line ", 1)[0]
        elif line[0] != " ":
            changed.append(f"{line[0]}{part}: {line[1:]}")
    return Difference(tuple(shown), tuple(changed), hashlib.sha256("\n".join(changed).encode()).hexdigest()[:10])
