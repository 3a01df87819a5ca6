"""What tests/same compares: the programs, texts, certificates, cases, sessions and folders of the repository, and the commands on each of them.

A row of COMMANDS is one comparison for each input of its kind. In a row, F is the input's files, F1 each of them by itself, G the options that
its GETs need, S its streams, D the options of its dialect; `;` is between calls that are made in the same folder.
"""
import functools
import importlib.machinery
import importlib.util
import json
import os
import random
import re
import subprocess
from typing import Callable, NamedTuple

from answers import LATER, Call, Comparison

HERE = os.path.dirname(os.path.abspath(__file__))
TOP = os.path.dirname(HERE)
TEXT, JSON = "--places always --messages text", "--places always --messages json"
GIVEN = b"12 7\nhello\n"
STEPS = b"help\nstart\nstep\ninfo locals\nwhere\nbreak 3\ninfo globals\ncontinue\nprint N\nprint X\nlast X\nreverse-step 2\nlist\nnext 3\nbacktrace\ninfo routines\n"

# The kind of input, the name of the comparison, and the arguments. A name that ends so is run at a terminal.
AT_TERMINAL = " at a terminal"
COMMANDS = [
    ("source", "build text", f"build --out o.int --cert o.cert --errors all {TEXT} G F"),
    ("source", "build json", f"build --out o.int --errors all {JSON} G F"),
    ("source", "build", "build --out o.int G F"),
    ("source", "build at a terminal", "build --out o.int G F"),
    ("source", "build lean and tame", f"build --out o.int --lean --tame {TEXT} G F"),
    ("source", "build without library", f"build --out - --no-library --no-warnings {TEXT} G F"),
    ("source", "build and use", "build --out o.int --cert o.cert --no-warnings G F ; check o.cert o.int ; list --cert o.cert o.int ; asm o.int"
                                " ; run --steps 200000 --profile p --trace t --high S o.int"),
    ("source", "list by source", "build --out o.int --no-warnings G F ; list --source F1 G o.int"),
    ("source", "tame text", f"tame {TEXT} G F"),
    ("source", "tame json", f"tame {JSON} G F"),
    ("source", "tame", "tame G F"),
    ("source", "interpret strict", f"interpret --turns 20000 --strict {TEXT} G S F"),
    ("source", "interpret json", f"interpret --turns 20000 {JSON} G S F"),
    ("source", "interpret strict json", f"interpret --turns 20000 --strict {JSON} G S F"),
    ("source", "interpret", "interpret --turns 20000 --places never G S F"),
    ("source", "interpret at a terminal", "interpret --turns 20000 G S F"),
    ("source", "go text", f"go --steps 200000 {TEXT} G S F"),
    ("source", "go json", f"go --steps 200000 {JSON} G S F"),
    ("source", "go at a terminal", "go --steps 200000 G S F"),
    ("source", "show tokens", f"show tokens {TEXT} G F1"),
    ("source", "show tree", f"show tree {TEXT} G F1"),
    ("source", "show tree json", f"show tree --form json {JSON} G F1"),
    ("source", "show tree dot", "show tree --form dot G F1"),
    ("source", "show source", f"show source {TEXT} G F1"),
    ("source", "show scopes", f"show scopes {TEXT} G F1"),
    ("source", "show code", f"show code {TEXT} G F1"),
    ("source", "show code at a terminal", "show code G F1"),
    ("source", "explain", f"explain --out o.html {TEXT} G F"),
    ("source", "explain json", f"explain --out o.html {JSON} G F"),
    ("source", "debug page", "debug --out o.html --turns 5000 --record 500 --places always G S F"),
    ("source", "format", f"format {TEXT} F"),
    ("source", "format narrow", f"format --width 40 --in-place {JSON} F"),
    ("source", "convert", f"convert --out-dir . --keep-links {TEXT} F"),
    ("old", "convert text", f"convert --out o.bcpl {TEXT} D F1"),
    ("old", "convert json", f"convert --out o.bcpl {JSON} D F1"),
    ("old", "convert in a pipe", "convert D F1"),
    ("old", "convert at a terminal", "convert D F1"),
    ("old", "convert in place", f"convert --in-place --header exthdr {TEXT} D F"),
    ("old", "convert alto", f"convert --dialect alto {TEXT} F1"),
    ("old", "convert mit", f"convert --dialect mit {TEXT} F1"),
    ("text", "list text", f"list {TEXT} F"),
    ("text", "list json", f"list {JSON} F"),
    ("text", "asm", f"asm {TEXT} F ; asm --format hex F ; asm --format bin-le F ; asm --format ihex F ; asm --format c F ; asm --format srec F"),
    ("text", "run text", f"run --steps 200000 {TEXT} S F"),
    ("text", "run json", f"run --steps 200000 --profile p --trace t --count 200 {JSON} S F"),
    ("text", "run at a terminal", "run --steps 200000 S F"),
    ("text", "run from standard input", "< F1"),
    ("cert", "check text", f"check {TEXT} F"),
    ("cert", "check json", f"check {JSON} F"),
    ("cert", "check at a terminal", "check F"),
    ("folder", "convert folder", f"convert --project . --out made {TEXT}"),
    ("folder", "convert folder json", f"convert --project . --out made {JSON}"),
    ("folder", "convert folder from alto", f"convert --project . --out made --dialect alto {TEXT}"),
    ("folder", "convert together", f"convert --in-place {TEXT} F"),
    ("folder", "format together", f"format --check {TEXT} F ; format --in-place F"),
]
NAMES = ("build", "show", "explain", "list", "asm", "run", "go", "interpret", "debug", "tame", "check", "convert", "format", "lsp")
# The steps of a session of tests/*.cases that change files. The others only look at them.
CHANGES = ("file", "|", "link", "second", "old", "replace")
ENDINGS = {".bcpl": "source", ".new": "source", ".old": "old", ".b": "old", ".int": "text", ".cert": "cert"}
LIBRARY = ("LIBHDR", "BLIB", "EXTLIB", "EXTHDR")
FIXED = {"source": "a.bcpl", "old": "a.b", "text": "a.int", "cert": "a.cert"}
MOST_IN_FOLDER = 40


class Input(NamedTuple):
    """Files that belong together, and how commands take them. `load` reads the files when they are needed, which is in another process."""

    place: str
    kind: str
    load: Callable
    mains: tuple
    gets: tuple = ()
    streams: tuple = ()
    dialect: tuple = ()
    given: bytes = GIVEN


def load(path):
    """A script of the tests, as a module."""
    loader = importlib.machinery.SourceFileLoader(re.sub(r"\W", "_", path), os.path.join(HERE, path))
    module = importlib.util.module_from_spec(importlib.util.spec_from_loader(loader.name, loader))
    loader.exec_module(module)
    return module


CASES = load("check")
REFUSALS = load("refusals/check")
ROWS = load("old/rows.py")


def read(path):
    """A file's bytes; none if there is no such file."""
    try:
        with open(os.path.join(TOP, path), "rb") as file:
            return file.read()
    except (FileNotFoundError, IsADirectoryError):
        return b""


def words_in(path):
    """The words of a file."""
    return tuple(read(path).decode().split())


def tracked():
    """The files that git lists, by path from the top, each content once."""
    listed = subprocess.run(["git", "ls-files", "-s", "-z"], cwd=TOP, stdout=subprocess.PIPE, check=True).stdout.decode()
    found = [it.split("\t") for it in listed.split("\0") if it]
    return list({(about.split()[1], kind_of(path)): path for about, path in reversed(found)}.values())[::-1]


def kind_of(path):
    """The kind of input that a file is, or None."""
    return "source" if os.path.basename(path) in LIBRARY else ENDINGS.get(os.path.splitext(path)[1])


def files_of(folder, names):
    """These files of a folder."""
    return {it: read(os.path.join(folder, it)) for it in names}


def named_in(folder, words):
    """The files of a folder that these arguments name."""
    named = {part for word in words for part in (word, word.split("=")[-1]) if part}
    return [it for it in sorted(named) if os.path.isfile(os.path.join(TOP, folder, it))]


def loader(folder, words):
    """Reads the files of a folder that these arguments name."""
    return functools.partial(files_of, folder, named_in(folder, words))


def single(place, kind, data):
    """An input of one file. Its name is that of all files of this kind, so that one change of a message is the same change everywhere."""
    name = FIXED[kind]
    return Input(place, kind, lambda: {name: data}, (name,))


def old_files(path):
    """An old source, and the names of its library."""
    names = read(os.path.splitext(path)[0] + ".names")
    return {FIXED["old"]: read(path), **({"names": names} if names else {})}


def dialect_of(path):
    """The options of convert that are beside an old source."""
    front = os.path.splitext(path)[0]
    dialect = [f"--dialect={it}" for it in words_in(front + ".dialect")]
    defines = [f"--define={it}" for it in words_in(front + ".defines")]
    return (*dialect, *defines, *(["--library", "names"] if os.path.exists(os.path.join(TOP, front + ".names")) else []))


def singles(paths):
    """Each file by itself."""
    for path in paths:
        kind = kind_of(path)
        if kind == "old":
            yield Input(path, kind, functools.partial(old_files, path), (FIXED[kind],), dialect=dialect_of(path))
        elif kind:
            yield Input(path, kind, functools.partial(lambda path, name: {name: read(path)}, path, FIXED[kind]), (FIXED[kind],))
        elif path.endswith(".md") and path.startswith("docs/"):
            for number, text in enumerate(re.findall(rb"```file \S+\n(.*?)```", read(path), re.DOTALL), 1):
                yield single(f"{path}#{number}", "source", text)
    for number, row in enumerate(ROWS.rows(), 1):
        yield single(f"tests/old/rows.cases#{number}", "old", row.old)
        for name, text in row.by_hand:
            yield single(f"tests/old/rows.cases#{number} {name}", "source", text)


def case_input(place, kind, lines):
    """The input that a case of tests/*.cases has, or None."""
    text = b"\n".join(map(CASES.expanded, lines))
    if kind in ("text", "asm", "listed image", "fronts of a text"):
        return single(place, "text", text)
    if kind in ("check", "fronts of a certificate"):
        return single(place, "cert", text.split(b"\n-- text\n")[0] + b"\n")
    if kind in ("altered certificate", "check of negations", "check without the last line feed", "session"):
        return None
    if kind in ("places", "warnings"):
        return single(place, "source", CASES.unmarked(text.decode("latin-1"))[0].encode("latin-1"))
    text, _, given = text.partition(b"\n-- input\n")
    parts = re.split(rb"^(--|==) (\S+)(?:\n|$)", text, flags=re.MULTILINE)
    files = {parts[at + 1].decode(): parts[at + 2] for at in range(1, len(parts), 3)}
    mains = tuple(parts[at + 1].decode() for at in range(1, len(parts), 3) if parts[at] == b"==")
    if not mains:
        return single(place, "source", text)._replace(given=given or GIVEN)
    gets = tuple(f"--get={name}={name}" for name in files if name not in mains)
    return Input(place, "source", lambda: files, mains, gets, given=given or GIVEN)


def case_inputs():
    """The inputs of all cases."""
    for name in sorted(it for it in os.listdir(HERE) if it.endswith(".cases")):
        for number, case in enumerate(CASES.cases_of(os.path.join(HERE, name)), 1):
            found = case_input(f"tests/{name}#{number}", case.kind, next(case.steps())[0])
            if found:
                yield found


def programs():
    """The programs of several files, and those with streams."""
    for folder, ending in (("examples", ".files"), ("tests/library", ".words"), ("examples", ".words")):
        for name in sorted(it[:-len(ending)] for it in os.listdir(os.path.join(TOP, folder)) if it.endswith(ending)):
            front = os.path.join(folder, name)
            mains, streams = words_in(front + ".files") or (name + ".bcpl",), words_in(front + ".words")
            yield Input(front, "source", loader(folder, [*mains, *streams]), mains, streams=streams, given=read(front + ".in"))
    mains, given = ("main.bcpl", "stack.bcpl", "table.bcpl"), read("examples/project/test.in")
    load = loader("examples/project", ["PROJECT", *mains])
    yield Input("examples/project", "source", load, mains, ("--include", "."), given=given)
    yield Input("examples/project with --get", "source", load, mains, ("--get", "PROJECT=./PROJECT"), given=given)
    for name in sorted({it.split(".")[0] for it in os.listdir(os.path.join(HERE, "tame", "two"))}):
        mains = tuple(f"{name}.{it}.bcpl" for it in ("first", "second"))
        yield Input(f"tests/tame/two/{name}", "source", loader("tests/tame/two", mains), mains)
    mains = ("main.bcpl", "part.bcpl")
    yield Input("tests/debug/main", "source", loader("tests/debug", mains), mains)
    yield from converted_programs()
    yield from linked_texts()


def converted_programs():
    """The programs of tests/old that have several files: a file that another one gets is a header."""
    for folder in ("in-parts", "fields-and-globals", *(f"projects/{it}" for it in sorted(os.listdir(os.path.join(HERE, "old", "projects"))))):
        place = f"tests/old/{folder}/new"
        files = files_of(place, [it for it in sorted(os.listdir(os.path.join(TOP, place))) if it not in ("REPORT.md", "build.sh")])
        headers = [it for it in files if any(b'GET "' + it.encode() + b'"' in text for text in files.values())]
        mains, gets = tuple(it for it in files if it not in headers), tuple(f"--get={it}={it}" for it in headers)
        yield Input(place, "source", functools.partial(files_of, place, list(files)), mains, gets, given=read(f"tests/old/{folder}/in"))


def linked_texts():
    """The texts that are linked together, or that have streams."""
    for folder in ("examples/intcode", "tests/list", "tests/trace"):
        for name in sorted(os.listdir(os.path.join(TOP, folder))):
            front, ending = os.path.splitext(os.path.join(folder, name))
            if ending in (".texts", ".words"):
                words = words_in(front + ending)
                mains = tuple(it for it in words if it.endswith(".int")) or (os.path.basename(front) + ".int",)
                streams = tuple(it for at, it in enumerate(words) if {it, words[at - 1]} & {"--in", "--to"})
                yield Input(front + ending, "text", loader(folder, [*mains, *streams]), mains, streams=streams, given=read(front + ".in"))


def folders(paths):
    """Folders with sources."""
    by_folder = {}
    for path in paths:
        if kind_of(path) in ("source", "old") or re.search("/old/projects/.*/old/", path):
            by_folder.setdefault(os.path.dirname(path), []).append(os.path.basename(path))
    for folder, names in sorted(by_folder.items()):
        if len(names) <= MOST_IN_FOLDER:
            yield Input(folder, "folder", functools.partial(files_of, folder, names), tuple(names))


def cut(data, dice):
    """A random change: something is left out, doubled, moved or inserted."""
    i = dice.randrange(len(data) + 1)
    j = min(len(data), i + dice.choice((1, 2, 5, 20, 200)))
    how = dice.randrange(5)
    if how == 0:
        return data[:i] + data[j:]
    if how == 1:
        return data[:j] + data[i:]
    if how == 2:
        k = dice.randrange(len(data) + 1)
        return data[:k] + data[i:j] + data[k:]
    if how == 3:
        return data[:i] + bytes([dice.choice(b'$()[]{}"\'*;:=,!@#%&|<>+-ABCXYZLabc019 \n\t\x01\xc3')]) + data[i + 1:]
    pieces = (b"LET ", b" BE ", b"$(", b"$)", b" = ", b" := ", b"IF ", b"VALOF ", b'"', b"CASE 1: ", b"GOTO L", b"// ", b"/*", b"L7 ", b"G1 ", b" 9999 ")
    return data[:i] + dice.choice(pieces) + data[i:]


def cut_files(found, dice):
    """The files of an input, with random changes of the first."""
    files = dict(found.load())
    for _ in range(dice.choice((1, 1, 1, 2, 3))):
        files[found.mains[0]] = cut(files[found.mains[0]], dice)
    return files


def cuts(inputs, count, seed):
    """Random cuts of inputs. Each depends on the seed and its number only, so that one can be made without the others."""
    for number in range(count if inputs else 0):
        found = random.Random(f"{seed} {number}").choice(inputs)

        def load(found=found, number=number):
            return cut_files(found, random.Random(f"{seed} {number} inside"))

        yield found._replace(place=f"cut {number} of {found.place}", load=load)


def expanded(words, it, main):
    """The words of a row of COMMANDS for an input, without the option for the library, which depends on its files."""
    known = {"F": it.mains, "F1": (main,), "G": (*it.gets, LATER), "S": it.streams, "D": it.dialect}
    return tuple(part for word in words.split() for part in known.get(word, (word,)))


def calls_of(words, it, main, is_terminal):
    """The calls of a row of COMMANDS for an input."""
    for part in words.split(" ; "):
        if part.startswith("< "):
            yield Call((), given_file=main)
        else:
            yield Call(expanded(part, it, main), it.given, is_terminal=is_terminal)


def on_input(it):
    """The comparisons on an input."""
    kinds = ("old", "source") if it.kind == "old" else (it.kind,)
    for kind, name, words in COMMANDS:
        for main in it.mains if "F1" in words.split() else it.mains[:1] if kind in kinds else ():
            if kind in kinds:
                place = it.place if len(it.mains) == 1 or "F1" not in words.split() else f"{it.place}/{main}"
                yield Comparison(name, place, it.load, tuple(calls_of(words, it, main, name.endswith(AT_TERMINAL))))
    if "source" in kinds:
        words = ("debug", "--turns", "20000", *it.gets, LATER, *it.streams, *it.mains)
        yield Comparison("debug", it.place, it.load, (Call(words, STEPS),))
        for main in it.mains:
            place = it.place if len(it.mains) == 1 else f"{it.place}/{main}"
            yield Comparison("lsp", place, it.load, (Call(("lsp",), messages=functools.partial(session_on, main)),))


def position(text, offset):
    """The position of an offset, as editors have it."""
    before = re.sub(r"\r\n?", "\n", text[:offset])
    return {"line": before.count("\n"), "character": len(before.rsplit("\n", 1)[-1].encode("utf-16-le")) // 2}


def session_on(name, files):
    """The messages of an editor that opens a source, asks about some names of it, and changes it."""
    text = files[name].decode("utf-8", "replace")
    document = {"uri": f"file://@/{name}"}

    def message(method, params, number=None):
        return json.dumps({"jsonrpc": "2.0", **({"id": number} if number else {}), "method": method, "params": params})

    def about(method, params=None, where=""):
        return message("textDocument/" + method, {"textDocument": document, **(params or {})}, f"{method} {where}".strip())

    yield message("initialize", {"capabilities": {}}, "initialize")
    yield message("initialized", {})
    yield message("textDocument/didOpen", {"textDocument": {**document, "languageId": "bcpl", "version": 1, "text": text}})
    yield from map(about, ("documentSymbol", "foldingRange"))
    names = list(re.finditer(r"[A-Za-z][A-Za-z0-9.]*", text))
    for found in names[len(names) // 10::max(len(names) // 5, 1)]:
        place = position(text, found.end() - 1)
        where = f"{found[0]} {place['line'] + 1}:{place['character'] + 1}"
        for method in ("hover", "definition", "documentHighlight", "prepareRename", "completion", "signatureHelp"):
            yield about(method, {"position": place}, where)
        yield about("references", {"position": place, "context": {"includeDeclaration": True}}, where)
        yield about("rename", {"position": place, "newName": "FRESH.NAME"}, where)
        yield about("codeAction", {"range": {"start": place, "end": place}, "context": {"diagnostics": []}}, where)
    yield about("formatting", {"options": {"tabSize": 3, "insertSpaces": True}})
    middle = position(text, len(text) // 2)
    change = {"range": {"start": middle, "end": middle}, "text": " XYZ := )\n"}
    yield message("textDocument/didChange", {"textDocument": {**document, "version": 2}, "contentChanges": [change]})
    yield about("documentSymbol", where="after a change")
    yield about("completion", {"position": middle}, "after a change")
    yield message("shutdown", None, "shutdown")
    yield message("exit", None)


def recorded_sessions():
    """The sessions of tests/lsp, and those of tests/debug, in a pipe and at a terminal."""
    for name in sorted(os.listdir(os.path.join(HERE, "lsp"))):
        if name.endswith(".session"):
            sent = tuple(it[2:] for it in read(f"tests/lsp/{name}").decode().split("\n") if it.startswith("> "))
            yield Comparison("lsp", f"tests/lsp/{name}", dict, (Call(("lsp",), messages=functools.partial(lambda sent, files: sent, sent)),))
    for name in sorted(it[:-9] for it in os.listdir(os.path.join(HERE, "debug")) if it.endswith(".commands")):
        options = tuple(it.replace("@/", "") for it in words_in(f"tests/debug/{name}.options"))
        mains = (name + ".bcpl", "part.bcpl") if name == "main" else (name + ".bcpl",)
        load, commands = loader("tests/debug", [*mains, *options, name + ".commands"]), read(f"tests/debug/{name}.commands")
        place = f"tests/debug/{name}.commands"
        yield Comparison("debug", place, load, (Call(("debug", *options, *mains), commands),))
        yield Comparison("debug at a terminal", place, load, (Call(("debug", *options, *mains), commands, is_terminal=True),))
        words = ("debug", "--script", name + ".commands", "--batch", *options, *mains)
        yield Comparison("debug batch", place, load, (Call(words),))


def is_inside(words):
    """Whether these arguments name no file outside of the current folder, but for devices and what doesn't exist."""
    names = {part for word in words for part in (word, word.split("=")[-1])}
    return not any(it.startswith("/") and not re.match(r"/dev/(full|null|stdout)$|/nowhere/", it) or ".." in it.split("/") for it in names)


def refused():
    """The calls of tests/refusals."""
    for name in REFUSALS.names():
        words = tuple(it.replace("./out.int", "out.int") for it in REFUSALS.words_of(name, "."))
        if is_inside(words):
            yield Comparison(f"refusal {words[0] if words[:1] and words[0] in NAMES else ''}".strip(), f"tests/refusals/{name}",
                             loader("tests/refusals", words), (Call(words, GIVEN),))


def call_in_session(rest, settings):
    """The call that a line of a session makes."""
    words = [CASES.expanded(it).decode("latin-1") for it in rest.split()]
    named = {"<": "", ">": ""}
    for sign in named:
        if sign in words:
            at = words.index(sign)
            named[sign] = words[at + 1]
            del words[at:at + 2]
    return Call(tuple(words), given_file=named["<"], output_file=named[">"], settings=settings)


def sessions_of_cases():
    """The sessions of tests/*.cases."""
    for name in sorted(it for it in os.listdir(HERE) if it.endswith(".cases")):
        for number, case in enumerate(CASES.cases_of(os.path.join(HERE, name)), 1):
            steps, settings = [], ()
            for line, _ in case.steps() if case.kind == "session" else ():
                word, _, rest = line.partition(" ")
                if word == "places":
                    settings = (("BCPL_PLACES", rest),)
                elif word == "bcpl":
                    steps.append(call_in_session(rest, settings))
                elif word in CHANGES:
                    steps.append(line)
            if steps and all(is_inside((*it.words, it.given_file, it.output_file)) for it in steps if isinstance(it, Call)):
                yield Comparison("session", f"tests/{name}#{number}", dict, tuple(steps))


def helps():
    """The texts of help, and calls without what they need."""
    for words in ((), ("--help",), ("--version",), ("frobnicate",), *((it, "--help") for it in NAMES), *(("help", it) for it in NAMES), *((it,) for it in NAMES)):
        for is_terminal in (False, True):
            yield Comparison("help at a terminal" if is_terminal else "help", " ".join(words) or "no arguments", dict, (Call(words, is_terminal=is_terminal),))
    settings = (("BCPL_MESSAGES", "json"), ("BCPL_PLACES", "always"))
    yield Comparison("settings", "tests/debug/main", loader("tests/debug", ("main.bcpl",)), (Call(("build", "--out", "o.int", "main.bcpl"), settings=settings),))


def comparisons(cut_count, seed):
    """All comparisons."""
    paths = tracked()
    inputs = [*singles(paths), *case_inputs()]
    for it in [*inputs, *programs(), *folders(paths), *cuts(inputs, cut_count, seed)]:
        yield from on_input(it)
    yield from recorded_sessions()
    yield from refused()
    yield from sessions_of_cases()
    yield from helps()
