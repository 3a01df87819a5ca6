"""Reads specs/ and src/ as text: definitions, types, views and contracts, each with its lines and what names mean in its file.

It knows the forms of lines that this repository uses, and refuses all others (`Unreadable`), since a definition that was passed over would
be missing from each count. It goes by names and knows no types: a local variable with the name of a definition counts as that definition.
"""
import functools
import glob
import itertools
import os
import re

from repository import TOP

IMPORT = re.compile(r"^\s*(?:(pub|ghost) )?use Rattle\.(\w+)\.(specs|proofs)\.(\S+?)(?:\.\{(.*)\}| as (\S+?));?$")
KEYWORDS = {"pub", "abbrev", "unfoldable", "data", "record", "mutual", "module", "infixl", "infixr", "infix"}
GROUPS = {"data", "record", "mutual", "module"}
STRING = r'"(?:[^"\\]|\\.)*"'
# A string, or a comment: of a definition file, of a source.
COMMENTS = {".antt": re.compile(rf"({STRING})|(?<![^\s(){{}}\[\],;])--.*"), ".rt": re.compile(rf"({STRING})|//.*")}
TOKEN = re.compile(r'[(){}\[\]]|[^\s(){}\[\],;"]+')
EXAMPLES = "-- ---- Worked examples"
DETERMINED = "-- Its type determines it"
CLAUSE = re.compile(r"^\s*(requires|ensures)(?: (\w+))? \{")
FUNCTION = re.compile(r"^\s*(pub(?:\(\w+\))? )?(?:const )?(?:unsafe )?fn (\w+)")
PUB = r"(?:pub(?:\(\w+\))? )?"
BLOCK = re.compile(rf"^{PUB}(struct|enum|trait|type) (\w+)|^(impl)\b(?:<.*?>)? (\w.* for )?(?:\w+::)*(\w+)")
RUST_USE = re.compile(rf"^\s*{PUB}use (\w+)(?:::\w+)*::(?:\{{([^{{}}]*)\}}|(\w+(?: as \w+)?));", re.MULTILINE)


class Unreadable(Exception):
    """A line that isn't understood, or a name that nothing has."""


def read(*path):
    """A file's text."""
    with open(os.path.join(TOP, *path), encoding="utf-8") as file:
        return file.read()


def without_comment(line, ending):
    """A line without its comment and the blanks at its end."""
    return COMMENTS[ending].sub(lambda found: found[1] or "", line).rstrip()


def tokens_in(text):
    """The names in a text. What begins with a dot is a field."""
    return {token.rstrip(".").lstrip("λ") for token in TOKEN.findall(re.sub(STRING, " ", text)) if token[0] != "."}


def declared_in(line):
    """The names that a line of a definition file declares: that after its keywords, and all before a colon that is within no parentheses."""
    depth, names, words = 0, [], line.split()
    is_head = words[0] in KEYWORDS and not words[0].startswith("infix") and not {"mutual", "module"} & set(words)
    for token in TOKEN.findall(line):
        depth += (token in "({[") - (token in ")}]")
        if depth == 0 and token in (":", "="):
            return set(names if token == ":" else names[:is_head])
        if depth == 0 and token not in "()[]{}" and token not in KEYWORDS:
            names.append(token)
    return set(names[:is_head])


@functools.lru_cache(None)
def is_ours(crate):
    """Whether a crate is one of this repository."""
    return os.path.isdir(os.path.join(TOP, "crates", crate))


class Scope:
    """What names mean in a file: imported ones, aliases of files, its own, and in a source the types of other crates and files.

    A name that several imports bring means all of them.
    """

    def __init__(self, crate, file):
        self.crate, self.file = crate, file
        self.imports, self.aliases, self.own, self.rust = {}, {}, {}, {}

    def fault(self, text):
        """What is wrong in this file."""
        return Unreadable(f"crates/{self.crate}, {self.file}: {text}")

    def take(self, line):
        """Notes what an import of definitions brings. Returns whether the line is one."""
        if not re.match(r"^\s*(?:pub |ghost )*use ", line):
            return False
        found = IMPORT.match(line)
        if not found or found[3] == "proofs" and is_ours(found[2]):
            raise self.fault(f"an import of no known form, or from proofs/: {line.strip()}")
        crate, module, names, alias = found[2], found[4], found[5], found[6]
        if names is None:
            self.aliases.setdefault(alias, set()).add((crate, module))
        for name in names.split(",") if names else ():
            old, _, new = name.strip().partition(" as ")
            self.imports.setdefault(new or old, set()).add((crate, module, old))
        return True

    def take_rust(self, text):
        """Notes the types that a source imports, each with its crate."""
        for found in RUST_USE.finditer(text):
            for item in (found[2] or found[3]).split(","):
                old, _, new = item.strip().partition(" as ")
                self.rust[new or old] = (found[1] if is_ours(found[1]) else self.crate, old)


class Unit:
    """A definition, a group of mutual ones, a type, or a view, which is what a type is in the definitions: its names and its lines."""

    def __init__(self, scope, kind, names=()):
        self.scope, self.crate, self.file = scope, scope.crate, scope.file
        self.kind, self.names, self.lines, self.is_group = kind, set(names), [], False

    def __len__(self):
        return len(self.lines)


class File:
    """A file of specs/: its units, of which those from `at_examples` on are worked examples. `is_for_proofs` as its first line says."""

    def __init__(self, crate, name, text, determined):
        self.scope, self.units = Scope(crate, name), []
        self.name, self.path = name, f"crates/{crate}/specs/{name.replace('.', '/')}.antt"
        self.is_for_proofs = text.startswith("-- For proofs:")
        self.at_examples, said = None, {}
        for line in text.split("\n"):
            if line.startswith(DETERMINED):
                said[len(self.units)] = line
            if line.startswith(EXAMPLES):
                self.at_examples = len(self.units)
            if "{-" in line:
                raise self.scope.fault(f"a comment of another form than the rest: {line}")
            self.take(without_comment(line, ".antt"))
        for at, line in said.items():
            self.check_comment((self.units + [None])[at], line, determined)
        for unit in self.units:
            if not unit.names:
                raise self.scope.fault(f"no name before the colon: {unit.lines[:1]}")
            for one in unit.names:
                self.scope.own.setdefault(one, set()).add(unit)

    def take(self, line):
        """Takes the next line, without its comment."""
        if not line or line.startswith(("mod ", "pub mod ")) or self.scope.take(line):
            return
        unit, words = self.units[-1] if self.units else None, line.split()
        if not line[0].isspace() and (words[0] in KEYWORDS or declared_in(line)):
            # A line on an operator's precedence belongs to the operator, which follows.
            if unit is None or not (unit.lines and unit.lines[-1].startswith("infix")):
                unit = Unit(self.scope, "definition")
                unit.is_group = bool(GROUPS & set(itertools.takewhile(KEYWORDS.__contains__, words)))
                self.units.append(unit)
        is_head = bool(re.match(r"(?:  )?\S" if unit is not None and unit.is_group else r"\S", line))
        if unit is None or is_head and not (words[0] in KEYWORDS or declared_in(line) or continues(unit, words)):
            raise self.scope.fault(f"a line of no definition: {line}")
        if not KEYWORDS.issuperset(words):
            unit.lines.append(line)
        if is_head or unit.is_group and re.match(r"    \S", line):
            unit.names |= declared_in(line)

    def check_comment(self, unit, line, determined):
        """Leaves only the type of a definition that is listed as determined by it. The comment is refused of any other."""
        name = next(iter(unit.names)) if unit is not None and len(unit.names) == 1 else None
        law = determined.get(f"{self.scope.crate}.{self.name}.{name}")
        if not law or line != f"{DETERMINED}: law `{law}`.":
            raise self.scope.fault(f"{line!r}: tools/definitions.py lists of which definitions this may be said, and by which law")
        if not re.search(rf"^pub fn {law}\(\)$", read("crates", self.scope.crate, "src", "laws.rt"), re.MULTILINE):
            raise self.scope.fault(f"there is no law {law}")
        unit.lines = unit.lines[:next(i for i, one in enumerate(unit.lines) if one.split()[0] == name)]


def is_operator_in(name, tokens):
    """Whether a name is an operator's, and all parts of it are among the names of a text."""
    return "◌" in name and set(name.split("◌")) - {""} <= tokens


def continues(unit, words):
    """Whether a line belongs to the definition before it: as an equation, by what it unfolds, or as the end of what is in parentheses."""
    is_of_operator = any(is_operator_in(name, set(words)) for name in unit.names)
    return words[0] in unit.names | {"unfolding"} or words[0][0] in ")}" or is_of_operator


class Contract:
    """The contract of a function: the type whose method it is, its name, whether it is public, its signature, and its clauses by name."""

    def __init__(self, scope, owner, name, is_public):
        self.scope, self.crate, self.file = scope, scope.crate, scope.file
        self.owner, self.name, self.is_public = owner, name, is_public
        self.signature, self.clauses, self.taken = [], {}, []

    def take(self, line):
        """Takes a line of the signature or of a clause."""
        begins = CLAUSE.match(line)
        if begins:
            self.taken = self.clauses.setdefault(begins[2] or begins[1], [])
        (self.taken if self.clauses else self.signature).append(line)

    def is_exported(self):
        """Whether other crates can call it: it is public, and the crate's root names it, its type or its file in a `pub`."""
        return self.is_public and bool({self.owner or self.name, self.file.split("::")[0]} & exported_names(self.crate))


class Source:
    """A file of src/: its contracts, its types, and under the name of its type what each implementation has for the logic."""

    def __init__(self, crate, name, text):
        self.scope, self.types, self.contracts = Scope(crate, name), [], []
        self.scope.take_rust(text)
        self.block, self.current = None, None
        for line in (without_comment(line, ".rt") for line in text.split("\n")):
            if line and not (re.match(r"^\s*ghost use ", line) and self.scope.take(line)):
                self.take(line)
        for unit in self.types:
            unit.lines = ghost_lines(unit.lines) if unit.kind == "view" else unit.lines
        self.types = [unit for unit in self.types if unit.lines]

    def take(self, line):
        """Takes the next line, without its comment."""
        begins = BLOCK.match(line)
        if begins:
            self.block = Unit(self.scope, "view" if begins[3] else "type", [begins[2] or begins[5]])
            self.is_trait, self.has_trait = begins[1] == "trait", bool(begins[4])
            self.types.append(self.block)
        if self.block is not None:
            self.block.lines.append(line)
        if "/*" in line and (self.current or self.block is not None and self.block.kind == "type"):
            raise self.scope.fault(f"a comment of another form than the rest: {line}")
        self.take_contract(line)
        if line.startswith("}") or begins and line.endswith((";", "}")):
            self.block = None

    def take_contract(self, line):
        """Takes the line if it belongs to a function's signature or clauses."""
        found, is_trait, owner = FUNCTION.match(line), False, ""
        if self.block is not None:
            is_trait, owner = self.is_trait, next(iter(self.block.names))
        if found:
            is_public = (found[1] or "").strip() == "pub" or owner and (is_trait or self.has_trait)
            self.current = Contract(self.scope, owner, found[2], bool(is_public))
        if self.current is None:
            return
        is_end = line.strip() in ("{", "{}")
        if not is_end:
            self.current.take(line)
        if is_end or is_trait and line.endswith(";") or not self.current.clauses and line.endswith(("{", "{}")):
            if self.current.clauses:
                self.contracts.append(self.current)
            self.current = None


def ghost_lines(lines):
    """The members of an implementation that are for the logic, such as `view`."""
    kept, depth = [], 0
    for line in lines:
        if depth or re.match(r"    ghost (?!\w*from_gives)\w+ = ", line):
            kept.append(line)
            depth += line.count("{") - line.count("}")
    return kept


def names_below(crate, part, ending):
    """The files of a crate's folder, by their paths without endings."""
    folder = os.path.join(TOP, "crates", crate, part)
    paths = glob.glob(os.path.join(folder, "**", "*" + ending), recursive=True)
    return sorted(os.path.relpath(path, folder)[:-len(ending)].replace(os.sep, "/") for path in paths)


@functools.lru_cache(None)
def sources_of(crate):
    """The files of a crate's src/."""
    names = names_below(crate, "src", ".rt")
    return [Source(crate, name.replace("/", "::"), read("crates", crate, "src", name + ".rt")) for name in names]


@functools.lru_cache(None)
def exported_names(crate):
    """The names that a crate's root exports: those of each `pub use`, and each `pub mod`."""
    for name in ("lib.rt", "main.rt"):
        if os.path.exists(os.path.join(TOP, "crates", crate, "src", name)):
            text = read("crates", crate, "src", name)
            uses = re.findall(r"^pub use ([^;]*);", text, re.MULTILINE)
            own = re.findall(r"^pub (?:mod|fn|const fn|struct|enum) (\w+)", text, re.MULTILINE)
            return {*own, *(word for use in uses for word in re.findall(r"\w+", use.partition("::")[2]))}
    return set()
