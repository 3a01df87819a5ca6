"""What names what among the definitions, types, views and contracts that tools/units.py reads, and how many lines that is.

A definition in DETERMINED counts with its type alone: what its law says leaves nothing else to know. The comment above it says so too; of
any other definition that comment is refused. A name is followed to each definition or type that it can mean, also through a `pub use` and
into the fields of a type. So a count is never too low, and may be a little too high.
"""
import functools
import os
import re

from repository import TOP, crates as listed_crates
from units import File, Unreadable, is_operator_in, is_ours, names_below, read, sources_of, tokens_in

# The definitions of which only the type counts, each with the law of its crate by which any two of this type agree.
DETERMINED = {
    "bc_select_defs.LeastDerivation.least_of_root": "one_least_derivation",
    "bc_select_defs.LeastDerivation.least_of_expression": "one_least_words",
}
DERIVED = re.compile(r"(?:Debug|Clone|Copy|Default|Hash|(?:Partial)?(?:Eq|Ord))$")


@functools.lru_cache(None)
def crates():
    """The crates, in the order of crates.txt."""
    return tuple(listed_crates())


@functools.lru_cache(None)
def file_of(crate, name):
    """The definitions file of this name; None if it is a folder, generated, or not of this repository."""
    path = os.path.join("crates", crate, "specs", *name.split(".")) + ".antt"
    return File(crate, name, read(path), DETERMINED) if os.path.exists(os.path.join(TOP, path)) else None


def files_of(crate):
    """The definition files of a crate."""
    return [file_of(crate, name.replace("/", ".")) for name in names_below(crate, "specs", ".antt") if name != "Lib"]


@functools.lru_cache(None)
def contracts_of(crate):
    """The contracts of the functions of a crate."""
    return [contract for source in sources_of(crate) for contract in source.contracts]


@functools.lru_cache(None)
def types_named(crate, name):
    """The types of this name that a crate has or passes on, each with its views."""
    found, others = set(), set()
    for source in sources_of(crate):
        found |= {unit for unit in source.types if name in unit.names}
        others |= {source.scope.rust[name]} if name in source.scope.rust else set()
    for other, old in others:
        found |= types_named(other, old) if other != crate else set()
    return frozenset(found)


def generated(crate, module, name):
    """What a name means that the kit generates from src/: the type in its path, or the type for which something in its path is derived."""
    for part in (*module.split(".")[1:], name):
        found = types_named(crate, part) or types_named(crate, DERIVED.sub("", part))
        if found:
            return found
    raise Unreadable(f"no type of crates/{crate}/src is {module}.{name}")


@functools.lru_cache(None)
def meant_by(crate, module, name):
    """What a name of a module means: units, or names of the standard library, as sets; None if the module has no such name."""
    if not is_ours(crate):
        return frozenset(), frozenset({(crate, module, name)})
    if module.split(".")[0] in ("declared", "contracts"):
        return generated(crate, module, name), frozenset()
    file = file_of(crate, module)
    if file is None:
        raise Unreadable(f"there is no file {module} in crates/{crate}/specs")
    if name in file.scope.own:
        return frozenset(file.scope.own[name]), frozenset()
    return joined(meant_by(*target) for target in file.scope.imports[name]) if name in file.scope.imports else None


def joined(meanings):
    """The unions of some pairs of sets."""
    pairs = list(meanings)
    return frozenset().union(*(pair[0] for pair in pairs)), frozenset().union(*(pair[1] for pair in pairs))


def used_in(scope, text):
    """What a text of a file names: units, and names of the standard library with their modules. An operator's parts are names of the text."""
    tokens = tokens_in(text)
    heads = {token.partition(".")[0] for token in tokens}
    if "Rattle" in heads:
        raise scope.fault("a name with its whole path, which an import should bring")
    named = [name for name in (*scope.imports, *scope.own) if name in heads or is_operator_in(name, tokens)]
    found = [(frozenset(scope.own[name]), frozenset()) for name in named if name in scope.own]
    for target in (target for name in named for target in scope.imports.get(name, ())):
        found.append(meant_by(*target))
        if found[-1] is None:
            raise Unreadable(f"{target[0]}.{target[1]} has no definition {target[2]}")
    for head, _, rest in (token.partition(".") for token in tokens):
        # Where the module has no such name, it is a field of a variable.
        found += filter(None, (meant_by(*alias, rest.split(".")[0]) for alias in scope.aliases.get(head, ()) if rest))
    return joined(found)


def types_in(scope, text):
    """The types that a text of the code names, those of the standard library aside."""
    words = set(re.findall(r"\w+", text))
    found = [types_named(*scope.rust[word]) for word in words if word in scope.rust]
    found += [{unit for unit in types_named(scope.crate, word) if unit.file == scope.file} for word in words]
    return frozenset().union(*found)


@functools.lru_cache(None)
def used_by(unit):
    """The units that this one names, and the names of the standard library."""
    text = "\n".join(unit.lines)
    units, library = used_in(unit.scope, text)
    return units | (types_in(unit.scope, text) if unit.kind != "definition" else frozenset()), library


def reached_from(units):
    """These units and all that they rest on, and the names of the standard library among it."""
    reached, library, left = set(), set(), list(units)
    while left:
        unit = left.pop()
        if unit not in reached:
            reached.add(unit)
            more, names = used_by(unit)
            library |= names
            left.extend(more)
    return reached, library


def units_of_contract(contract, clauses=None):
    """The units that a contract names in these clauses, or in all."""
    lines = [line for name, lines in contract.clauses.items() if clauses is None or name in clauses for line in lines]
    return used_in(contract.scope, "\n".join(lines))[0]


def is_example(name):
    """Whether a file of this name has worked examples only."""
    return name.endswith("Examples") or name.endswith("Sample") or "worked" in name.split(".")


def is_for_proofs(unit):
    """Whether a definition is in a file that only proofs need."""
    return unit.kind == "definition" and file_of(unit.crate, unit.file).is_for_proofs


def believed():
    """All that the contracts of public functions, laws included, rest on."""
    public = (contract for crate in crates() for contract in contracts_of(crate) if contract.is_public)
    return reached_from(frozenset().union(*map(units_of_contract, public)))[0]


# What the headline of PROVED.md says of a built program: these clauses of the contract of `build`.
HEADLINE = ["bc_build::build:built", "bc_build::build:runs", "bc_build::build:least", "bc_build::build:certified"]

# The statements of the table in docs/PROVED.md: the headline, its parts, and the public calls.
STATEMENTS = [
    ("the headline", HEADLINE),
    ("the image does what the sources mean", HEADLINE[:2]),
    ("the code has the fewest words", HEADLINE[2:3]),
    ("the certificate", HEADLINE[3:]),
    *((f"`{name}`", [name]) for name in (
        "bc_build::build", "bc_interpret_sources::interpret", "bc_interpret::interpret", "bc_lex::lex", "bc_parse::parse",
        "bc_scope::resolve", "bc_rules::is_derivation", "bc_select::select", "bc_gen::generate", "bc_cert::check",
        "bc_cert_against::check_against", "bc_link::link", "bc_run::run_text", "bc_text::read_all", "bc_convert::convert")),
]


def units_of(name):
    """The units that a name means: CRATE::FUNCTION, CRATE::FUNCTION:CLAUSE, CRATE.FILE or CRATE.FILE.NAME."""
    if "::" in name:
        path, clause = re.fullmatch(r"(.*?)(?:(?<!:):(\w+))?", name).groups()
        crate, function = path.split("::")[0], path.split("::")[-1]
        found = [contract for contract in contracts_of(crate) if contract.name == function and contract.is_public]
        if not found or clause and not any(clause in contract.clauses for contract in found):
            raise Unreadable(f"no public function of {crate} with a contract is named {name.partition('::')[2]}")
        return frozenset().union(*(units_of_contract(contract, [clause] if clause else None) for contract in found))
    crate, _, rest = name.partition(".")
    if file_of(crate, rest):
        return set(file_of(crate, rest).units)
    file, _, last = rest.rpartition(".")
    within = file_of(crate, file) if file else None
    if within is None or last not in within.scope.own:
        forms = "CRATE::FUNCTION, CRATE::FUNCTION:CLAUSE, CRATE.FILE or CRATE.FILE.NAME"
        raise Unreadable(f"there is no definition {name}; write {forms}")
    return within.scope.own[last]


def reached_by(names):
    """What these names rest on, and the names of the standard library among it."""
    return reached_from(frozenset().union(*map(units_of, names)))


def lines_of(units):
    """How many lines of definitions these are, and how many more in files for proofs."""
    counted = [(len(unit), is_for_proofs(unit)) for unit in units if unit.kind == "definition"]
    return sum(count for count, apart in counted if not apart), sum(count for count, apart in counted if apart)


def headline():
    """What the headline rests on, each by what docs/PROVED.md calls it."""
    units, library = reached_by(HEADLINE)
    of_kind = {kind: [len(unit) for unit in units if unit.kind == kind] for kind in ("type", "view")}
    lines, for_proofs = lines_of(units)
    return {
        "lines of definitions": lines,
        "lines in files for proofs": for_proofs,
        "types of the code": len(of_kind["type"]),
        "lines of these types": sum(of_kind["type"]),
        "views of these types": len(of_kind["view"]),
        "lines of these views": sum(of_kind["view"]),
        "names of the standard library": len(library),
    }


def tables():
    """The tables of docs/PROVED.md: what each statement rests on, and what beside it the headline reaches."""
    rows = ["| Statement | Lines of definitions | Lines in files `For proofs:` |", "|---|---|---|"]
    for title, names in STATEMENTS:
        lines, for_proofs = lines_of(reached_by(names)[0])
        rows.append(f"| {title} | {lines:,} | {for_proofs:,} |")
    more = ["| What the headline reaches beside definitions | Number |", "|---|---|"]
    more += [f"| {title} | {count:,} |" for title, count in list(headline().items())[2:]]
    return ["\n".join(rows) + "\n", "\n".join(more) + "\n"]
