"""The laws and contracts that README.md and docs/PROVED.md cite, each pinned by the digests of its statement and of all that is below it.

A name in backticks is a citation if a function with a contract has it, a type with such methods, or a module of laws: with its crate
anywhere, else in a section or a sentence that names the crate. README names no calls, so IN_README has those of which it speaks.
"""
import hashlib
import os
import re

from definitions import contracts_of, crates, reached_from, types_in, units_of_contract
from repository import TOP
from units import Unreadable, read

PINS = os.path.join("tools", "house.pins")
README, PROVED = "README.md", os.path.join("docs", "PROVED.md")
HEAD = """\
# What README.md and docs/PROVED.md cite: the digest of each law's or contract's statement, the digest of all definitions, types and views
# below it, and its name. If one changes, tools/house says what to read again; after that, tools/house --pin writes this file.
"""
IN_README = (
    "bc_build::build", "bc_cert::check", "bc_cert_against::check_against", "bc_link::link", "bc_machine::Machine::run",
    "bc_interpret_sources::interpret", "bc_tame_check::tame_rooms", "bc_tame_built::tame_room", "bc_programs::built",
)
# A block of a page: a heading, a row of a table, an item of a list, or a paragraph.
BLOCKS = re.compile(r"\n(?=#|\||[-*] )|\n\n")
# A complaint names at most so many laws and contracts.
MOST = 8


def name_of(contract):
    """A contract's name: the crate, the file, the type if it is a method, and the function."""
    return "::".join(part for part in (contract.crate, contract.file, contract.owner, contract.name) if part)


def is_meant(contract, parts):
    """Whether the parts of a name after the crate mean this contract: by its own name, its type's, or of a law its module's."""
    path = name_of(contract).split("::")[1:]
    if parts[-1] != path[-1]:
        is_law = re.match(r"pub fn \w+(<.*>)?\(\)$", contract.signature[0])
        path = path[:-1] if contract.owner and contract.is_public or is_law else [""]
    rest = iter(path)
    return parts[-1] == path[-1] and all(part in rest for part in parts)


def meant_in(name, known):
    """The contracts that a name means where these crates are named."""
    parts = name.split("::")
    if len(parts) > 1 and parts[0] in crates():
        known, parts = {parts[0]}, parts[1:]
    return {contract for crate in known for contract in contracts_of(crate) if is_meant(contract, parts)}


def cited():
    """The contracts that are cited, each with the pages, or the section of PROVED, that cite it."""
    found, heading, known = {}, "", set()
    for block in BLOCKS.split(read(PROVED)):
        here = {word for word in re.findall(r"\w+", block) if word in crates()}
        if block.startswith("#"):
            heading, known = block.lstrip("# "), here
        for name in re.findall(r"`(\w+(?:::\w+)*)`", block):
            contracts = meant_in(name, known | here)
            if not contracts and "::" in name and name.split("::")[0] in crates():
                raise Unreadable(f"{PROVED} cites {name}, and there is no such law or contract")
            for contract in contracts:
                found.setdefault(contract, set()).add(f"{PROVED}, '{heading}'")
    for name in IN_README:
        if not meant_in(name, ()):
            raise Unreadable(f"{README} speaks of {name}, and there is no such law or contract")
        for contract in meant_in(name, ()):
            found.setdefault(contract, set()).add(README)
    return found


def digest(lines):
    """The digest of some lines, whatever their order and blanks are."""
    return hashlib.sha256("\n".join(sorted(" ".join(line.split()) for line in lines)).encode()).hexdigest()[:16]


def digests_of(contract):
    """The digests of a contract's statement and of what is below it."""
    statement = [*contract.signature, *(line for clause in contract.clauses.values() for line in clause)]
    units, library = reached_from(units_of_contract(contract) | types_in(contract.scope, " ".join(contract.signature)))
    below = [" ".join([unit.crate, unit.file, unit.kind, *unit.lines]) for unit in units]
    return digest([" ".join(statement)]), digest(below + [".".join(name) for name in library])


def read_pins():
    """The digests that are pinned, by name."""
    lines = [line.split() for line in read(PINS).splitlines() if line and not line.startswith("#")]
    return {name: (statement, below) for statement, below, name in lines}


def naming(name):
    """The pages that still have the last part of a name in backticks."""
    return [page for page in (README, PROVED) if re.search(rf"`(?:\w+::)*{name.split('::')[-1]}`", read(page))]


def write_pins():
    """Pins what is cited today, and returns how much that is. What is gone and still named stays pinned, so that it stays a fault."""
    pins = {name_of(contract): digests_of(contract) for contract in cited()}
    pins.update({name: pin for name, pin in read_pins().items() if name not in pins and naming(name)})
    with open(os.path.join(TOP, PINS), "w", encoding="utf-8") as file:
        file.write(HEAD + "".join(f"{statement} {below} {name}\n" for name, (statement, below) in sorted(pins.items())))
    return len(pins)


def listed(names):
    """Some names, and how many others there are."""
    names = sorted(names)
    return ", ".join(names[:MOST]) + (f" and {len(names) - MOST} others" if len(names) > MOST else "")


def faults_of_pins():
    """What is cited and gone, what changed since it was pinned, with what to read again, and what isn't pinned."""
    pins, changed, below = read_pins(), {}, {}
    found = {name_of(contract): (digests_of(contract), pages) for contract, pages in cited().items()}
    for name in sorted(pins.keys() - found.keys()):
        pages = " and ".join(naming(name)) or PROVED
        yield f"{name} is gone or no longer cited: read {pages} again, then run tools/house --pin"
    for name, (digests, pages) in found.items():
        pinned = pins.get(name, digests)
        for page in pages if pinned != digests else ():
            (changed if pinned[0] != digests[0] else below).setdefault(page, set()).add(name)
    for what, names_of in (("changed", changed), ("rest on definitions or types that changed", below)):
        for page, names in sorted(names_of.items()):
            yield f"{page}: read it again, since {listed(names)} {what}; then run tools/house --pin"
    if found.keys() - pins.keys():
        yield f"{PINS} hasn't {listed(found.keys() - pins.keys())}, which {PROVED} cites: run tools/house --pin"
