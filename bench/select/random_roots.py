#!/usr/bin/env python3
"""random_roots.py BCPL SEED COUNT: builds random expressions, tests and assignments, and compares each line of their certificate with a slow search:
of each node all derivations by the rule table (docs/rules.md) are made, with the code of each, and nothing is shared with the compiler's way
to the least words. Prints how many roots and nodes agreed."""
import random
import subprocess
import sys
import tempfile

MOST = 20000
MIRROR = {"+": "+", "*": "*", "=": "=", "NE": "NE", "&": "&", "|": "|", "EQV": "EQV", "NEQV": "NEQV", "<": ">", ">": "<", "<=": ">=", ">=": "<="}
OPERATORS = ["*", "/", "REM", "+", "-", "=", "NE", "<", ">=", ">", "<=", "<<", ">>", "&", "|", "NEQV", "EQV"]
FUNCTION = {operator: 5 + number for number, operator in enumerate(OPERATORS)}


class Node:
    """A node of a tree as the certificate has it: what it is, its number or operator, its parts and its level."""

    def __init__(self, kind, value, parts, level):
        self.kind, self.value, self.parts, self.level = kind, value, parts, level
        self.calls = kind in "KV" or any(part.calls for part in parts)
        self.found = {}


def direct(e):
    """The operand that an address or a number is, as it is written after an instruction's letter."""
    if e.kind == "N":
        return f"{e.value}"
    if e.kind in "PGL":
        return f"{e.kind}{e.value}"
    if e.kind == "X" and e.value == "+":
        for cell, number in (e.parts, reversed(e.parts)):
            if cell.kind in "PG" and number.kind == "N":
                return f"{cell.kind}{(cell.value + number.value) % 65536}"
    return None


def operand(e):
    if e.kind == "!" and direct(e.parts[0]) is not None:
        return "I" + direct(e.parts[0])
    return direct(e)


def free(a, b):
    return not (a.calls or b.calls) or direct(a) is not None or direct(b) is not None


def is_zero(e):
    return e.kind == "N" and e.value == 0


# A derivation is its rule, its parts with their aims, and its code: words, labels of its own by ("own", k), the target "t", and parts by number.


def single(e, mode):
    """The rules for one part in the node's own mode."""
    part = e.parts[0]
    yield {"!": "V2", "M": "V3", "~": "V4"}[e.kind], [(part, mode)], [0, {"!": "X1", "M": "X2", "~": "X3"}[e.kind]]


def added(e, mode):
    a, b = e.parts
    if e.value == "+":
        if operand(b) is not None:
            yield "V6", [(a, mode)], [0, "A" + operand(b)]
        if operand(a) is not None and free(a, b):
            yield "V7", [(b, mode)], [0, "A" + operand(a)]
    if e.value in "+-" and (is_zero(b) or (e.value == "+" and is_zero(a))):
        yield "V8", [(a if is_zero(b) else b, mode)], [0]
    if e.value == "-":
        if b.kind == "N":
            yield "V9", [(a, mode)], [0, f"A{-b.value % 65536}"]
        if operand(b) is not None:
            yield "V10", [(a, mode)], [0, "X2", "A" + operand(b), "X2"]
        if operand(a) is not None and free(a, b):
            yield "V11", [(b, mode)], [0, "X2", "A" + operand(a)]


def held(e):
    a, b = e.parts
    s, x = e.level, f"X{FUNCTION[e.value]}"
    mirror = f"X{FUNCTION[MIRROR[e.value]]}" if e.value in MIRROR else None
    yield "V12", [(a, "any"), (b, "push")], [0, 1, x]
    if mirror and free(a, b):
        yield "V13", [(b, "any"), (a, "push")], [0, 1, mirror]
    if e.value == "-" and free(a, b):
        yield "V14", [(b, "any"), (a, "push")], [0, 1, "X9", "X2"]
    if mirror:
        yield "V15", [(a, "any"), (b, "any")], [0, f"SP{s}", 1, f"LIP{s}", mirror]
    if free(a, b):
        yield "V16", [(b, "any"), (a, "any")], [0, f"SP{s}", 1, f"LIP{s}", x]
    yield "V17", [(a, "any"), (b, "any")], [0, f"SP{s}", 1, f"SP{s + 1}", f"LIP{s}", f"LIP{s + 1}", x]
    if e.value == "+":
        yield "V18", [(a, "any"), (b, "any")], [0, f"SP{s}", 1, f"AIP{s}"]
    if e.value == "-":
        yield "V19", [(a, "any"), (b, "any")], [0, f"SP{s}", 1, "X2", f"AIP{s}"]


def values(e, mode):
    if mode == "push" and operand(e) is not None:
        yield "V1", [], ["L" + operand(e)]
    if e.kind in "!M~":
        yield from single(e, mode)
    if e.kind == "X":
        yield from added(e, mode)
    if mode == "push":
        return
    yield "V0", [(e, "push")], [0]
    if e.kind == "X":
        yield from held(e)
    if e.kind == "?":
        c, x, y = e.parts
        yield "V20", [(c, "false"), (x, "any"), (y, "any")], [(0, 1), 1, ("J", 2), ("own", 1), 2, ("own", 2)]
        yield "V21", [(c, "true"), (y, "any"), (x, "any")], [(0, 1), 1, ("J", 2), ("own", 1), 2, ("own", 2)]
    if e.kind == "K":
        code = []
        for number in range(len(e.parts) - 1):
            code += [number, f"SP{e.level + 2 + number}"]
        yield "V22", [(part, "any") for part in e.parts], code + [len(e.parts) - 1, f"K{e.level}"]
    if e.kind == "V":
        yield "V22", [], [("body",), ("own", 1)]


def tests(e, aim):
    letter, other = ("F", "true") if aim == "false" else ("T", "false")
    if e.kind == "~":
        yield "J1", [(e.parts[0], other)], [(0, "t")]
        return
    if e.kind == "X" and e.value in "&|":
        both = (e.value == "&") == (aim == "false")
        rule = {("&", "false"): "J2", ("&", "true"): "J3", ("|", "true"): "J4", ("|", "false"): "J5"}[e.value, aim]
        if both:
            yield rule, [(e.parts[0], aim), (e.parts[1], aim)], [(0, "t"), (1, "t")]
        else:
            yield rule, [(e.parts[0], other), (e.parts[1], aim)], [(0, 1), (1, "t"), ("own", 1)]
        return
    yield "J6", [(e, "any")], [0, (letter, "t")]
    if e.kind == "N":
        yield "J7", [], [("J", "t")] if (e.value == 0) == (aim == "false") else []
    if e.kind == "X" and e.value in ("=", "NE") and any(map(is_zero, e.parts)):
        c = e.parts[0] if is_zero(e.parts[1]) else e.parts[1]
        turned = {"F": "T", "T": "F"}[letter] if e.value == "=" else letter
        yield "J8" if e.value == "=" else "J9", [(c, "any")], [0, (turned, "t")]


def assignments(value, address, s):
    if operand(address) is not None:
        yield "A1", [(value, "any")], [0, "S" + operand(address)]
        return
    if free(value, address):
        yield "A2", [(address, "any"), (value, "any")], [0, f"SP{s}", 1, f"SIP{s}"]
    yield "A3", [(value, "any"), (address, "any")], [0, f"SP{s}", 1, f"SP{s + 1}", f"LIP{s}", f"SIP{s + 1}"]


class TooMany(Exception):
    pass


def products(parts):
    lists = [derivations(part, aim) for part, aim in parts]
    found = [()]
    for each in lists:
        found = [chosen + (one,) for chosen in found for one in each]
        if len(found) > MOST:
            raise TooMany
    return found


def derivations(e, aim):
    """All derivations of a node for an aim: a rule's name and its pieces, with those of its parts in place."""
    if aim not in e.found:
        found = []
        for rule, parts, code in values(e, aim) if aim in ("any", "push") else tests(e, aim):
            found += [(rule, chosen, code) for chosen in products(parts)]
            if len(found) > MOST:
                raise TooMany
        e.found[aim] = found
    return e.found[aim]


def write(derivation, target, first, bodies):
    """The code of a derivation, and the next label after its own."""
    rule, chosen, code = derivation
    own = {1: first, 2: first + 1, "t": target}
    after = first + len({piece[1] for piece in code if isinstance(piece, tuple) and piece[0] == "own"})
    out = []
    for piece in code:
        if isinstance(piece, str):
            out.append(piece)
        elif isinstance(piece, int) or isinstance(piece[0], int):
            number, aimed = (piece, "t") if isinstance(piece, int) else piece
            words, after = write(chosen[number], own[aimed], after, bodies)
            out += words
        elif piece[0] == "own":
            out.append(f"{own[piece[1]]}")
        elif piece[0] == "body":
            out.append("?" + bodies.pop(0) if bodies else "?")
        else:
            out.append(f"{piece[0]}L{own[piece[1]]}")
    return out, after


def words(code):
    """Labels and bodies take no word, an instruction one where its number is at most 511 and no label's."""
    total = 0
    for item in code:
        if item[0].isdigit() or item[0] == "?":
            continue
        number = item.lstrip("LSATFJKXIPG")
        total += 2 if len(item) > len(number) + 1 and item[-len(number) - 1] == "L" or int(number) > 511 else 1
    return total


def least(found):
    return min((words(write(one, 1, 1, [])[0]) for one in found), default=None)


def told(words_or_none):
    return "-" if words_or_none is None else str(words_or_none)


def node_of(fields, stack):
    level, form = int(fields[0]), fields[1]
    if form in "!M~?":
        kind, value, count = form, None, 3 if form == "?" else 1
    else:
        kind, value = form[0], int(form[1:])
        count = {"X": 2, "K": value + 1}.get(kind, 0)
        if kind == "X":
            value = OPERATORS[value - 5]
    parts = stack[len(stack) - count:]
    del stack[len(stack) - count:]
    return Node(kind, value, parts, level)


def check_entry(lines, tally):
    head, root, code = lines[0].split(), lines[-2].split(), lines[-1].split()[1:]
    stack, nodes = [], []
    for line in lines[1:-2]:
        fields = line.split()
        node = node_of(fields, stack)
        stack.append(node)
        nodes.append((node, fields[2:6]))
    try:
        for node, stated in nodes:
            found = [told(least(derivations(node, aim))) for aim in ("any", "push", "false", "true")]
            if found != stated:
                return f"a node has {stated}, and the search {found}"
        if root[1][0] == "A":
            found = [(rule, chosen, pieces) for rule, parts, pieces in assignments(stack[0], stack[1], int(root[2])) for chosen in products(parts)]
        else:
            found = derivations(stack[0], {"V": "any", "F": "false", "T": "true"}[root[1]])
        if int(head[5]) != least(found):
            return f"the root has {head[5]}, and the search {least(found)}"
        bodies = [item[1:] for item in code if item[0] == "?"]
        if not any(write(one, int(head[3]), int(head[4]), bodies[:])[0] == code for one in found):
            return "no derivation has this code"
    except TooMany:
        tally["too many"] += 1
        return None
    tally["roots"] += 1
    tally["nodes"] += len(nodes)
    tally["derivations"] += len(found)
    return None


def expression(choose, depth):
    if depth == 0 or choose.random() < 0.15:
        return choose.choice(["A", "B", "C", "D", "X", "S", "0", "1", "7", "511", "512", "65535", "@A", "'C'", "TRUE", "A", "B", "0"])
    kind = choose.random()
    inner = [expression(choose, depth - 1) for _ in range(3)]
    if kind < 0.62:
        return f"({inner[0]} {choose.choice(OPERATORS + ['+', '-', '&', '|', '='])} {inner[1]})"
    if kind < 0.72:
        return f"({choose.choice(['-', 'NOT ', '!'])}{inner[0]})"
    if kind < 0.8:
        return f"({inner[0]}!{inner[1]})"
    if kind < 0.87:
        return f"({inner[0]} -> {inner[1]}, {inner[2]})"
    if kind < 0.96:
        return f"{choose.choice(['F', 'G'])}({', '.join(inner[: choose.randrange(3)])})"
    return f"(VALOF RESULTIS {inner[0]})"


def command(choose):
    depth = choose.choice([1, 2, 2, 3, 3])
    kind, one = choose.random(), expression(choose, depth)
    if kind < 0.5:
        return f"A := {one}"
    if kind < 0.8:
        return f"{choose.choice(['IF', 'UNLESS', 'WHILE'])} {one} DO B := C"
    return f"{choose.choice(['!A', 'A!B', 'A!1', '!F(A)', 'A!(B*C)', 'X', 'S'])} := {one}"


def main():
    program, seed, count = sys.argv[1], int(sys.argv[2]), int(sys.argv[3])
    choose = random.Random(seed)
    tally = {"roots": 0, "nodes": 0, "derivations": 0, "too many": 0}
    differ = 0
    with tempfile.TemporaryDirectory() as folder:
        while tally["roots"] < count:
            commands = "\n".join("  " + command(choose) for _ in range(200))
            with open(f"{folder}/p.bcpl", "w", encoding="utf-8") as file:
                file.write(f"GLOBAL $( X:300; F:301 $)\nSTATIC $( S=5 $)\nLET G(A) = A\nLET H(A, B, C, D) BE $(\n{commands}\n$)\n")
            done = subprocess.run([program, "build", "--out", f"{folder}/p.int", "--cert", f"{folder}/p.cert", f"{folder}/p.bcpl"], capture_output=True, text=True)
            if done.returncode:
                sys.exit(f"not built: {done.stdout}{done.stderr}")
            with open(f"{folder}/p.cert", encoding="utf-8") as file:
                lines = file.read().split("\n")
            entry = []
            for line in lines[1:]:
                entry.append(line)
                if line[:1] == "C":
                    if entry[0].split()[1] == "1":
                        fault = check_entry(entry, tally)
                        if fault:
                            differ += 1
                            print(fault, *entry, sep="\n")
                    entry = []
    print(f"{tally['roots']} roots of {tally['nodes']} nodes with {tally['derivations']} derivations agreed, {differ} differed; {tally['too many']} had more than {MOST} derivations")
    sys.exit(1 if differ else 0)


main()
