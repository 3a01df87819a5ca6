"""A model of the rule table, for values without calls, tests and VALOF.

An expression is a tuple: ("N", 5) a number, ("P", 2) the address of the frame's cell 2, ("!", e) the content of the cell e, ("-", e), ("NOT", e), or
(op, a, b) with an op of NUMBERS. `rules` is docs/rules.md, rule by rule; all expressions are free, since none has a call.
A NOT of a relation never comes to the table, since the compiler takes the opposite relation before; the model knows nothing of this.
"""
ANY, PUSH = "Any", "Push"
NUMBERS = {"*": 5, "/": 6, "REM": 7, "+": 8, "-": 9, "=": 10, "NE": 11, "<": 12, ">=": 13, ">": 14, "<=": 15, "<<": 16, ">>": 17,
           "&": 18, "|": 19, "NEQV": 20, "EQV": 21}
MIRROR = {"+": "+", "*": "*", "=": "=", "NE": "NE", "&": "&", "|": "|", "EQV": "EQV", "NEQV": "NEQV", "<": ">", ">": "<", "<=": ">=", ">=": "<="}


def direct(e):
    """What an instruction takes without I, or None."""
    if e[0] == "N":
        return str(e[1])
    if e[0] == "P":
        return f"P{e[1]}"
    if e[0] == "+" and {e[1][0], e[2][0]} == {"P", "N"}:
        return f"P{(e[1][1] + e[2][1]) & 65535}"
    return None


def operand(e):
    """What an instruction takes, or None where the expression is no operand."""
    if e[0] == "!":
        inner = direct(e[1])
        return inner and "I" + inner
    return direct(e)


def words(code):
    """An instruction takes two words where its number is over 511."""
    return sum(2 if int(item.lstrip("LSAXIP")) > 511 else 1 for item in code)


def rules(e, mode, level):
    """The rules that apply to e in this mode, each with its code, in the order of their numbers."""
    if mode == ANY:
        yield "V0", least(e, PUSH, level)
    if mode == PUSH and operand(e):
        yield "V1", ["L" + operand(e)]
    if len(e) == 2 and e[0] in ("!", "-", "NOT"):
        inner = least(e[1], mode, level)
        if inner is not None:
            yield {"!": "V2", "-": "V3", "NOT": "V4"}[e[0]], inner + [{"!": "X1", "-": "X2", "NOT": "X3"}[e[0]]]
    if len(e) == 3:
        for name, code in dyadic(e[0], e[1], e[2], mode, level):
            if code is not None:
                yield name, code


def after(code, *more):
    """The code with more items after it, or None where there is no such code."""
    return None if code is None else code + list(more)


def dyadic(op, a, b, mode, level):
    s = level + 1
    if op == "+" and operand(b):
        yield "V6", after(least(a, mode, s), "A" + operand(b))
    if op == "+" and operand(a):
        yield "V7", after(least(b, mode, s), "A" + operand(a))
    if op in ("+", "-") and b == ("N", 0):
        yield "V8", least(a, mode, s)
    if op == "+" and a == ("N", 0) and b != ("N", 0):
        yield "V8", least(b, mode, s)
    if op == "-" and b[0] == "N":
        yield "V9", after(least(a, mode, s), f"A{-b[1] & 65535}")
    if op == "-" and operand(b):
        yield "V10", after(least(a, mode, s), "X2", "A" + operand(b), "X2")
    if op == "-" and operand(a):
        yield "V11", after(least(b, mode, s), "X2", "A" + operand(a))
    if mode == ANY:
        yield from held(op, a, b, level, s)


def held(op, a, b, level, s):
    """V12 to V19, which need both values in registers or wait for one in the frame."""
    hold, wait = f"SP{level}", f"IP{level}"
    x = f"X{NUMBERS[op]}"
    left, right = least(a, ANY, s), least(b, ANY, s)
    if least(b, PUSH, s) is not None:
        yield "V12", left + least(b, PUSH, s) + [x]
    if op in MIRROR and least(a, PUSH, s) is not None:
        yield "V13", right + least(a, PUSH, s) + [f"X{NUMBERS[MIRROR[op]]}"]
    if op == "-" and least(a, PUSH, s) is not None:
        yield "V14", right + least(a, PUSH, s) + ["X9", "X2"]
    if op in MIRROR:
        yield "V15", left + [hold] + right + ["L" + wait, f"X{NUMBERS[MIRROR[op]]}"]
    yield "V16", right + [hold] + left + ["L" + wait, x]
    yield "V17", left + [hold] + right + [f"SP{level + 1}", "L" + wait, f"LIP{level + 1}", x]
    if op == "+":
        yield "V18", left + [hold] + right + ["A" + wait]
    if op == "-":
        yield "V19", left + [hold] + right + ["X2", "A" + wait]


def least(e, mode, level):
    """The shortest code of e in this mode, the first of several; None where there is none."""
    codes = [code for _, code in rules(e, mode, level) if code is not None]
    return min(codes, key=words) if codes else None
