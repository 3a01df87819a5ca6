#!/usr/bin/env python3
"""make_names.py KIND TOKENS: a BCPL section of about so many tokens that is hard for scopes. Kinds: constants (many names of one scope, each
used once), routines (many routines, each with a block), blocks (many blocks with a VALOF after many names), nested (190 routines one
within another with the same number of parameters each), one (the same parameters of one routine), scopes (190 blocks one within another
with a LET each), lets (the same LETs in one block), let (the same variables of one LET), tiny (routines of one parameter each, below thousands of globals)."""
import sys

DEPTH = 190


def constants(tokens):
    names = tokens // 8
    yield "MANIFEST $( " + "; ".join(f"NAME{k}={k}" for k in range(names)) + " $)"
    yield "LET F(A) BE $("
    for k in range(names):
        yield f"A := NAME{k * 7 % names}"
    yield "$)"


def routines(tokens):
    for k in range(tokens // 18):
        yield f"LET F{k}(A) BE $( LET B = A; A := B $)"


def blocks(tokens):
    names = tokens // 20
    yield "MANIFEST $( " + "; ".join(f"NAME{k}={k}" for k in range(names)) + " $)"
    yield "LET F(A) BE $("
    for k in range(names):
        yield f"$( LET B = NAME{k}; A := VALOF RESULTIS B $)"
    yield "$)"


def parameters_of_routines(tokens):
    return [[f"N{k}X{i}" for i in range(tokens // (2 * DEPTH) - 3)] for k in range(DEPTH)]


def nested(tokens):
    for k, names in enumerate(parameters_of_routines(tokens)):
        yield f"LET G{k}(" + ",".join(names) + ") BE $("
    yield f"N{DEPTH - 1}X0 := N{DEPTH - 1}X1"
    yield "$)" * DEPTH


def one(tokens):
    names = [name for names in parameters_of_routines(tokens) for name in names]
    yield "LET G(" + ",".join(names) + f") BE N{DEPTH - 1}X0 := N{DEPTH - 1}X1"


def variables_of_blocks(tokens):
    return [[f"N{k}X{i}" for i in range(tokens // (4 * DEPTH) - 1)] for k in range(DEPTH)]


def variables(names):
    return "LET " + ",".join(names) + " = " + ",".join("0" for _ in names)


def scopes(tokens):
    yield "LET G(A) BE $("
    for names in variables_of_blocks(tokens):
        yield f"$( {variables(names)}"
    yield f"N{DEPTH - 1}X0 := N{DEPTH - 1}X1"
    yield "$)" * DEPTH + " $)"


def lets(tokens):
    yield "LET G(A) BE $("
    for names in variables_of_blocks(tokens):
        yield variables(names)
    yield f"N{DEPTH - 1}X0 := N{DEPTH - 1}X1"
    yield "$)"


def let(tokens):
    yield "LET G(A) BE $("
    yield variables([name for names in variables_of_blocks(tokens) for name in names])
    yield f"N{DEPTH - 1}X0 := N{DEPTH - 1}X1"
    yield "$)"


def tiny(tokens):
    names = tokens // 20
    yield "GLOBAL $( " + "; ".join(f"NAME{k}:{k % 512}" for k in range(names)) + " $)"
    for k in range((tokens - 4 * names) // 9 - 1):
        yield f"LET F{k}(A) BE A := NAME{k * 7 % names}"


def main():
    kinds = (constants, routines, blocks, nested, one, scopes, lets, let, tiny)
    kind = next(kind for kind in kinds if kind.__name__ == sys.argv[1])
    for line in kind(int(sys.argv[2])):
        print(line)


main()
