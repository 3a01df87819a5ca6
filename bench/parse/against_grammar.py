#!/usr/bin/env python3
"""Compares the parser with the grammar, by another way of reading it.

    against_grammar.py PROGRAM [SEED [COUNT]]

PROGRAM parses a source from standard input (bench/parse/run.sh builds it). COUNT (1,000) programs are derived from the grammar
at random, each within the bounds, and so must be accepted. Then each has one token taken away, put in or exchanged, and the parser
must accept it or name the token at which Earley's algorithm finds that no section continues.

One thing differs on purpose: the parser takes the longest expression and the longest command at each place and never goes back. So
it refuses `F(VALOF G(), 1)`, where the grammar could end the VALOF at the comma, and `IF A !B := 1`, where it could end the test at
the `!`. Here TABLE and VALOF come only after a parenthesis, a VALOF before a block, and a body without DO begins with no
sign that continues an expression. The grammar below is that of docs/language.md.
"""
import random
import re
import subprocess
import sys
from concurrent.futures import ThreadPoolExecutor

# One rule a line; alternatives are separated by " / ". A word in lower case is a rule, all else a token; "" is nothing.
# N is a name, K another operand. E1 to E12 is what may be where that level is required, L1 to L12 is of that level.
GRAMMAR = """
section -> decl_last / decl_more section / "" / sep section
decl_last -> decl
decl_more -> decl sep
sep -> ; / nl
decl -> storage $( constants $) / LET definitions
storage -> MANIFEST / STATIC / GLOBAL
constants -> "" / constant / constant sep constants / sep constants
constant -> N const_sign E2
const_sign -> = / :
definitions -> definition / definition AND definitions
definition -> variables / N = VEC E2 / N ( parameters ) = E1 / N ( parameters ) BE body
variables -> N = E1 / N , variables , E1
parameters -> "" / names
names -> N / N , names
block -> $( places $)
places -> "" / decl / decl sep places / sep places / item / item sep items
items -> "" / item / item sep items / sep items
item -> command / label item / label
label -> CASE E2 : / DEFAULT : / N :
body -> block / command
do -> body / DO body / nl body / nl DO body
command -> repeated / tested E1 do / TEST E1 do ELSE body / for / SWITCHON E1 INTO $( items $)
tested -> IF / UNLESS / WHILE / UNTIL
for -> FOR N = E1 TO E1 do / FOR N = E1 TO E1 BY E2 do
repeated -> simple / repeated REPEAT / repeated REPEATWHILE E1 / repeated REPEATUNTIL E1
simple -> assignment / call / block / BREAK / LOOP / ENDCASE / RETURN / FINISH / RESULTIS E1 / GOTO N
assignment -> E1 := E1 / E1 , assignment , E1
call -> L12 ( arguments ) / ( call )
arguments -> "" / list
list -> E1 / E1 , list
constant_list -> E2 / E2 , constant_list
monadic -> NOT E6 / - E9 / ! E10 / @ E10
L1 -> L2 / L2 -> E1 , E1
L2 -> L3 / L2 EQV E3 / L2 NEQV E3
L3 -> L4 / L3 | E4
L4 -> L5 / L4 & E5
L5 -> L6 / NOT E6
L6 -> L7 / L6 << E7 / L6 >> E7
L7 -> L8 / L8 relation E8
relation -> = / ~= / < / > / <= / >=
L8 -> L9 / L8 + E9 / L8 - E9 / - E9
L9 -> L10 / L9 * E10 / L9 / E10 / L9 REM E10
L10 -> L11 / ! E10 / @ E10
L11 -> L12 / L11 ! E12
L12 -> operand / L12 ( arguments )
operand -> N / K / ( E1 ) / TABLE constant_list / VALOF body
"""
SPELLINGS = {"N": ["A", "B", "XY"], "K": ["1", "'A'", '"abc"', "TRUE"], "DO": ["DO", "THEN"], "ELSE": ["ELSE", "OR"]}


def rules_of(text):
    rules = {}
    for line in text.strip().splitlines():
        name, right = line.split(" -> ", 1)
        rules[name] = [[] if it == '""' else it.split() for it in re.split(r" / (?=\S)(?!E10)", right)]
    for level in range(1, 13):
        rules[f"E{level}"] = [[f"L{level}"], ["monadic"]]
    return rules


RULES = rules_of(GRAMMAR)
TOKENS = sorted({it for alternatives in RULES.values() for one in alternatives for it in one if it not in RULES} - {"nl"})
ENDERS = {"N", "K", ")", "$)", "BREAK", "LOOP", "ENDCASE", "RETURN", "FINISH", "REPEAT"}
BEGINNERS = set("N K ( ! $( IF UNLESS TEST WHILE UNTIL FOR SWITCHON CASE DEFAULT BREAK LOOP ENDCASE RETURN FINISH RESULTIS GOTO "
                "LET MANIFEST STATIC GLOBAL".split())


def least_depths():
    """How deep the shallowest derivation of each rule is."""
    depths = {}
    while True:
        before = dict(depths)
        for name, alternatives in RULES.items():
            known = [max([depths[it] for it in one if it in RULES], default=0) + 1
                     for one in alternatives if all(it in depths or it not in RULES for it in one)]
            if known:
                depths[name] = min(known)
        if depths == before:
            return depths


DEPTHS = least_depths()


def derive(chance, name, depth):
    """A random derivation; beyond the depth the shallowest."""
    if name not in RULES:
        return [name]
    alternatives = RULES[name]
    if depth <= 0:
        cost = lambda one: max([DEPTHS[it] for it in one if it in RULES], default=0)
        least = min(map(cost, alternatives))
        alternatives = [one for one in alternatives if cost(one) == least]
    one = chance.choice(alternatives)
    if one[:1] in (["TABLE"], ["VALOF"]):
        one = ["(", one[0], {"body": "block"}.get(one[1], one[1]), ")"]
    return [token for it in one for token in derive(chance, it, depth - 1)]


def settle(tokens):
    """A derived list with `nl` only where a line break gives it; else a semicolon is there, or nothing."""
    settled = []
    for at, token in enumerate(tokens):
        if token == "nl":
            behind = tokens[at + 1] if at + 1 < len(tokens) else ""
            if not (settled and settled[-1] in ENDERS and behind in BEGINNERS):
                if settled and settled[-1] == "nl" or behind == "DO":
                    continue
                token = ";"
        settled.append(token)
    return settled


def is_closed(tokens):
    depth = 0
    for token in tokens:
        depth += (token == "$(") - (token == "$)")
        if depth < 0:
            return False
    return depth == 0


def is_open(name, one, token):
    """Whether a rule's alternative may begin with this token: a body without DO not with a sign that continues the expression before."""
    return not (name == "do" and one == ["body"] and token in ("!", "-", "("))


def first_wrong(tokens):
    """The place of the first token at which no section continues, or None for a section."""
    sets = [{("section", tuple(one), 0, 0) for one in RULES["section"]}]
    for at in range(len(tokens) + 1):
        here, todo, done = sets[at], list(sets[at]), set()
        while todo:
            name, right, dot, start = item = todo.pop()
            new = []
            if dot < len(right) and right[dot] in RULES:
                token = tokens[at] if at < len(tokens) else ""
                new = [(right[dot], tuple(one), 0, at) for one in RULES[right[dot]] if is_open(right[dot], one, token)]
                if (right[dot], at) in done:
                    new.append((name, right, dot + 1, start))
            elif dot == len(right):
                if start == at:
                    done.add((name, at))
                new = [(n, r, d + 1, s) for n, r, d, s in list(sets[start]) if d < len(r) and r[d] == name]
            for it in new:
                if it not in here:
                    here.add(it)
                    todo.append(it)
        if at == len(tokens):
            return None if any(n == "section" and d == len(r) and s == 0 for n, r, d, s in here) else at
        after = {(n, r, d + 1, s) for n, r, d, s in here if d < len(r) and r[d] == tokens[at]}
        if not after:
            return at
        sets.append(after)


def written(chance, tokens):
    """The text of a list, and the index among the written tokens of each part."""
    text, places, count = "", [], 0
    for token in tokens:
        places.append(count)
        if token == "nl":
            text += "\n"
        else:
            text += chance.choice(SPELLINGS.get(token, [token])) + " "
            count += 1
    return text, places + [count]


def changed(chance, tokens):
    """One token less, more or another; line breaks stay where they are and mean what they meant."""
    tokens = list(tokens)
    at = chance.randrange(len(tokens) + 1)
    way = chance.randrange(3)
    if way == 0:
        tokens.insert(at, chance.choice(TOKENS))
    elif tokens and at < len(tokens) and way == 1:
        del tokens[at]
    elif tokens and at < len(tokens):
        tokens[at] = chance.choice(TOKENS)
    return tokens


def is_without_choice(tokens):
    """Whether each TABLE and VALOF is where the head of this file says."""
    return all(tokens[at - 1 : at] == ["("] and (token == "TABLE" or tokens[at + 1 : at + 2] == ["$("])
               for at, token in enumerate(tokens) if token in ("TABLE", "VALOF"))


def breaks_stand(tokens):
    """Whether each `nl` is one that a line break gives."""
    return all(token != "nl" or 0 < at < len(tokens) - 1 and tokens[at - 1] in ENDERS and tokens[at + 1] in BEGINNERS
               for at, token in enumerate(tokens))


def answer(program, text):
    """None where the program accepts the text, else the token that it names."""
    ran = subprocess.run([program], input=text.encode(), stdout=subprocess.PIPE, stderr=subprocess.PIPE)
    if ran.returncode == 0:
        return None
    said = re.search(rb"another token is wanted at token (\d+)", ran.stderr)
    return int(said.group(1)) if said else ran.stderr.decode()


def main():
    program = sys.argv[1]
    chance = random.Random(int(sys.argv[2]) if len(sys.argv) > 2 else 1)
    cases = []
    while len(cases) < (int(sys.argv[3]) if len(sys.argv) > 3 else 1000):
        tokens = settle(derive(chance, "section", chance.randrange(8, 26)))
        if 3 < len(tokens) < 80 and breaks_stand(tokens) and is_closed(tokens):
            cases.append(tokens)
            other = changed(chance, tokens)
            if is_closed(other) and breaks_stand(other) and is_without_choice(other):
                cases.append(other)
    texts = [written(chance, it) for it in cases]
    with ThreadPoolExecutor() as pool:
        answers = list(pool.map(lambda it: answer(program, it[0]), texts))
    refused = unequal = 0
    for tokens, (text, places), given in zip(cases, texts, answers):
        wrong = first_wrong(tokens)
        wanted = None if wrong is None else places[wrong]
        refused += wanted is not None
        if given != wanted:
            unequal += 1
            if unequal < 6:
                print(f"--- {text}\n    by the grammar {wanted}, by the parser {given}")
    print(f"{len(cases)} programs, {refused} of them no section by the grammar: {unequal} answered otherwise")
    return unequal > 0


if __name__ == "__main__":
    sys.exit(main())
