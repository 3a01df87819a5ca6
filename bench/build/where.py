#!/usr/bin/env python3
"""where.py CALLGRIND..: where the instructions of a build go, from files that valgrind's callgrind wrote: millions in each part, a column a file.

What a part calls counts for it: memory and copies too. What the program's own crates do themselves, with what they free, is "the rest". The
last line is no part: it has what allocating and freeing memory takes of all."""
import re
import sys

# The parts, by the crate that is called from outside of them all.
PARTS = {
    "lex": ["bc_lex"],
    "parse": ["bc_parse", "bc_parse_defs", "bc_parse_tree"],
    "scope: faults": ["bc_scope_faults"],
    "scope: translation": ["bc_scope_translate"],
    "generate, without select": ["bc_gen"],
    "select": [],
    "link": ["bc_link", "bc_run"],
    "text": ["bc_text"],
    "certificate, without select": ["bc_cert_write"],
    "select for the certificate": [],
}

# The crates around the parts, which pass one's answer to the next.
AROUND = ["bcpl", "bc_build", "bc_scope", "bc_cert"]

# The functions by which a program allocates memory.
MEMORY = ["rattle_alloc", "rattle_realloc", "rattle_dealloc"]


def crate(name):
    found = re.match(r"(bc_\w+|bcpl)::(?!.*Destruct)", name)
    return found.group(1) if found else ""


def edges(path):
    """The whole cost, and the cost of each call from a function into another, with what is below it."""
    names, caller, callee, total, called = {}, "", "", 0, {}

    def name_of(field):
        number, _, name = field.partition(" ")
        if name:
            names[number] = name
        return names[number]

    after_call = False
    with open(path, encoding="utf-8") as file:
        for line in file:
            line = line.rstrip("\n")
            if line.startswith("fn="):
                caller = name_of(line[3:])
            elif line.startswith("cfn="):
                callee = name_of(line[4:])
            elif line.startswith("calls="):
                after_call = True
            elif re.match(r"[-+*0-9]", line):
                cost = int(line.split()[1])
                if after_call:
                    called[caller, callee] = called.get((caller, callee), 0) + cost
                    after_call = False
                else:
                    total += cost
    return total, called


def parts_of(path):
    total, called = edges(path)
    found = dict.fromkeys(PARTS, 0)
    selecting = {"bc_gen": "select", "bc_cert_write": "select for the certificate"}
    memory = 0
    for (caller, callee), cost in called.items():
        above, below = crate(caller), crate(callee)
        if above in AROUND:
            for part, crates in PARTS.items():
                if below in crates:
                    found[part] += cost
        if below == "bc_select" and above in selecting:
            found[selecting[above]] += cost
        if callee in MEMORY:
            memory += cost
    found["generate, without select"] -= found["select"]
    found["certificate, without select"] -= found["select for the certificate"]
    found["the rest"] = total - sum(found.values())
    found["all"] = total
    found["memory, in all of these"] = memory
    return found


def main():
    columns = [parts_of(path) for path in sys.argv[1:]]
    for part in columns[0]:
        counts = " ".join(f"{column[part] / 1e6:8.1f}" for column in columns)
        ratio = f"  {columns[0][part] / columns[1][part]:.2f} times" if len(columns) > 1 and columns[1][part] else ""
        share = f"{100 * columns[0][part] / columns[0]['all']:5.1f} %"
        print(f"{part:38}{counts}  {share}{ratio}")


main()
