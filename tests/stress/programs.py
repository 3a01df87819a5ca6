"""The sources of the random tests: random programs, each of which ends soon, and some divide by zero or meet a wild cell; and the sources of the repository."""
import functools
import glob
import os
import random
import re

from trying import TOP, read

PLACES = ["examples/**/*.bcpl", "library/**/*", "tests/**/*.bcpl", "tests/old/*.new", "porting/**/*.bcpl", "docs/**/*.bcpl", "bench/**/*.bcpl"]
TOKEN = re.compile(rb'//[^\n]*|\|\|[^\n]*|/\*.*?\*/|"(?:\*.|[^"*\n])*"|\'(?:\*.|[^\'*\n])*\'|\$[()][A-Za-z0-9.]*|[A-Za-z][A-Za-z0-9.]*'
                   rb"|#X[0-9A-Fa-f]+|#[0-7]+|[0-9]+|:=|~=|<=|>=|<<|>>|->|/\\|\\/|[^\s]", re.S)

DYADIC = ["+", "-", "*", "/", "REM", "&", "|", "EQV", "NEQV", "<<", ">>", "=", "NE", "<", ">", "<=", ">="]


class Writer:
    """Writes one program."""

    def __init__(self, number):
        self.random = random.Random(number)
        self.loops = 0

    def number(self):
        return self.random.choice(["0", "1", "2", "3", "7", "255", "32767", "-1", "TRUE", "FALSE", "'A'", str(self.random.randrange(65536))])

    def address(self, depth):
        """An address that mostly is a cell."""
        return self.random.choice([f"V!{self.random.randrange(6)}", f"V!(({self.expression(depth - 1)}) & 3)", "P!1", "!P"])

    def expression(self, depth):
        pick = self.random.randrange(14 if depth > 0 else 3)
        if pick == 0:
            return self.number()
        if pick <= 2:
            return self.random.choice(["A", "B", "C", "SV", "GL", "A", "B"])
        if pick <= 7:
            return f"({self.expression(depth - 1)}) {self.random.choice(DYADIC)} ({self.expression(depth - 1)})"
        if pick == 8:
            return f"{self.random.choice(['-', 'NOT '])}({self.expression(depth - 1)})"
        if pick == 9:
            return f"({self.expression(depth - 1)} -> {self.expression(depth - 1)}, {self.expression(depth - 1)})"
        if pick == 10:
            return self.address(depth)
        if pick == 11:
            return f"F({self.expression(depth - 1)}, {self.expression(depth - 1)})"
        if pick == 12:
            return f"G({self.expression(depth - 1)})"
        return f"VALOF $( IF {self.expression(depth - 1)} DO RESULTIS {self.expression(depth - 1)}; RESULTIS {self.expression(depth - 1)} $)"

    def command(self, depth):
        pick = self.random.randrange(16 if depth > 0 else 4)
        test = lambda: self.expression(2)
        if pick <= 1:
            return f"{self.random.choice(['A', 'B', 'C', 'SV', 'GL'])} := {self.expression(3)}"
        if pick == 2:
            return f"{self.address(2)} := {self.expression(2)}"
        if pick == 3:
            return f"WRITEF(\"%N %N*N\", {self.expression(2)}, {self.expression(1)})"
        if pick == 4:
            return f"IF {test()} DO {self.block(depth - 1)}"
        if pick == 5:
            return f"TEST {test()} THEN {self.block(depth - 1)} OR {self.block(depth - 1)}"
        if pick <= 7:
            self.loops += 1
            loop = self.loops
            leave = self.random.choice(["", f"; IF {test()} DO BREAK", f"; IF {test()} DO LOOP"])
            step = self.random.choice(["", " BY 2", " BY -1"])
            return f"FOR I{loop} = {self.random.randrange(4)} TO {self.random.randrange(6)}{step} DO $( {self.command(depth - 1)}{leave} $)"
        if pick == 8:
            cases = "; ".join(f"CASE {case}: {self.command(depth - 1)}; {self.random.choice(['ENDCASE', 'A := A + 1'])}" for case in self.random.sample(range(4), 2))
            return f"SWITCHON ({self.expression(2)}) & 3 INTO $( {cases}; DEFAULT: {self.command(depth - 1)} $)"
        if pick == 9:
            return f"$( LET C = {self.expression(2)}; {self.command(depth - 1)} $)"
        if pick == 10:
            return f"$( LET D, E = {self.expression(1)}, {self.expression(1)}; {self.command(depth - 1)}; D := E; B := D $)"
        if pick == 11:
            return f"$( LET W = VEC 3; W!0, W!1 := {self.expression(1)}, {self.expression(1)}; P := W; {self.command(depth - 1)}; P := V $)"
        if pick == 12:
            return f"H({self.expression(2)})"
        if pick == 13:
            self.loops += 1
            loop = self.loops
            body = self.command(depth - 1)
            return f"$( LET N{loop} = 0; $( N{loop} := N{loop} + 1; {body} $) REPEATUNTIL N{loop} > {self.random.randrange(4)} $)"
        if pick == 14:
            return f"A, B := {self.expression(2)}, {self.expression(2)}"
        return f"{self.address(1)} := {self.expression(3)}"

    def block(self, depth):
        return "$( " + "; ".join(self.command(depth) for _ in range(self.random.randrange(1, 3))) + " $)"

    def program(self):
        body = "\n   ".join(self.command(3) for _ in range(self.random.randrange(3, 7)))
        unset = self.random.choice(["", "", "", "A := U!0\n   "])
        return f"""GET "LIBHDR"
GLOBAL $( F: 100; G: 101; GL: 102; H: 103 $)
STATIC $( SV = {self.random.randrange(10)} $)

LET F(A, B) = A > B -> A - B, (A & 7) + GL
LET G(A) = VALOF $( GL := GL + A; RESULTIS GL REM 7 $)
LET H(A) BE $( SV := SV NEQV A; IF A < 0 DO RETURN; WRITEN(A); NEWLINE() $)
LET START() BE
$( LET A, B, C = {self.number()}, {self.number()}, {self.number()}
   LET V = VEC 5
   LET P = V
   LET U = VEC 1
   GL := 2
   FOR I = 0 TO 5 DO V!I := I
   {unset}{body}
   WRITEF("*N%N %N %N %N*N", A, B, C, GL) $)
"""


@functools.lru_cache(maxsize=None)
def at_hand():
    """The sources of the repository, and the programs that its pages show."""
    paths = {path for place in PLACES for path in glob.glob(os.path.join(TOP, place), recursive=True) if os.path.isfile(path)}
    texts = [read(path) for path in sorted(paths)]
    for path in sorted(glob.glob(os.path.join(TOP, "docs", "**", "*.md"), recursive=True)):
        page = read(path)
        texts += [block for block in re.findall(rb"^```\w*\n(.*?)^```", page, re.S | re.M) if b"START" in block]
        shown = [re.sub(rb"^    ", b"", block, flags=re.M) for block in re.findall(rb"(?:^    .*\n|^\n)+", page, re.M)]
        texts += [block for block in shown if b"START" in block]
    return texts
