#!/usr/bin/env python3
"""make_program.py TOKENS: a BCPL section of about so many tokens that compiles: routines with declarations, loops, switches, calls,
strings, tables and VALOFs, each of which calls the ones before it."""
import re
import sys

ROUTINE = """
LET ROUTINE{n}(A, B) = VALOF
$( LET SUM, COUNT = 0, {n}
   LET V = VEC 10
   FOR I = 0 TO 10 DO V!I := (I * A + COUNT) REM (B * B + 1)
   WHILE COUNT > 0 DO
   $( SUM := SUM + V!(COUNT REM 10) * (A - COUNT) / (1 + (B & 7))
      TEST (SUM & 1) = 0 | COUNT > 100
      THEN COUNT := COUNT - 3
      ELSE COUNT := (COUNT >> 1) - (A > B -> 1, 2)
      IF NOT (SUM < 0 & COUNT = 0) DO SUM := SUM NEQV COUNT
   $)
   SWITCHON SUM & 3 INTO
   $( CASE 0: V!1 := {call}; ENDCASE
      CASE 1: V!2, V!3 := V!3, V!2
      CASE 2: WRITEF("*S%N %N*N", SUM, (TABLE 1, 2, 3)!(SUM & 1)); ENDCASE
      DEFAULT: SUM := VALOF RESULTIS SUM + V!5
   $)
   RESULTIS SUM + V!1
$)
"""


def routines(wanted):
    """The routines of a program of about so many tokens."""
    made, tokens = [], 60
    while True:
        n = len(made)
        routine = ROUTINE.format(n=n, call=f"ROUTINE{n - 1}(A + 1, B)" if n else "A")
        tokens += len(re.findall(r'"[^"]*"|[A-Z][A-Z0-9.]*|\d+|:=|>>|->|\$\(|\$\)|\S', routine))
        if tokens > wanted:
            return made
        made.append(routine)


def main():
    made = routines(int(sys.argv[1]))
    print('GET "LIBHDR"\n' + "".join(made) + f"\nLET START() BE WRITEN(ROUTINE{len(made) - 1}(3, 4))")


if __name__ == "__main__":
    main()
