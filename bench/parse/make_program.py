#!/usr/bin/env python3
"""Writes a program of at most so many tokens: routines with commands and expressions of all kinds.

    make_program.py TOKENS
    make_program.py nested N     one expression within N monadic signs
    make_program.py brackets N   one expression within N round brackets
    make_program.py blocks N     one command within N blocks
    make_program.py loops N      N loops one within another, each in a block, around an expression within 400 round brackets
    make_program.py constants N  N constants one within another, whose values are VALOFs in two round brackets
"""
import sys

ROUTINE = """AND R{n}(A, B) BE
$( LET X, Y = A + B * 3, (A - B - {n}) REM 7
   IF X = Y & NOT A > B DO X := X!Y + R{n}(Y, !X)
   TEST X < 10 THEN $( FOR I = 1 TO 10 DO WRCH('A' + I); LOOP $)
   ELSE WHILE X NE 0 DO X := X - 1
   SWITCHON X -> 1, Y INTO $( CASE 1: WRITES("one"); ENDCASE
      DEFAULT: X := TABLE 1, 2, 3 $)
   $( X := X << 1; Y := VALOF RESULTIS X >> 2 $) REPEATUNTIL X LOGOR Y $)
"""
TOKENS = 135

if sys.argv[1] == "nested":
    print("LET S() BE X := " + "- " * int(sys.argv[2]) + "1")
elif sys.argv[1] == "brackets":
    print("LET S() BE X := " + "(" * int(sys.argv[2]) + "1" + ")" * int(sys.argv[2]))
elif sys.argv[1] == "blocks":
    print("LET S() BE " + "$( " * int(sys.argv[2]) + "A()" + " $)" * int(sys.argv[2]))
elif sys.argv[1] == "loops":
    print("LET S() BE " + "WHILE 1 DO $( " * int(sys.argv[2]) + "X := " + "(" * 400 + "1" + ")" * 400 + " $)" * int(sys.argv[2]))
elif sys.argv[1] == "constants":
    depth = int(sys.argv[2])
    print("LET S() BE " + "$( MANIFEST $( X = ((VALOF " * depth + "A()" + ")) $) $)" * depth)
else:
    print("LET S() BE RETURN")
    for number in range(int(sys.argv[1]) // TOKENS):
        print(ROUTINE.format(n=number), end="")
