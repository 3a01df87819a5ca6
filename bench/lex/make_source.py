"""Prints a source of about as many bytes as the argument says, with fewer than 60,000 tokens to a million bytes."""
import random
import sys

size = int(sys.argv[1])
random.seed(1972)
names = ["COUNT", "X", "READ.LINE", "BUFFER", "I", "NEXT.TOKEN", "V", "OUTPUT.STREAM", "LENGTH", "TABLE.OF.WORDS"]
words = "the next word of this line is told apart from what stands before it".split()


def comment():
    return " ".join(random.choice(words) for _ in range(random.randrange(20, 60)))


lines = []
written = 0
while written < size:
    a, b, c = (random.choice(names) for _ in range(3))
    n = random.randrange(65536)
    line = random.choice([
        f"   IF {a} <= {b} & {c} NE #X{n:X} DO {a}!{b} := {c} - {n}  // {comment()}",
        f"   WRITEF(\"{a} is %N and {b} is %S*N\", {a}, {b}) /* {comment()} */",
        f"AND {a}({b}, {c}) BE $( LET W = VEC {n % 500} ; W!0 := '{a[0]}' $) || {comment()}",
        f"   SWITCHON {a} INTO $( CASE {n}: {b} := {c} >> {n % 16} ; ENDCASE $)  // {comment()}",
        f"// {comment()}",
        f"   UNTIL {a} = ENDSTREAMCH DO {b} := {b} + 1 REM {n | 1}",
    ])
    lines.append(line)
    written += len(line) + 1
print("\n".join(lines))
