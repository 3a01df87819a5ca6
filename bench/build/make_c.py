#!/usr/bin/env python3
"""make_c.py TOKENS: the routines that make_program.py TOKENS makes, in C."""
import sys

from make_program import routines

ROUTINE = """
int ROUTINE{n}(int A, int B)
{{ int SUM = 0, COUNT = {n};
   int V[11];
   static int T[] = {{1, 2, 3}};
   for (int I = 0; I <= 10; I++) V[I] = (I * A + COUNT) % (B * B + 1);
   while (COUNT > 0)
   {{ SUM = SUM + V[COUNT % 10] * (A - COUNT) / (1 + (B & 7));
      if ((SUM & 1) == 0 || COUNT > 100)
         COUNT = COUNT - 3;
      else COUNT = (COUNT >> 1) - (A > B ? 1 : 2);
      if (!(SUM < 0 && COUNT == 0)) SUM = SUM ^ COUNT;
   }}
   switch (SUM & 3)
   {{ case 0: V[1] = {call}; break;
      case 1: V[2] = V[3]; V[3] = V[2];
      case 2: WRITEF("\\n%d %d\\n", SUM, T[SUM & 1]); break;
      default: SUM = SUM + V[5];
   }}
   return SUM + V[1];
}}
"""


def main():
    count = len(routines(int(sys.argv[1])))
    print("int WRITEF(const char *, ...);\nint WRITEN(int);")
    for n in range(count):
        print(ROUTINE.format(n=n, call=f"ROUTINE{n - 1}(A + 1, B)" if n else "A"), end="")
    print(f"\nint START(void) {{ return WRITEN(ROUTINE{count - 1}(3, 4)); }}")


main()
