#!/usr/bin/env python3
"""An interpreter of INTCODE: machine.py run --steps N [--in NAME=PATH].. [--to NAME=PATH].. TEXT.."""
import os
import sys

KIBVORG = os.environ.get("KIBVORG") or os.path.dirname(os.path.dirname(os.path.dirname(os.path.dirname(os.path.abspath(__file__)))))
sys.dont_write_bytecode = True
sys.path.insert(0, os.path.join(KIBVORG, "porting", "python"))
import intcode  # noqa: E402

G = 8


class Machine(intcode.Machine):
    def step(self):
        """Carries out one instruction."""
        word = self.fetch()
        raise intcode.Ended("BadInstruction")       # instead: the operand D, and then what the function says

    def execute(self, D):
        """The operation D of X. One that doesn't exist raises intcode.Ended('BadInstruction'), X22 intcode.Ended('Finished')."""
        raise intcode.Ended("BadInstruction")


if __name__ == "__main__":
    intcode.Machine = Machine
    sys.exit(intcode.main())
