"""The kit's own library of commands, with two changes for proofs of many crates at once: a crate's run locks only that crate, and the digest
of a crate's sources is computed once. Without them runs of independent crates wait for each other.

tools/quick, mix, kept, prove and alone use it, and with it parts of the kit that the kit doesn't document."""
import importlib.util
import os
import re
import shutil
import subprocess
import sys
import types

KIT = os.path.dirname(os.path.dirname(os.path.realpath(shutil.which("rt"))))
LOCK = "crate.held = lock([*crate.below(), crate])"
STAMP = "    def stamp(self):\n"


def changed():
    """The text of the kit's library with the changes."""
    with open(f"{KIT}/bin/rtlib.py", encoding="utf-8") as file:
        text = file.read()
    if LOCK not in text or STAMP not in text:
        sys.exit("the kit's rtlib.py isn't as expected: read it, and change kit.py")
    text = re.sub(r"^KIT = .*$", f"KIT = {KIT!r}", text, count=1, flags=re.M)
    text = text.replace(LOCK, "crate.held = lock([crate])")
    once = (
        "    def stamp(self):\n        if not hasattr(self, 'kept_stamp'):\n            self.kept_stamp = self.new_stamp()\n"
        "        return self.kept_stamp\n\n    def new_stamp(self):\n"
    )
    return text.replace(STAMP, once, 1)


def load():
    """Returns the changed library as a module."""
    module = types.ModuleType("rtlib")
    module.__file__ = f"{KIT}/bin/rtlib.py"
    sys.modules["rtlib"] = module
    exec(compile(changed(), module.__file__, "exec"), module.__dict__)
    return module


def prepared(folder):
    """Writes the kit's command with the changed library into a folder. Returns the command."""
    os.makedirs(folder, exist_ok=True)
    shutil.copy(f"{KIT}/bin/rt", f"{folder}/rt")
    with open(f"{folder}/rtlib.py", "w", encoding="utf-8") as file:
        file.write(changed())
    return f"{folder}/rt"
