"""Renews an expected answer that came from the program itself, and shows what changes, so that somebody reads it before it is kept.

    python3 tests/renewal.py PATH ANSWER    renews the file PATH by what the file ANSWER has
"""
import difflib
import os
import sys


def renew(path, answer):
    """Writes the answer to the file and prints the difference to what was there. Returns whether it changed."""
    old = b""
    if os.path.exists(path):
        with open(path, "rb") as file:
            old = file.read()
    if old == answer:
        return False
    before, after = (text.decode("utf-8", "replace").splitlines() for text in (old, answer))
    name = os.path.relpath(path)
    for line in difflib.unified_diff(before, after, name, f"{name} (now)", lineterm="", n=1):
        print(line, file=sys.stderr)
    with open(path, "wb") as file:
        file.write(answer)
    return True


if __name__ == "__main__":
    with open(sys.argv[2], "rb") as given:
        renew(sys.argv[1], given.read())
