"""Judges a segment that was written by hand: it must do what the compiler's does, in as many words or fewer."""
import os

from lab import bcpl

STEPS = "1000000"


def compiled(lab, name):
    """The text of a source of the lab."""
    text = lab.scratch(name + ".int")
    bcpl("build", "--no-warnings", "--out", text, os.path.join(lab.ours, name + ".bcpl"))
    return text


def segments_of(path):
    """The segments of a text, as `show` and `build` write it."""
    with open(path, encoding="latin-1") as file:
        return file.read().split("Z\n")


def words_of(driver, segment):
    """How many words a segment adds to the driver, or None and the refusal."""
    status, out, err = bcpl("asm", driver, segment)
    alone = len(bcpl("asm", driver)[1].split())
    return (None, err.strip()) if status else (len(out.split()) - alone, "")


def judge(lab, fewer):
    """Expects hand.int to print what routines.bcpl does through the driver, in no more words; or in fewer."""
    driver = compiled(lab, "driver")
    theirs = lab.scratch("theirs.int")
    with open(theirs, "w", encoding="latin-1") as file:
        file.write(segments_of(compiled(lab, "routines"))[1] + "Z\n")
    mine = lab.path("hand.int")
    count, fault = words_of(driver, mine)
    if not lab.expect(count is not None, f"hand.int is refused: {fault}"):
        return
    wanted = bcpl("run", "--steps", STEPS, driver, theirs)[1].splitlines()
    status, out, err = bcpl("run", "--steps", STEPS, driver, mine)
    got = out.splitlines()
    for number, line in enumerate(wanted):
        have = got[number] if number < len(got) else f"nothing, since the run ended: {err.strip()}"
        if not lab.expect(have == line, f"the driver should print `{line}`, and prints `{have}`"):
            return
    lab.expect(status == 0, err.strip())
    most = words_of(driver, theirs)[0]
    lab.expect(count < most if fewer else count <= most, f"hand.int has {count} words, and the compiler's code {most}")
    print(f"{lab.name}: {count} words by hand, {most} by the compiler")
