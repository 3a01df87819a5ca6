"""Folders that --project reads and writes: of any size, edited by hand in between, and after a kill at any moment.

tests/old/check runs this with the rest; `python3 tests/old/folders.py` runs it alone. BCPL names the program.
"""
import hashlib
import os
import shutil
import signal
import subprocess
import sys
import tempfile
import time

TOP = os.path.dirname(os.path.dirname(os.path.dirname(os.path.abspath(__file__))))
PROGRAM = os.path.abspath(os.environ.get("BCPL", os.path.join(TOP, "bcpl")))
NOBODY = 65534

MAIN = 'get "libhdr"\nlet start() be writes("main*n")\n'
OTHER = 'get "libhdr"\nlet start() be writes("other*n")\n'
WRONG = 'get "libhdr"\nlet start() be nowhere(1)\n'
FILES = {"main.b": MAIN, "other.b": OTHER, "third.b": OTHER.replace("other", "third")}
faults = []


def want(holds, what):
    """Notes a fault."""
    if not holds:
        faults.append(what)


def call(words, folder, **how):
    """The status of a command, what it prints, and what it reports."""
    done = subprocess.run([PROGRAM, *words], cwd=folder, stdin=subprocess.DEVNULL, capture_output=True, timeout=600, check=False, **how)
    return done.returncode, done.stdout.decode(), done.stderr.decode()


def convert(folder, *words, **how):
    """Converts the folder `old` to `new`."""
    return call(["convert", "--project", "--out", "new", *words, "old"], folder, **how)


def write(folder, files):
    """Writes files to a folder, which is made."""
    os.makedirs(folder, exist_ok=True)
    for name, text in files.items():
        with open(os.path.join(folder, name), "w", encoding="latin-1") as file:
            file.write(text)


def read(*path):
    """The content of a file, or None if there is none."""
    try:
        with open(os.path.join(*path), encoding="latin-1") as file:
            return file.read()
    except FileNotFoundError:
        return None


def all_in(folder):
    """The files in a folder, with their contents and who may run them."""
    return {name: (read(folder, name), os.stat(os.path.join(folder, name)).st_mode & 0o777) for name in os.listdir(folder)}


def name_of_length(number, length):
    """A name with a number, of this length or, for a short one, a little more."""
    return str(number).ljust(length, "n")[: max(length, len(str(number)))]


def many(folder):
    """10,000 files with names of 1 to 255 bytes, hidden ones and folders among them, in the old folder and in the new one."""
    sources = {name_of_length(number, length) + ".b": MAIN for number, length in [(1, 1), (2, 100), (3, 200), (4, 251), (5, 253)]}
    write(os.path.join(folder, "old"), sources)
    os.makedirs(os.path.join(folder, "new"))
    for place in ("old", "new"):
        for number in range(10_000):
            name = name_of_length(number, 1 + number % 255)
            name = "." + name[: 254] if number % 7 == 0 else name
            if number % 11 == 0:
                os.makedirs(os.path.join(folder, place, name), exist_ok=True)
            else:
                write(os.path.join(folder, place), {name: "data\n"})
    write(os.path.join(folder, "new"), {"REPORT.md": "# Conversion report\n"})
    status, printed, said = convert(folder)
    want(status == 1 and "ok new: files 5, programs that build 5 of 5" in printed, f"10,000 files: {status}, {printed!r}, {said[:300]!r}")
    want("REPORT.md was edited by hand" in said, "a report without a digest stays")
    for name in sources:
        want("WRITES" in (read(folder, "new", name) or ""), f"10,000 files: {name[:9]}.. with {len(name)} bytes isn't converted")
    report = read(folder, "new", "REPORT.md.new") or ""
    want(report.count("isn't taken for a source") > 8_000, "10,000 files: the report doesn't list the others")
    want(not [name for name in os.listdir(os.path.join(folder, "new")) if "unfinished" in name], "10,000 files: an unfinished one is left")


def unreadable(folder):
    """Where a folder can't be read, the line says why, also in a pipe; with --places never only the first line is there."""
    os.makedirs(folder)
    want(convert(folder)[2] == "bcpl: file old\nold: No such file or directory (os error 2)\n", f"a missing folder: {convert(folder)}")
    want(convert(folder, "--places", "never")[2] == "bcpl: file old\n", "a missing folder with --places never")
    if os.geteuid() != 0:
        return
    shutil.copy(PROGRAM, os.path.join(folder, "bcpl"))
    write(os.path.join(folder, "old"), FILES)
    for path, mode in (("", 0o777), ("bcpl", 0o755), ("old", 0o300)):
        os.chmod(os.path.join(folder, path), mode)
    words = ["./bcpl", "convert", "--project", "--out", "new", "old"]
    done = subprocess.run(words, cwd=folder, stdin=subprocess.DEVNULL, capture_output=True, check=False, user=NOBODY, group=NOBODY, extra_groups=[])
    said = done.stderr.decode()
    want(said == "bcpl: file old\nold: Permission denied (os error 13)\n", f"a folder that may not be read: {said!r}")


def script(folder):
    """The script goes on after a program that doesn't build, and says at its end which."""
    write(os.path.join(folder, "old"), {"a.b": MAIN, "it's.b": WRONG, "c.b": OTHER, "d.b": WRONG, "z.b": MAIN})
    convert(folder)
    done = subprocess.run(["new/build.sh"], cwd=folder, env={**os.environ, "BCPL": PROGRAM}, capture_output=True, timeout=120, check=False)
    built = sorted(name for name in os.listdir(os.path.join(folder, "new")) if name.endswith(".int"))
    want(built == ["a.int", "c.int", "z.int"], f"the script built {built}")
    want(done.returncode == 1 and done.stderr.decode().split("\n")[-2] == "build.sh: not built: d.int it's.int", f"the script: {done.returncode}, {done.stderr!r}")
    os.remove(os.path.join(folder, "new", "d.b"))
    done = subprocess.run(["sh", "build.sh"], cwd=os.path.join(folder, "new"), env={**os.environ, "BCPL": "/nowhere"}, capture_output=True, timeout=120, check=False)
    want(done.returncode == 1, f"the script without a compiler: {done.returncode}")


def edited(folder):
    """What was edited by hand isn't lost by a second conversion."""
    new = os.path.join(folder, "new")
    write(os.path.join(folder, "old"), FILES)
    want(convert(folder)[0] == 0, "a conversion")
    first = all_in(new)
    listed = read(new, ".bcpl-convert").split("\n")
    want(all(f"{hashlib.sha256(text.encode('latin-1')).hexdigest()}  {name}" in listed for name, (text, _) in first.items() if name != ".bcpl-convert"), "the digests")
    want(convert(folder) == (0, *convert(folder)[1:]) and all_in(new) == first, "a second conversion changes nothing")

    write(new, {"main.b": first["main.b"][0] + "// by hand\n", "build.sh": "# by hand\n"})
    write(os.path.join(folder, "old"), {"main.b": MAIN.replace("main", "new"), "third.b": OTHER})
    status, _, said = convert(folder)
    want(status == 1 and said.startswith("bcpl: convert 1 ByHand 2\n"), f"an edited file: {status}, {said!r}")
    line = "main.b was edited by hand, and stays; the new text is in main.b.new\n"
    want(line in said and line in read(new, "REPORT.md") and "build.sh was edited" in said, f"an edited file is named: {said!r}")
    want(read(new, "main.b").endswith("// by hand\n") and read(new, "build.sh") == "# by hand\n", "edited files stay")
    want('"new*n"' in read(new, "main.b.new") and '"other*n"' in read(new, "third.b"), "the new texts are there")

    write(os.path.join(folder, "old"), {"main.b": MAIN.replace("main", "newer")})
    want(convert(folder)[0] == 1 and '"newer*n"' in read(new, "main.b.new"), "NAME.new is replaced if it wasn't edited")
    write(new, {"main.b.new": "// by hand too\n"})
    said = convert(folder)[2]
    want("main.b was edited by hand, and stays; the new text isn't written over the edited main.b.new\n" in said, f"an edited NAME.new: {said!r}")
    want(read(new, "main.b.new") == "// by hand too\n", "an edited NAME.new stays")

    write(new, {"main.b.old": "// kept before\n"})
    status, _, said = convert(folder, "--overwrite")
    want(status == 1 and said.startswith("bcpl: file new/main.b.old\n"), f"an existing NAME.old is refused: {said!r}")
    want(read(new, "main.b.old") == "// kept before\n" and read(new, "build.sh") == "# by hand\n", "and nothing is written")
    os.remove(os.path.join(new, "main.b.old"))
    status, _, said = convert(folder, "--overwrite")
    want(status == 0 and read(new, "main.b.old").endswith("// by hand\n"), f"--overwrite keeps the old file: {said!r}")
    want('"newer*n"' in read(new, "main.b") and read(new, "build.sh") == first["build.sh"][0], "--overwrite writes the new text")
    want(os.access(os.path.join(new, "build.sh"), os.X_OK), "the script can be run")
    want(read(new, "main.b.new") == "// by hand too\n", "--overwrite leaves an edited NAME.new")

    write(os.path.join(folder, "old"), {"other.b.new": OTHER})
    write(new, {"other.b": "// by hand\n"})
    status, _, said = convert(folder)
    want(status == 1 and said.startswith("bcpl: file new/other.b.new\n"), f"a source with the name that is needed: {said!r}")


def before_lists(folder):
    """In a folder of an earlier version, which has no digests, files with another text than the new one stay."""
    write(os.path.join(folder, "old"), FILES)
    convert(folder)
    os.remove(os.path.join(folder, "new", ".bcpl-convert"))
    want(convert(folder)[0] == 1, "reports without digests stay")
    os.remove(os.path.join(folder, "new", ".bcpl-convert"))
    write(os.path.join(folder, "new"), {"main.b": "// by hand\n"})
    status, _, said = convert(folder)
    want(status == 1 and "main.b was edited" in said and "other.b was edited" not in said, f"a folder without digests: {said!r}")
    shutil.rmtree(os.path.join(folder, "new"))
    write(os.path.join(folder, "new"), {"notes": "mine\n"})
    status, _, said = convert(folder)
    want(status == 1 and said.startswith("bcpl: file new\nnew: this folder has files that no conversion wrote"), f"another folder: {said!r}")


def made(folder):
    """--out-dir makes its folder, unless the conversion is refused."""
    write(folder, {"one.b": MAIN, "two.b": "let start() be $( )\n"})
    want(call(["convert", "--out-dir", "deep/new", "one.b"], folder)[0] == 0 and "WRITES" in (read(folder, "deep/new/one.b") or ""), "--out-dir makes its folder")
    call(["convert", "--out-dir", "none", "missing.b"], folder)
    want(not os.path.exists(os.path.join(folder, "none")), "a refused conversion makes no folder")
    status, _, said = call(["convert", "--out-dir", "one.b/new", "one.b"], folder)
    want(status == 1 and said == "bcpl: file one.b/new\n", f"a folder that can't be made: {said!r}")


def prepared(folder, stage):
    """A folder before a conversion: a first one, a second one over edited files, and one with --overwrite."""
    shutil.rmtree(folder, ignore_errors=True)
    write(os.path.join(folder, "old"), {**FILES, "long.b": MAIN + "// a comment that fills a buffer\n" * 1000})
    if stage:
        convert(folder)
        write(os.path.join(folder, "new"), {"main.b": "// by hand\n", "REPORT.md": "mine\n", "build.sh": "mine\n"})
        write(os.path.join(folder, "old"), {"main.b": OTHER, "other.b": MAIN})
    return ["--overwrite"] if stage == 2 else []


def is_repeated(folder, words, whole):
    """Whether a conversion after one that was killed ends as an undisturbed one."""
    first = all_in(os.path.join(folder, "new")) if os.path.exists(os.path.join(folder, "new")) else {}
    status, printed, said = convert(folder, *words)
    if (status, printed, said, all_in(os.path.join(folder, "new"))) == whole:
        return True
    got = all_in(os.path.join(folder, "new"))
    differ = sorted(name for name in {*got, *whole[3]} if got.get(name) != whole[3].get(name))
    print(f"after the kill {sorted(first)}; then {status}, {said!r}; {differ} differ", file=sys.stderr)
    return False


def killed_at_calls(folder, library, words, stage, whole):
    """Kills the conversion at each call that changes a file. Returns at how many."""
    for number in range(1, 1000):
        prepared(folder, stage)
        status = convert(folder, *words, env={**os.environ, "LD_PRELOAD": library, "KILL_CALL": str(number)})[0]
        if status != -signal.SIGKILL:
            return number - 1
        want(is_repeated(folder, words, whole), f"stage {stage}: killed at call {number}, and repeated")
    return 1000


def killed_in_time(folder, words, stage, whole):
    """Kills the conversion after longer and longer times."""
    begun = time.monotonic()
    prepared(folder, stage)
    convert(folder, *words)
    step = (time.monotonic() - begun) / 12
    for number in range(12):
        prepared(folder, stage)
        with subprocess.Popen([PROGRAM, "convert", "--project", "--out", "new", *words, "old"], cwd=folder, stdin=subprocess.DEVNULL, stdout=subprocess.DEVNULL, stderr=subprocess.DEVNULL) as running:
            time.sleep(step * number)
            running.kill()
        want(is_repeated(folder, words, whole), f"stage {stage}: killed after {step * number:.4f} s, and repeated")


def killed(folder):
    """A conversion that was killed at any moment can be repeated, and ends as an undisturbed one."""
    os.makedirs(folder)
    library = os.path.join(folder, "devices.so")
    work = os.path.join(folder, "work")
    if shutil.which("cc"):
        source = os.path.join(TOP, "tests", "stress", "preload", "devices.c")
        subprocess.run(["cc", "-O1", "-shared", "-fPIC", "-o", library, source], check=True)
    for stage in (0, 1, 2):
        words = prepared(work, stage)
        status, printed, said = convert(work, *words)
        whole = (status, printed, said, all_in(os.path.join(work, "new")))
        want(not [name for name in whole[3] if "unfinished" in name], f"stage {stage}: an unfinished file is left")
        if os.path.exists(library):
            count = killed_at_calls(work, library, words, stage, whole)
            want(20 < count < 1000, f"stage {stage}: {count} calls change files")
        killed_in_time(work, words, stage, whole)


def faults_in(folder):
    """What is wrong."""
    for number, test in enumerate((many, unreadable, script, edited, before_lists, made, killed)):
        test(os.path.join(folder, str(number)))
    return faults


if __name__ == "__main__":
    with tempfile.TemporaryDirectory() as work_folder:
        os.chmod(work_folder, 0o755)
        found = faults_in(work_folder)
    for fault in found:
        print(f"folders: {fault}", file=sys.stderr)
    print(f"folders: {len(found)} not as expected" if found else "folders: passed")
    sys.exit(1 if found else 0)
