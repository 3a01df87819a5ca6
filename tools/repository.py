"""What the scripts of this folder share: the crates, what they cost, the installed kit, what a build is doing, and the module that is kept."""
import hashlib
import os
import re
import subprocess

TOP = os.path.dirname(os.path.dirname(os.path.abspath(__file__)))
TIMES = os.path.join(TOP, "docs", "times.txt")
KINDS = ("proof", "tests", "edits")


def crates():
    """The crates of crates.txt in its order, each with those of the repository that it uses."""
    uses = {}
    with open(os.path.join(TOP, "crates.txt"), encoding="utf-8") as lines:
        for line in lines:
            line = line.partition("#")[0]
            if ":" in line:
                name, _, used = line.partition(":")
                uses[name.split()[0]] = used.split()
    return {name: [one for one in used if one in uses] for name, used in uses.items()}


def below(wanted, uses):
    """These crates and those on which they depend, each after those that it uses."""
    order = []

    def put(name):
        if name not in order:
            for used in uses[name]:
                put(used)
            order.append(name)

    for name in wanted:
        put(name)
    return order


def read_times():
    """What docs/times.txt has: for each crate the minutes of each kind of work, None if there are none."""
    times = {}
    if os.path.exists(TIMES):
        with open(TIMES, encoding="utf-8") as lines:
            for line in lines:
                words = line.partition("#")[0].split()
                if words:
                    numbers = [None if word == "-" else float(word) for word in words[1:]]
                    times[words[0]] = dict(zip(KINDS, numbers + [None] * len(KINDS)))
    return times


def kit():
    """The kit's line; None if no kit is installed."""
    try:
        done = subprocess.run(["rt", "version"], check=True, stdout=subprocess.PIPE, stderr=subprocess.DEVNULL, text=True)
        return done.stdout.strip()
    except (OSError, subprocess.CalledProcessError):
        return None


def processes_of(root):
    """A process and all its descendants: for each its processor seconds, with those of what it waited for, and
    its crate, if its command line names one."""
    tick = os.sysconf("SC_CLK_TCK")
    fields, children = {}, {}
    for name in os.listdir("/proc"):
        if name.isdigit():
            try:
                with open(f"/proc/{name}/stat", encoding="utf-8", errors="replace") as file:
                    fields[int(name)] = file.read().rpartition(")")[2].split()
            except OSError:
                continue
            children.setdefault(int(fields[int(name)][1]), []).append(int(name))
    found, left = {}, [root]
    while left:
        pid = left.pop()
        if pid in fields:
            left += children.get(pid, [])
            found[pid] = sum(map(int, fields[pid][11:15])) / tick, crate_of(pid)
    return found


def crate_of(pid):
    """The crate at which a process works. A quick pass over the sources, which proves nothing, has none."""
    try:
        with open(f"/proc/{pid}/cmdline", "rb") as file:
            words = file.read()
    except OSError:
        return None
    found = re.search(rb"\0--crate-name\0(\w+)\0", words)
    return found[1].decode() if found and b"\0--lib\0" not in words else None


def kept_module():
    """Where this machine keeps the LLVM module of the program of these sources and this kit, which the gate puts there. It need not exist."""
    sources = subprocess.run([os.path.join(TOP, "tools", "sources"), "bcpl"], check=True, stdout=subprocess.PIPE, text=True).stdout.strip()
    name = hashlib.sha256(f"{sources} {kit()}".encode()).hexdigest()
    folder = os.environ.get("XDG_CACHE_HOME") or os.path.join(os.path.expanduser("~"), ".cache")
    return os.path.join(folder, "kibvorg", f"module-{name}.bc")
