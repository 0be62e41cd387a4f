#!/usr/bin/env python3
"""The processor time of the gate, by crate and by what it is spent on.

usage: gate.py [NAME..]
       gate.py --run WORD..

Runs `rt ci` at the top of this tree, from nothing where the kit can (`--anew`): the whole of it, or these crates and
those below them. With --run it runs this command in its place, as `--run rt must-fail NAME` or `--run bin/edits NAME`.
What the command prints goes to standard error. Then a table goes to standard output, in processor seconds, with the sum
in processor-minutes:

    proof        the crate is proved, and built
    tests        the crate is proved again, with its tests
    once more    the crate is proved for its edits, and once they were tried it is looked at again
    edits        the crate is checked with each edit

Four times a second the processor time of each process below the command is read from /proc. Its --crate-name names the
crate; --test, the folder that it works in and the place of its kept work name the kind. What is none of these, or ended
before it was seen, is `other`, so that the sum is what the system counted. The status is the command's own. What else
the machine does makes the figures larger: run it with nothing beside it.
"""
import os
import re
import resource
import subprocess
import sys
import time
from collections import defaultdict

TOP = os.path.dirname(os.path.dirname(os.path.abspath(__file__)))
KINDS = ("proof", "tests", "once more", "edits")
TICKS = os.sysconf("SC_CLK_TCK")
PAUSE = 0.25


def crates():
    """The crates' names, lowest first."""
    with open(f"{TOP}/crates.txt") as lines:
        return [line.split(":")[0].split()[0] for line in lines if line.strip() and not line.startswith("#")]


def processes():
    """The processes: for each number its parent, when it began, and its processor time in seconds."""
    found = {}
    for name in os.listdir("/proc"):
        if name.isdigit():
            try:
                with open(f"/proc/{name}/stat", errors="replace") as stat:
                    fields = stat.read().rpartition(")")[2].split()
            except OSError:
                continue  # it has ended
            found[int(name)] = int(fields[1]), fields[19], (int(fields[11]) + int(fields[12])) / TICKS
    return found


def is_below(found, number, top):
    """Whether a process descends from another."""
    while number in found and number != top:
        number = found[number][0]
    return number == top


def place_of(number):
    """The crate that a process works on and the kind of its work, if it works on one."""
    try:
        with open(f"/proc/{number}/cmdline", "rb") as line:
            words = line.read().decode(errors="replace").split("\0")
        folder = os.readlink(f"/proc/{number}/cwd")
    except OSError:
        return None
    if "--crate-name" not in words[:-1]:
        return None
    crate = words[words.index("--crate-name") + 1]
    if os.path.basename(folder).startswith("rt-edit-"):
        over = words[words.index("--incremental") + 1] if "--incremental" in words[:-1] else ""
        return crate, "once more" if re.search(r"/seed$", over) else "edits"
    return crate, "tests" if "--test" in words else "proof"


def measured(words):
    """Runs a command: its status, the seconds by crate and kind, and all its processor seconds."""
    command = subprocess.Popen(words, cwd=TOP, stdin=subprocess.DEVNULL, stdout=sys.stderr)
    places, spent = {}, {}
    while command.poll() is None:
        found = processes()
        for number, (_, begun, seconds) in found.items():
            if is_below(found, number, command.pid):
                key = number, begun
                places[key] = places.get(key) or place_of(number)
                spent[key] = seconds
        time.sleep(PAUSE)
    sums = defaultdict(float)
    for key, seconds in spent.items():
        if places[key]:
            sums[places[key]] += seconds
    use = resource.getrusage(resource.RUSAGE_CHILDREN)
    return command.returncode, sums, use.ru_utime + use.ru_stime


def print_table(sums, whole):
    """Prints the seconds of each crate, and the sums."""
    line = "%-18s" + "%11s" * (len(KINDS) + 1)
    print(line % ("crate", *KINDS, "sum"))
    for crate in [*crates(), *sorted({crate for crate, _ in sums} - {*crates()})]:
        seconds = [sums[crate, kind] for kind in KINDS]
        if any(seconds):
            print(line % (crate, *("%.0f" % it for it in [*seconds, sum(seconds)])))
    seconds = [sum(it for (_, of), it in sums.items() if of == kind) for kind in KINDS]
    print(line % ("all", *("%.0f" % it for it in [*seconds, sum(seconds)])))
    print(line % (("other",) + ("",) * len(KINDS) + ("%.0f" % (whole - sum(seconds)),)))
    print("%.1f processor-minutes" % (whole / 60))


def main(words):
    if words[:1] == ["--run"] and words[1:]:
        command = words[1:]
    elif {*words} - {*crates()}:
        print(__doc__, end="", file=sys.stderr)
        return 2
    else:
        told = subprocess.run(["rt", "help"], stdout=subprocess.PIPE, stderr=subprocess.STDOUT).stdout
        command = ["rt", "ci", *["--anew"] * (b"--anew" in told), *words]
    status, sums, whole = measured(command)
    print_table(sums, whole)
    return status


if __name__ == "__main__":
    sys.exit(main(sys.argv[1:]))
