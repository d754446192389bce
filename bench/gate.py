"""Runs `rt ci` with its output in a file, looks every half second at the checks below it, and adds up what they took."""

import os
import re
import subprocess
import sys
import time
from collections import defaultdict

TICKS = os.sysconf("SC_CLK_TCK")


def children():
    """The running processes, each with its parent."""
    found = {}
    for name in os.listdir("/proc"):
        if name.isdigit():
            try:
                with open(f"/proc/{name}/stat", encoding="utf-8", errors="replace") as stat:
                    fields = stat.read().rpartition(")")[2].split()
            except OSError:
                continue
            found[int(name)] = int(fields[1]), fields[19], int(fields[11]) + int(fields[12])
    return found


def kind_of(pid):
    """The crate that a process checks, and whether it proves the crate, its tests or an edit of it."""
    try:
        with open(f"/proc/{pid}/cmdline", encoding="utf-8", errors="replace") as line:
            words = line.read().split("\0")
        place = os.readlink(f"/proc/{pid}/cwd")
    except OSError:
        return None
    if "--crate-name" not in words:
        return None
    crate = words[words.index("--crate-name") + 1]
    if re.search(r"/rt-edits?-", place) or any("/rt-edits-" in word for word in words):
        return crate, "edits"
    return crate, "tests" if "--test" in words else "proof"


def below(found, root):
    """The processes below one."""
    kids = defaultdict(list)
    for pid, (parent, _, _) in found.items():
        kids[parent].append(pid)
    todo, inside = [root], []
    while todo:
        for pid in kids[todo.pop()]:
            inside.append(pid)
            todo.append(pid)
    return inside


def table(spent):
    """Prints a line for each crate, the dearest first, and one for all."""
    crates = defaultdict(lambda: defaultdict(float))
    for (crate, kind), seconds in spent.items():
        crates[crate][kind] += seconds
    print(f"{'crate':<16}{'proof':>8}{'tests':>8}{'edits':>8}   processor seconds")
    for crate in sorted(crates, key=lambda it: -sum(crates[it].values())):
        row = crates[crate]
        print(f"{crate:<16}{row['proof']:>8.0f}{row['tests']:>8.0f}{row['edits']:>8.0f}")
    sums = [sum(row[kind] for row in crates.values()) for kind in ("proof", "tests", "edits")]
    print(f"{'all':<16}{sums[0]:>8.0f}{sums[1]:>8.0f}{sums[2]:>8.0f}")


def main():
    started, last = time.time(), {}
    with open(sys.argv[1], "w", encoding="utf-8") as log:
        gate = subprocess.Popen(["rt", "ci"], stdin=subprocess.DEVNULL, stdout=log, stderr=log)
        while gate.poll() is None:
            found = children()
            for pid in below(found, gate.pid):
                kind = kind_of(pid)
                if kind:
                    last[pid, found[pid][1]] = kind, found[pid][2] / TICKS
            time.sleep(0.5)
    spent = defaultdict(float)
    for kind, seconds in last.values():
        spent[kind] += seconds
    table(spent)
    with open(sys.argv[1], encoding="utf-8", errors="replace") as log:
        print(log.read().rstrip().split("\n")[-1])
    print(f"in {time.time() - started:.0f} seconds, status {gate.returncode}")
    sys.exit(gate.returncode)


if __name__ == "__main__":
    main()
