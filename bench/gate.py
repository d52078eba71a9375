#!/usr/bin/env python3
"""What the gate costs: processor minutes of each crate, the longest chain, the dearest functions.

    gate.py run LOG -- COMMAND..   runs a command, as `rt ci` or `rt check`, and writes its lines into LOG,
                                   each behind the seconds since the start and the processor seconds of
                                   all its processes so far; then what each crate's work took
    gate.py LOG..                  prints the tables of such logs

A crate's work is its proof, its tests and its edits, by the compiler's process that did it. In a log of
`rt check` a function is charged with the processor time since the line before it, which is exact with
`--jobs 1`; `rt ci` prints a crate's functions at once, so its log says nothing of single functions.
"""

import os
import re
import subprocess
import sys
import threading
import time
from collections import defaultdict

TICKS = os.sysconf("SC_CLK_TCK")
REPOSITORY = os.path.dirname(os.path.dirname(os.path.abspath(__file__)))
PARTS = ("proof", "tests", "edits")


# Watching a command.


def processes():
    """Gives each process with its parent, its start, and its processor seconds: its own, and with its ended children's."""
    found = {}
    for pid in filter(str.isdigit, os.listdir("/proc")):
        try:
            with open(f"/proc/{pid}/stat") as it:
                fields = it.read().rpartition(")")[2].split()
        except OSError:
            continue
        own = sum(map(int, fields[11:13])) / TICKS
        found[int(pid)] = int(fields[1]), fields[19], own, own + sum(map(int, fields[13:15])) / TICKS
    return found


def below(root, found):
    """Gives the processes that `root` started, itself among them."""
    children = defaultdict(list)
    for pid, (parent, *_) in found.items():
        children[parent].append(pid)
    tree, waiting = [], [root]
    while waiting:
        pid = waiting.pop()
        if pid in found:
            tree.append(pid)
        waiting += children[pid]
    return tree


def work_of(pid):
    """Gives the crate and the part of the work that a process does, if it is the compiler at a crate."""
    try:
        with open(f"/proc/{pid}/cmdline", "rb") as it:
            words = it.read().decode(errors="replace").split("\0")
        if "--crate-name" not in words:
            return None
        crate = words[words.index("--crate-name") + 1]
        is_edit = "/rt-edit-" in os.readlink(f"/proc/{pid}/cwd")
    except (OSError, IndexError):
        return None
    return crate, "tests" if "--test" in words else "edits" if is_edit else "proof"


class Watch:
    """The processor time of a command, of which its processes are looked at twice a second."""

    def __init__(self, root):
        self.root, self.total, self.works, self.spent = root, 0.0, {}, {}
        self.is_over = threading.Event()

    def look(self):
        found = processes()
        tree = below(self.root, found)
        # (a child that ended is in its parent's time only once the parent has waited for it)
        self.total = max(self.total, sum(found[pid][3] for pid in tree))
        for pid in tree:
            _, start, own, _ = found[pid]
            process = pid, start
            self.works[process] = self.works.get(process) or work_of(pid)
            self.spent[process] = max(self.spent.get(process, 0.0), own)

    def follow(self):
        while not self.is_over.wait(0.5):
            self.look()

    def parts(self):
        """Gives the seconds of each crate's parts."""
        sums = defaultdict(float)
        for process, work in self.works.items():
            if work:
                sums[work] += self.spent[process]
        return sums


def run(log, command):
    """Runs a command, and gives its status."""
    began = time.monotonic()
    with open(log, "w") as out:
        child = subprocess.Popen(command, stdout=subprocess.PIPE, stderr=subprocess.STDOUT, text=True, errors="replace")
        watch = Watch(child.pid)
        follower = threading.Thread(target=watch.follow)
        follower.start()
        for line in child.stdout:
            watch.look()
            print(f"{time.monotonic() - began:.1f} {watch.total:.1f} {line}", end="", file=out, flush=True)
        watch.look()
        status = child.wait()
        watch.is_over.set()
        follower.join()
        for (crate, part), seconds in sorted(watch.parts().items()):
            print(f"gate: {crate} {part} {seconds:.1f}", file=out)
        print(f"gate: all {time.monotonic() - began:.1f} {watch.total:.1f}", file=out)
    return status


# Reading logs.


class Costs:
    """What logs say: seconds of each crate's parts, seconds of functions, edits that were refused."""

    def __init__(self):
        self.parts, self.functions, self.edits = defaultdict(float), defaultdict(float), defaultdict(int)
        self.proved, self.clock, self.processor = defaultdict(int), 0.0, 0.0

    def read(self, log):
        before = 0.0
        with open(log, errors="replace") as lines:
            for line in lines:
                stamped = re.match(r"(\d+\.\d) (\d+\.\d) (.*)", line)
                processor, text = (float(stamped[2]), stamped[3]) if stamped else (None, line.rstrip("\n"))
                self.line(text, None if processor is None else processor - before)
                before = before if processor is None else processor

    def line(self, text, seconds):
        if found := re.match(r"gate: all (\S+) (\S+)$", text):
            self.clock += float(found[1])
            self.processor += float(found[2])
        elif found := re.match(r"gate: (\w+) (\w+) (\S+)$", text):
            self.parts[found[1], found[2]] += float(found[3])
        elif found := re.match(r"checked (\w+::\S+), \d+ of \d+", text):
            self.functions[found[1]] += seconds or 0.0
        elif found := re.match(r"(?:fn|struct|enum|trait|impl) (\w+)::\S+: proved", text):
            self.proved[found[1]] += 1
        elif found := re.match(r"rt: must-fail (\w+)/\S+: refused", text):
            self.edits[found[1]] += 1

    def crates(self):
        return sorted({crate for crate, _ in self.parts} | set(self.proved) | set(self.edits))


def libraries():
    """Gives the crates that each crate stands on."""
    with open(f"{REPOSITORY}/crates.txt") as it:
        lines = [line.partition("#")[0].partition(":") for line in it]
    names = {name.split()[0] for name, colon, _ in lines if colon}
    return {name.split()[0]: [it for it in below.split() if it in names] for name, colon, below in lines if colon}


def longest_chain(costs):
    """Gives the chain of crates whose proofs take longest, one after another, lowest first."""
    stands_on, chains = libraries(), {}

    def chain(crate):
        if crate not in chains:
            lower = max((chain(it) for it in stands_on[crate]), default=(0.0, []))
            chains[crate] = lower[0] + costs.parts[crate, "proof"], [*lower[1], crate]
        return chains[crate]

    return max(map(chain, stands_on), default=(0.0, []))


def table(costs):
    print("| Crate | Proof | Tests | Edits | All | Items | Edits refused |\n|---|---|---|---|---|---|---|")
    sums = defaultdict(float)
    for crate in costs.crates():
        minutes = [costs.parts[crate, part] / 60 for part in PARTS]
        for part, it in zip(PARTS, minutes):
            sums[part] += it
        cells = " | ".join(f"{it:.1f}" if it else "" for it in (*minutes, sum(minutes)))
        print(f"| {crate} | {cells} | {costs.proved[crate]} | {costs.edits[crate] or ''} |")
    cells = " | ".join(f"{it:.1f}" for it in (*(sums[part] for part in PARTS), sum(sums.values())))
    print(f"| all | {cells} | {sum(costs.proved.values())} | {sum(costs.edits.values())} |")


def main(words):
    if words[:1] == ["run"] and "--" in words[2:3]:
        return run(words[1], words[3:])
    if not words or words[0].startswith("-"):
        print(__doc__, end="")
        return 2
    costs = Costs()
    for log in words:
        costs.read(log)
    print("Processor minutes.\n")
    table(costs)
    seconds, crates = longest_chain(costs)
    if seconds:
        print(f"\nThe longest chain of proofs, {seconds / 60:.1f} minutes: {' '.join(it for it in crates if costs.parts[it, 'proof'])}")
    if costs.processor:
        print(f"\nIn all {costs.processor / 60:.1f} processor minutes, in {costs.clock / 60:.1f} minutes by the clock.")
    dearest = sorted(costs.functions.items(), key=lambda it: -it[1])[:30]
    if dearest:
        print("\nThe dearest functions, in processor seconds:\n")
        for name, seconds in dearest:
            print(f"{seconds:8.1f}  {name}")
    return 0


if __name__ == "__main__":
    sys.exit(main(sys.argv[1:]))
