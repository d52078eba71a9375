#!/usr/bin/env python3
"""Times `pengines session` on a few scripts and prints one row each. Run by hand after `rt ci`; no gate reads it.

Usage: bench/session.py [PROGRAM]   (default: crates/pengines/out/pengines)
"""
import os
import subprocess
import sys
import threading
import time

HERE = os.path.dirname(os.path.abspath(__file__))
PROGRAM = sys.argv[1] if len(sys.argv) > 1 else os.path.join(HERE, "..", "crates", "pengines", "out", "pengines")


def run(script):
    """The seconds, the greatest resident memory in MB, the status and the last line of one run."""
    began = time.perf_counter()
    child = subprocess.Popen([PROGRAM, "session"], stdin=subprocess.PIPE, stdout=subprocess.PIPE, stderr=subprocess.PIPE)
    feeder = threading.Thread(target=lambda: (child.stdin.write(script.encode()), child.stdin.close()))
    feeder.start()
    out = child.stdout.read().decode()
    feeder.join()
    _, status, usage = os.wait4(child.pid, 0)
    lines = out.splitlines()
    return time.perf_counter() - began, usage.ru_maxrss / 1024, os.waitstatus_to_exitcode(status), lines[-1] if lines else ""


def best(script, times=5):
    runs = [run(script) for _ in range(times)]
    return min(runs, key=lambda r: r[0])


def row(name, script, note=""):
    seconds, memory, status, last = best(script)
    print(f"{name:34} {seconds * 1000:9.1f} ms {memory:8.1f} MB  status {status}  {last[:40]:40} {note}")
    return seconds


def facts(count):
    return "".join(f"p(a{i}).\n" for i in range(count))


def chain(count):
    return "".join(f"edge(n{i}, n{i + 1}).\n" for i in range(count))


def main():
    empty = row("nothing", "---\n")
    steps = row("1,000 steps, l :- l", "l :- l.\n---\nask(l)\n")
    print(f"{'':34} {1000 / max(steps - empty, 1e-9):9.0f} steps a second")
    grows = row("1,000 steps, a counter grows", "n(X) :- n(s(X)).\n---\nask(n(z))\n")
    print(f"{'':34} {1000 / max(grows - empty, 1e-9):9.0f} steps a second")
    row("path of 300 edges", chain(300) + "path(X, X).\npath(X, Z) :- edge(X, Y), path(Y, Z).\n---\nask(path(n0, n300))\n")
    for count in (100, 1000, 10000):
        row(f"{count} facts, three answers", facts(count) + "---\nask(p(X))\nnext\nnext\n")
    for count in (100, 1000, 10000):
        row(f"{count} facts, the last one", facts(count) + f"---\nask(p(a{count - 1}))\n")
    row("doubling terms", "t(X) :- t(n(X, X)).\n---\nask(t(a))\n", "must end with `memory`, status 7")
    row("doubling, many choice points", "c(X). c(X). c(X).\nt(X) :- c(X), t(n(X, X)).\n---\nask(t(a))\n", "must end with `memory`, status 7")


main()
