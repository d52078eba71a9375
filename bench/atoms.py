#!/usr/bin/env python3
"""Times goals of `pengines session` on long atoms, and prints one row for each goal and length. Run by hand after `rt ci`; no
gate reads it.

The ratio is the time over that for half the characters, without what a session takes that asks nothing: near 2 where the
time is linear. A goal on the parts of an atom is tried with all of them, as many as half the square of its length, so its
atoms are shorter.

Usage: bench/atoms.py [PROGRAM]   (default: crates/pengines/out/pengines)
"""
import os
import subprocess
import sys
import time

HERE = os.path.dirname(os.path.abspath(__file__))
PROGRAM = sys.argv[1] if len(sys.argv) > 1 else os.path.join(HERE, "..", "crates", "pengines", "out", "pengines")

LONG = (16384, 32768, 65536)
SHORT = (250, 500, 1000)

ROWS = [
    ("length", "atom_length({a},N)", "N", LONG),
    ("length past ASCII", "atom_length({e},N)", "N", LONG),
    ("characters sorted", "(atom_chars({a},L),msort(L,M),M=[X|_])", "X", LONG),
    ("an atom of its characters", "(atom_chars({a},L),atom_chars(B,L),atom_length(B,N))", "N", LONG),
    ("two parts", "atom_concat(X,Y,{a})", "X", SHORT),
    ("the last character", "sub_atom({a},B,1,0,S)", "B", SHORT),
    ("a part that isn't there", "sub_atom({a},B,L,A,b)", "B", SHORT),
]


def taken(script):
    """The seconds and the second line of one run."""
    began = time.perf_counter()
    done = subprocess.run([PROGRAM, "session"], input=script.encode(), stdout=subprocess.PIPE)
    lines = done.stdout.decode().splitlines()
    return time.perf_counter() - began, lines[1] if len(lines) > 1 else ""


def least(script):
    runs = [taken(script) for _ in range(5)]
    return min(seconds for seconds, _ in runs), runs[-1][1]


def asked(goal, template, length):
    goal = goal.format(a="'" + "a" * length + "'", e="'" + "é" * length + "'")
    return f"---\nask({goal},[template({template})])\n"


def main():
    nothing = least("---\n")[0]
    for name, goal, template, lengths in ROWS:
        half = None
        for length in lengths:
            seconds, line = least(asked(goal, template, length))
            ratio = "" if half is None else f"{(seconds - nothing) / max(half - nothing, 1e-9):5.2f}"
            print(f"{name:26} {length:6} characters {seconds * 1000:9.1f} ms  {ratio:5}  {line[:40]}", flush=True)
            half = seconds


if __name__ == "__main__":
    main()
