#!/usr/bin/env python3
"""Times the text of terms of up to a million nodes, the most that a term has, and prints one row for each shape and
functor. Run by hand; no gate reads it.

It builds a small program over `prolog_write` in a folder of its own. Times are a process's own, not the clock's. The
time to make the term is taken off: it is that of a run whose limit is 0. The ratio is the time over that for half the
nodes, near 2 where the time is linear. The last column is the memory of the whole run, and of the run whose limit is 0.

Usage: bench/text.py
"""
import os
import subprocess
import tempfile

from build import built

ROWS = [
    ("pairs", "f", 19),
    ("pairs", "+", 19),
    ("pairs", "is", 19),
    ("pairs", ".", 19),
    ("pairs", "Quoted", 19),
    ("down", "f", 19),
    ("down", "-", 19),
    ("down", ":-", 19),
    ("down", "{}", 19),
    ("right", "f", 18),
    ("right", ".", 18),
    ("right", ",", 18),
    ("right", "=", 18),
]


def run(program, line):
    """The seconds of one run, its greatest memory in MB, and what it printed."""
    child = subprocess.Popen([program], stdin=subprocess.PIPE, stdout=subprocess.PIPE)
    child.stdin.write(line.encode())
    child.stdin.close()
    said = child.stdout.read().decode().strip()
    _, status, used = os.wait4(child.pid, 0)
    child.returncode = os.waitstatus_to_exitcode(status)
    if child.returncode != 0:
        raise SystemExit(f"{line}: status {child.returncode}")
    return used.ru_utime + used.ru_stime, used.ru_maxrss / 1024, said


def least(program, shape, name, times, limit):
    """The least time of eleven runs, and the memory and text of the last."""
    runs = [run(program, f"{shape} {name} {times} {limit}") for _ in range(11)]
    return min(taken for taken, _, _ in runs), runs[-1][1], runs[-1][2]


def main():
    with tempfile.TemporaryDirectory() as folder:
        program = built(folder, "text", ["term_core", "op_table", "prolog_write"], "prolog_write term_core", b"pairs f 1 100")
        for shape, name, times in ROWS:
            half = least(program, shape, name, times - 1, 10**9)[0] - least(program, shape, name, times - 1, 0)[0]
            full, memory, said = least(program, shape, name, times, 10**9)
            made, before, _ = least(program, shape, name, times, 0)
            print(
                f"{shape:6} {name:7} {(full - made) * 1000:8.1f} ms  {(full - made) / half:5.2f}  {said:24}"
                f" {memory:6.0f} MB of {before:4.0f} MB",
                flush=True,
            )


if __name__ == "__main__":
    main()
