#!/usr/bin/env python3
"""Times a store of cells over a term of about a million nodes and measures its memory. Run by hand; no gate reads it.

It builds a small program over `store` in a folder of its own. A time is the process's own, of sixteen times the work
less that of eight, over eight; what putting takes is taken off the others. The memory is what the greatest resident
set grows by: below eight times it is that of making the term.

Usage: bench/store.py
"""
import os
import tempfile

from build import built

CELLS = 1_001_001
LIST_CELLS = 500_000
FEW = 8


def run(program, kind, times):
    """The seconds and the bytes of the resident set of the best of three runs."""
    best = None
    for _ in range(3):
        read, write = os.pipe()
        child = os.fork()
        if child == 0:
            os.dup2(read, 0)
            os.close(write)
            os.dup2(os.open(os.devnull, os.O_WRONLY), 1)
            os.execv(program, [program])
        os.close(read)
        os.write(write, f"{kind} {times}".encode())
        os.close(write)
        _, status, used = os.wait4(child, 0)
        found = (used.ru_utime + used.ru_stime, used.ru_maxrss * 1024)
        if status != 0:
            raise SystemExit(f"{kind} {times}: status {status}")
        best = found if best is None else tuple(min(pair) for pair in zip(best, found))
    return best


def grown(program, kind):
    """What one more time takes, in seconds and bytes."""
    less, more = run(program, kind, FEW), run(program, kind, 2 * FEW)
    return [(many - few) / FEW for few, many in zip(less, more)]


def main():
    with tempfile.TemporaryDirectory() as folder:
        program = built(folder, "store", ["term_core", "store"], "store term_core", b"take 1")
        put, space = grown(program, "put")
        print(f"put    {put * 1000:9.1f} ms  {space / CELLS:6.2f} bytes a cell, {space / LIST_CELLS:6.2f} a list cell")
        for kind, name in [("take", "take"), ("copy", "copy without variables"), ("open", "copy with variables")]:
            took, _ = grown(program, kind)
            print(f"{name:24} {(took - put) * 1000:9.1f} ms")


if __name__ == "__main__":
    main()
