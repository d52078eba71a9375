#!/usr/bin/env python3
"""Times pengines in one process and measures their memory, and prints a row for each kind. Run by hand; no gate reads it.

It builds a small program over `session` in a folder of its own. A cycle makes a pengine, asks, turns the query once, pulls
the first answer and destroys the pengine; an idle pengine was made, and stays. Times are the process's own. What is printed
is the difference between two numbers of pengines, for one of them; the memory is what the greatest resident set grows by.

Usage: bench/pengine.py
"""
import os
import subprocess
import tempfile

from build import built

LIBRARIES = [
    "term_core", "op_table", "prolog_lex", "prolog_grammar", "prolog_read", "prolog_write", "program", "builtin_table",
    "prims_tree", "solve_model", "sandbox_walk", "event_core", "session", "lib_text", "read_back", "request_text",
]

ROWS = [("cycles", 100_000, 200_000), ("idle", 10_000, 100_000)]


def run(program, kind, count):
    """The seconds and the bytes of the greatest resident set of one run, and what it printed."""
    child = subprocess.Popen([program], stdin=subprocess.PIPE, stdout=subprocess.PIPE)
    child.stdin.write(f"{kind} {count}".encode())
    child.stdin.close()
    said = child.stdout.read().decode().strip()
    _, status, used = os.wait4(child.pid, 0)
    child.returncode = os.waitstatus_to_exitcode(status)
    if child.returncode != 0 or said != str(count):
        raise SystemExit(f"{kind} {count}: status {child.returncode}, {said}")
    return used.ru_utime + used.ru_stime, used.ru_maxrss * 1024


def least(program, kind, count):
    """The least time and the least memory of three runs."""
    return [min(values) for values in zip(*(run(program, kind, count) for _ in range(3)))]


def main():
    with tempfile.TemporaryDirectory() as folder:
        program = built(folder, "pengine", LIBRARIES, "session event_core program lib_text request_text term_core", b"cycles 1")
        for kind, few, many in ROWS:
            less, more = least(program, kind, few), least(program, kind, many)
            took, grew = ((after - before) / (many - few) for before, after in zip(less, more))
            print(
                f"{kind:6} {few:7} in {less[0] * 1000:7.0f} ms, {less[1] / 1e6:6.0f} MB; {many:7} in {more[0] * 1000:7.0f} ms,"
                f" {more[1] / 1e6:6.0f} MB; {took * 1e6:8.2f} us and {grew:8.1f} bytes each",
                flush=True,
            )


if __name__ == "__main__":
    main()
