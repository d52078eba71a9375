#!/usr/bin/env python3
"""Times the sandbox's walk by `pengines check` over programs and goals of doubling size, and prints one row for each shape.
Run by hand after `rt ci`; no gate reads it.

Each program is read twice: with a goal that reaches all its clauses, and with one that reaches none, whose time is taken off.
The time of a long goal is that of its reading and its walk; `true` is taken off.
The last column is the time for twice the size over the time for the size, near 2 where the time is linear.

Usage: bench/sandbox.py [PROGRAM]   (default: crates/pengines/out/pengines)
"""
import os
import subprocess
import sys

HERE = os.path.dirname(os.path.abspath(__file__))
PROGRAM = sys.argv[1] if len(sys.argv) > 1 else os.path.join(HERE, "..", "crates", "pengines", "out", "pengines")


def seconds(goal, text):
    """The least processor time of nine runs, and the line that was printed."""
    times = []
    for _ in range(9):
        child = subprocess.Popen([PROGRAM, "check", goal], stdin=subprocess.PIPE, stdout=subprocess.PIPE)
        child.stdin.write(text)
        child.stdin.close()
        line = child.stdout.read().decode().strip()
        _, status, usage = os.wait4(child.pid, 0)
        assert os.waitstatus_to_exitcode(status) == 0, line
        times.append(usage.ru_utime + usage.ru_stime)
    return min(times), line


def chain(count):
    """Each predicate calls the next."""
    return "".join(f"p{i} :- p{i + 1}.\n" for i in range(count))


def wide(count):
    """One predicate calls each of the others, ten in a clause."""
    rows = [range(i, min(i + 10, count)) for i in range(0, count, 10)]
    return "".join(f"p0 :- {', '.join(f'q{i}' for i in row)}.\n" for row in rows) + "".join(f"q{i}.\n" for i in range(count))


def many(count):
    """One predicate of many clauses, with closures."""
    return "".join(f"p0 :- maplist(r({i}), [a]), \\+ call(r, {i}, b).\n" for i in range(count)) + "r(_, _).\n"


def long_clause(count):
    """One clause of so many goals, which nest to the right."""
    return f"p0 :- {', '.join('q' for _ in range(count))}.\nq.\n"


def left_clause(count):
    """One clause of so many goals, which nest to the left."""
    return f"p0 :- {'(' * (count - 1)}q{', q)' * (count - 1)}.\nq.\n"


def long_goal(count):
    """So many goals, one behind the other."""
    return ", ".join("q" for _ in range(count))


def deep_goal(count):
    """A goal in so many goals, each of which opens the next."""
    return "\\+ (" * count + "q" + ")" * count


# the shape of the program, and its lesser size
PROGRAMS = {
    "a chain of predicates": (chain, 10_000),
    "a predicate that calls all": (wide, 10_000),
    "many clauses of one": (many, 10_000),
    "a clause of many goals": (long_clause, 5_000),
    "the same, nested to the left": (left_clause, 450),
}

# the shape of the goal, and its lesser size
GOALS = {"a goal of many conjuncts": (long_goal, 450), "a goal that opens many": (deep_goal, 100)}


def row(name, first, times, line):
    (once, twice) = times
    print(f"{name:28} without {first * 1000:6.1f} ms  walk {once * 1000:6.1f} ms {twice * 1000:6.1f} ms  {twice / once:5.2f}  {line}")


def main():
    for name, (shape, least) in PROGRAMS.items():
        rows = []
        for count in (least, 2 * least):
            text = shape(count).encode()
            without, _ = seconds("true", text)
            both, line = seconds("p0", text)
            rows.append((without, both - without))
        row(name, rows[0][0], [walk for _, walk in rows], line)
    for name, (shape, least) in GOALS.items():
        without, _ = seconds("true", b"q.\n")
        times = []
        for count in (least, 2 * least):
            both, line = seconds(shape(count), b"q.\n")
            times.append(both - without)
        row(name, without, times, line)


if __name__ == "__main__":
    main()
