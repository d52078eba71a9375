#!/usr/bin/env python3
"""Asks random goals here and in SWI-Prolog, and tells where the answers differ. Run by hand after `rt ci`; no gate reads it.

It needs `swipl`. Each goal is asked of one small program, with chunks of 20 answers; the first event is compared with the
first 20 answers there. Which error is told isn't compared. Goals that end here by their limit of steps or by want of memory
are left out.

Usage: compare/compare.py [COUNT [SEED [PROGRAM]]]   (default: 1,000 goals, seed 1, crates/pengines/out/pengines)
"""
import concurrent.futures
import os
import random
import subprocess
import sys
import tempfile

from goals import PROGRAM, goal

HERE = os.path.dirname(os.path.abspath(__file__))
PENGINES = os.path.join(HERE, "..", "crates", "pengines", "out", "pengines")
TEMPLATE = "t(X,Y,Z,W)"


def event(program, asked):
    """The line of the first event of this goal."""
    script = f"{PROGRAM}---\ncreate([destroy(false),chunk(20)])\nask(({asked}),[template({TEMPLATE})])\n"
    try:
        done = subprocess.run([program, "session"], input=script.encode(), stdout=subprocess.PIPE, stderr=subprocess.PIPE, timeout=20)
    except subprocess.TimeoutExpired:
        return "timeout"
    lines = done.stdout.decode().splitlines()
    return lines[1] if len(lines) > 1 else f"refused: {done.stderr.decode().strip()}"


def quoted(text):
    return "'" + text.replace("\\", "\\\\").replace("'", "\\'") + "'"


def main():
    count, seed, pengines = sys.argv[1:] + ["1000", "1", PENGINES][len(sys.argv) - 1 :]
    random.seed(int(seed))
    goals = [goal(random.randint(0, 2)) for _ in range(int(count))]
    with concurrent.futures.ThreadPoolExecutor(os.cpu_count()) as pool:
        events = list(pool.map(lambda it: event(pengines, it), goals))
    with tempfile.TemporaryDirectory() as folder:
        program, cases = f"{folder}/program.pl", f"{folder}/cases.pl"
        with open(program, "w", encoding="utf-8") as file:
            file.write(PROGRAM)
        with open(cases, "w", encoding="utf-8") as file:
            for asked, line in zip(goals, events):
                file.write(f"case({quoted(f'({asked})-{TEMPLATE}')},{quoted(line)}).\n")
        subprocess.run(["swipl", "--traditional", "-q", f"{HERE}/answers.pl", "--", program, cases], check=True)


if __name__ == "__main__":
    main()
