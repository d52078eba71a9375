#!/usr/bin/env python3
"""Times the tokens of texts of doubling length and prints one row for each shape of text. Run by hand; no gate reads it.

It builds a small program over `prolog_lex` in a folder of its own. The last column is the time for twice the text over
the time for the text, near 2 where the time is linear.

Usage: bench/tokens.py
"""
import subprocess
import tempfile
import time

from build import built

def seconds(program, text):
    """The least time of five runs, and what the program printed."""
    times = []
    for _ in range(5):
        began = time.perf_counter()
        done = subprocess.run([program], input=text.encode(), stdout=subprocess.PIPE, check=True)
        times.append(time.perf_counter() - began)
    return min(times), done.stdout.decode().strip()


SHAPES = {
    "clauses": "grandparent(X, Z) :- parent(X, Y), parent(Y, Z).\n",
    "opening quotes": "'",
    "symbol characters": "+",
    "digits": "7",
    "escapes in quotes": "'\\x41\\\\n' ",
    "comments": "/* a */ % b\n",
    "texts": '"a ""b""" ',
    "names past ASCII": "λόγος ",
}


def main():
    with tempfile.TemporaryDirectory() as folder:
        program = built(folder, "tokens", ["term_core", "prolog_lex"], "prolog_lex", b"a.")
        for name, piece in SHAPES.items():
            count = 1_000_000 // len(piece.encode())
            once, _ = seconds(program, piece * count)
            twice, printed = seconds(program, piece * (2 * count))
            print(f"{name:20} {once * 1000:9.1f} ms {twice * 1000:9.1f} ms  {twice / once:5.2f}  {printed}")


if __name__ == "__main__":
    main()
