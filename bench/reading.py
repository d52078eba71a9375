#!/usr/bin/env python3
"""Times the reading of texts of half a mebibyte and of a whole one and prints one row for each shape of text. Run by hand;
no gate reads it.

It builds a small program over `prolog_read` in a folder of its own. Times are those of the processor. The last columns are
the time for twice the text over the time for the text, near 2 where the time is linear, and what was read of the longer text.

Usage: bench/reading.py
"""
import resource
import subprocess
import tempfile

from build import built

LIBRARIES = ["term_core", "op_table", "prolog_lex", "prolog_grammar", "prolog_read"]


def spent():
    """The processor's time of the programs that have ended."""
    usage = resource.getrusage(resource.RUSAGE_CHILDREN)
    return usage.ru_utime + usage.ru_stime


def seconds(program, kind, text):
    """The least time of five runs, and what the program printed."""
    times = []
    for _ in range(5):
        began = spent()
        done = subprocess.run([program], input=f"{kind}\n{text}".encode(), stdout=subprocess.PIPE, check=True)
        times.append(spent() - began)
    return min(times), done.stdout.decode().strip()


def first_of(size, pieces):
    """The first of these pieces that take at most so many bytes, with one behind each."""
    for piece in pieces:
        size -= len(piece) + 1
        if size < 0:
            break
        yield piece


def listed(size, elements):
    """A list of at most so many bytes."""
    return "[" + ",".join(first_of(size - 1, elements)) + "]"


def many(element):
    while True:
        yield element


def numbered(form):
    number = 0
    while True:
        yield form.format(number)
        number += 1


def declared(count):
    """Directives that declare so many operators, and facts."""
    for number in range(count):
        yield f":- op(700, xfx, o{number})."
    yield from many("a.")


def clauses(size, forms):
    """Clauses of at most so many bytes."""
    return "\n".join(first_of(size, forms)) + "\n"


SHAPES = {
    "a long list": ("term", lambda size: listed(size, many("a"))),
    "4,000 open brackets": ("term", lambda size: listed(size, many("(" * 3999 + "a" + ")" * 3999))),
    "lists 999 deep": ("term", lambda size: listed(size, many("[" * 999 + "]" * 999))),
    "1,024 arguments": ("term", lambda size: listed(size, many("f(" + "a," * 1023 + "a)"))),
    "chains of 900 operators": ("term", lambda size: listed(size, many("1" + "+1" * 900))),
    "one chain of operators": ("term", lambda size: "1" + "+1" * ((size - 1) // 2)),
    "prefix operators": ("term", lambda size: "- " * (size // 2 - 1) + "a"),
    "many variables": ("term", lambda size: listed(size, numbered("X{}"))),
    "one variable": ("term", lambda size: listed(size, many("X"))),
    "a text in quotes": ("term", lambda size: '"' + "a" * (size // 2 - 2) + '"'),
    "clauses": ("clauses", lambda size: clauses(size, many("anc(X, Z) :- par(X, Y), anc(Y, Z)."))),
    "facts": ("clauses", lambda size: clauses(size, many("a."))),
    "1,000 operators declared": ("clauses", lambda size: clauses(size, declared(1000))),
}


def main():
    with tempfile.TemporaryDirectory() as folder:
        program = built(folder, "reading", LIBRARIES, "prolog_read op_table term_core", b"clauses\na.")
        for name, (kind, text) in SHAPES.items():
            once, _ = seconds(program, kind, text(1 << 19))
            twice, printed = seconds(program, kind, text(1 << 20))
            print(f"{name:24} {once * 1000:9.1f} ms {twice * 1000:9.1f} ms  {twice / once:5.2f}  {printed}", flush=True)


if __name__ == "__main__":
    main()
