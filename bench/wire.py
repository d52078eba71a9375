#!/usr/bin/env python3
"""Times the reading of requests and responses from a stream in memory, and the routing of requests. Run by hand; no gate reads it.

It builds a small program over `http_wire` and `routes` in a folder of its own. Times are a process's own, not the clock's. Of small
messages a stream of 100,000 is read; what it takes to read the source alone is taken off, and for requests what `httparse`
takes for the same heads. Heads of several shapes, most of them of 16,384 bytes, are read whole and in single bytes, and what it
takes to read the source alone, whole or in single bytes, is taken off; the ratio after it is with the reads of the source left in.

Usage: bench/wire.py
"""
import os
import subprocess
import tempfile

from build import built

ID = "0123456789ab8cdeb0123456789abcde"
PULL = f"GET /pengine/pull_response?id={ID}&format=json HTTP/1.1\r\nHost: pengines\r\n\r\n"
SEND = f"POST /pengine/send?id={ID} HTTP/1.1\r\nHost: pengines\r\nContent-Length: 4\r\n\r\n"
ANSWER = "HTTP/1.1 200 OK\r\nContent-Type: application/json\r\nContent-Length: 17\r\n\r\n"
HEAD_BYTES = 16_384
PIECE = 8_192


def long_field(before, after, name="x", end="\r\n"):
    """A head of 16,384 bytes whose first and last lines are given, and a long field between."""
    return before + name + ":" + "v" * (HEAD_BYTES - len(before + name + ":" + end + after)) + end + after


def equal_fields(line, count):
    """A head of 16,384 bytes of so many fields of the same length, but for the last one."""
    room = (HEAD_BYTES - len(line) - 2) // count
    return long_field(line + ("x:" + "v" * (room - 4) + "\r\n") * (count - 1), "\r\n")


def long_target(size):
    """A head of so many bytes with a long target."""
    return "GET /" + "t" * (size - 18) + " HTTP/1.1\r\n\r\n"


LINE = "GET / HTTP/1.1\r\n"
HEADS = {
    "a target, 256 bytes": long_target(256),
    "a target, 1,024 bytes": long_target(1_024),
    "a target, 4,096 bytes": long_target(4_096),
    "a long target": long_target(HEAD_BYTES),
    "one long field": long_field(LINE, "\r\n"),
    "128 fields": equal_fields(LINE, 128),
    "127 short fields, then a long one": long_field(LINE + "x:\n" * 127, "\n"),
    "a long field, then 127 short ones": long_field(LINE, "x:\n" * 127 + "\n"),
    "empty lines before it": "\n" * (HEAD_BYTES - len(LINE) - 2) + LINE + "\r\n",
    "empty lines with CR before it": "\r\n" * ((HEAD_BYTES - len(LINE) - 2) // 2) + LINE + "\r\n",
}


def run(program, kind, piece, stream, wanted):
    """The least seconds of five runs."""
    times = []
    for _ in range(5):
        child = subprocess.Popen([program], stdin=subprocess.PIPE, stdout=subprocess.PIPE)
        child.stdin.write(f"{kind} {piece}\n{stream}".encode())
        child.stdin.close()
        said = child.stdout.read().decode().strip()
        _, status, used = os.wait4(child.pid, 0)
        child.returncode = os.waitstatus_to_exitcode(status)
        if child.returncode != 0 or wanted not in (None, int(said)):
            raise SystemExit(f"{kind} {piece}: status {child.returncode}, {said}")
        times.append(used.ru_utime + used.ru_stime)
    return min(times)


def small(program):
    """The rows of small messages."""
    stream = (PULL + SEND + "next") * 50_000
    heads = run(program, "httparse", PIECE, (PULL + SEND) * 50_000, 100_000)
    for piece in [PIECE, 100, 1]:
        alone = run(program, "source", piece, stream, None)
        for kind in ["requests", "routed"]:
            took = run(program, kind, piece, stream, 100_000)
            print(
                f"{kind:8} in pieces of {piece:5} {took * 10:6.2f} us each, httparse {heads * 10:6.2f}, source {alone * 10:6.2f};"
                f" beside httparse's own {(took - heads) * 10:6.2f}",
                flush=True,
            )
    answers = (ANSWER + '{"event":"stop"}\n') * 100_000
    alone = run(program, "source", PIECE, answers, None)
    took = run(program, "responses", PIECE, answers, 100_000)
    print(f"responses in pieces of {PIECE:5} {took * 10:6.2f} us each, source {alone * 10:6.2f}", flush=True)


def longest(program):
    """The rows of long heads."""
    for name, head in HEADS.items():
        if len(head) > HEAD_BYTES:
            raise SystemExit(f"{name}: {len(head)} bytes")
        cost = {}
        for piece, count in [(PIECE, 16_384_000 // len(head)), (1, 819_200 // len(head))]:
            stream = head * count
            alone = run(program, "source", piece, stream, None)
            took = run(program, "requests", piece, stream, count)
            cost[piece] = ((took - alone) / count, took / count)
        whole, single = cost[PIECE][0], cost[1][0]
        print(
            f"{name:34} {whole * 1e6:8.1f} us whole, {single * 1e6:9.1f} us in single bytes, {single / whole:8.2f};"
            f" {cost[1][1] / cost[PIECE][1]:8.2f}",
            flush=True,
        )


def main():
    with tempfile.TemporaryDirectory() as folder:
        program = built(folder, "wire", ["term_core", "outside", "http_wire", "pengine_id", "routes"], "routes http_wire httparse outside term_core", b"source 1\na")
        small(program)
        longest(program)


if __name__ == "__main__":
    main()
