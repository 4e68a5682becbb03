#!/usr/bin/env python3
"""Times the reading of large certificates: texts of 1, 4, 16 and 64 MB whose last line has the one fault, so that `check` reads
all of them and checks nothing. Prints seconds, and the peak of memory over that of a short text, as multiples of the text's size.
Outside the gate; run it on an idle machine.

    bench/reading.py

The program is crates/invring/out/invring, or what the variable INVRING names."""
import os
import subprocess
import sys
import tempfile
import time

TOP = os.path.dirname(os.path.dirname(os.path.abspath(__file__)))
PROGRAM = os.environ.get("INVRING") or os.path.join(TOP, "crates", "invring", "out", "invring")
HEAD = """invring certificate 1
field 3
vars x y z
matrix 0 1 0 -1 0 0 0 0 -1
order 4
primary x^2+y^2
primary z^2
primary x^4+y^4
lift y^4-y^2*@1-@1^2+@3
lift x^2+y^2-@1
lift z^2-@2
power x 4 -y^2*@1-@1^2-@3
power y 4 y^2*@1+@1^2-@3
power z 2 @2
rank 16
secondary 1
evidence reynolds
image 1 %1
"""
LINES = ["irreducible x^2*z-y^2*z\n", "irreducible x*y*z\n", "irreducible x^3*y-x*y^3\n"]
# Two words, and one secondary invariant.
TAIL = "word 1\nword 1\nend\n"


def text(size):
    """A text of about so many bytes, and its number of lines."""
    block = "".join(LINES)
    count = max(0, size - len(HEAD) - len(TAIL)) // len(block)
    return HEAD + block * count + TAIL, HEAD.count("\n") + 3 * count + TAIL.count("\n")


def reading(given, lines):
    """Seconds and the peak of memory in bytes."""
    with tempfile.TemporaryFile() as file:
        file.write(given.encode())
        file.seek(0)
        begun = time.perf_counter()
        child = subprocess.Popen([PROGRAM, "check"], stdin=file, stdout=subprocess.PIPE, stderr=subprocess.PIPE)
        told = child.stderr.read().decode()
        _, _, usage = os.wait4(child.pid, 0)
    if told != f"input line {lines} count\n":
        sys.exit(f"bench: {told!r} for the line {lines}")
    return time.perf_counter() - begun, usage.ru_maxrss * 1024


def main():
    if not os.access(PROGRAM, os.X_OK):
        sys.exit("bench: the program is not built; start ./invring once")
    _, base = reading(*text(0))
    print(f"{'MB':>4} {'seconds':>8} {'seconds a MB':>13} {'memory/size':>12}")
    for megabytes in (1, 4, 16, 64):
        given, lines = text(megabytes << 20)
        seconds, peak = reading(given, lines)
        print(f"{megabytes:4d} {seconds:8.2f} {seconds / megabytes:13.3f} {(peak - base) / len(given):12.1f}")


main()
