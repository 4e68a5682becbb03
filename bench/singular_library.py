#!/usr/bin/env python3
"""Runs the examples of share/singular/invring.lib in Singular, and compares what they print with what the program itself answers to
the same matrices. Where Singular or the program is not there, it says so and does nothing. The program is the one that the
variable INVRING of the environment names, else the proved one that stands in crates/invring/out. Outside the gate.

    bench/singular_library.py"""
import os
import re
import shutil
import subprocess
import sys

import commands

LIBRARY = os.path.join(commands.TOP, "share", "singular", "invring.lib")


def example_of(procedure, text):
    """The lines of the example of a procedure that Singular shows as it runs them."""
    block = re.search(rf"^proc {procedure} .*?^example$.*?echo=2;\n(.*?)^}}$", text, re.M | re.S).group(1)
    return [line.strip() for line in block.splitlines()]


def scripts_of(lines):
    """The script of each matrix of an example, in its ring."""
    ring = next(line for line in lines if line.startswith("ring ")).split(";")[0]
    matrices = [line for line in lines if re.match(r"matrix \w+\[", line)]
    return [f"{ring}; {matrix}" for matrix in matrices]


def answer(command, text):
    """What the program writes, where it is done or rejects a certificate."""
    status, _, _, output, errors = commands.measured([commands.PROGRAM, command], text, 120)
    if status not in (0, 1):
        sys.exit(f"singular_library: {command} ended with status {status}: {errors.decode().strip()}")
    return output.decode()


def shown(scripts):
    """The lines of `show`, without the names of the lists; an empty list is a matrix with the entry 0."""
    lines = [line for script in scripts for line in answer("show", answer("ring", script)).splitlines()]
    return [line.partition("=")[2] or "0" for line in lines]


def written(scripts):
    """The lines of the certificates."""
    return [line for script in scripts for line in answer("ring", script).splitlines()]


def checked(scripts):
    """The verdicts on a certificate, and on the same with another order of the group."""
    certificates = [answer("ring", script) for script in scripts]
    return [
        answer("check", text).strip()
        for certificate in certificates
        for text in (certificate, certificate.replace("order 2", "order 3"))
    ]


def printed(procedure, lines):
    """What the example prints in Singular beside its own lines."""
    task = f'LIB "{LIBRARY}"; example {procedure}; quit;'
    run = subprocess.run(
        [shutil.which("Singular"), "-q"],
        input=task,
        capture_output=True,
        text=True,
        timeout=600,
        env={**os.environ, "INVRING": os.path.abspath(commands.PROGRAM)},
    )
    found = [line.rstrip() for line in run.stdout.splitlines()]
    return [line for line in found if line.strip() not in lines and not line.startswith(("// proc ", "EXAMPLE:"))]


def main():
    if not shutil.which("Singular"):
        print("singular_library: skipped, Singular is not installed")
        return
    if not os.access(commands.PROGRAM, os.X_OK):
        print(f"singular_library: skipped, there is no program {commands.PROGRAM}; rt ci proves and builds it")
        return
    with open(LIBRARY, encoding="utf-8") as file:
        text = file.read()
    differs = []
    for procedure, wanted in (("invring", shown), ("invring_certificate", written), ("invring_check", checked)):
        lines = example_of(procedure, text)
        expected = wanted(scripts_of(lines))
        found = printed(procedure, lines)
        # Singular ends a text and an example with an empty line.
        same = [line for line in found if line] == expected
        print(f"{procedure}: {'the same' if same else 'differs'}, {len(expected)} lines")
        if not same:
            differs.append(procedure)
            print("\n".join([f"  program:  {line}" for line in expected] + [f"  Singular: {line}" for line in found]))
    if differs:
        sys.exit("singular_library: " + ", ".join(differs) + " differs")


if __name__ == "__main__":
    main()
