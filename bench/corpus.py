#!/usr/bin/env python3
"""Runs each script of a folder through `ring`, its certificate through `check`, and where Singular is installed the same group
through invariant_ring of finvar.lib, all in one run and each with a limit of time and of memory. Prints a table: seconds, the
peak of memory of the two commands, and the ratios check/ring and Singular/ours, which is Singular's time by that of `ring`: below 1
we are slower. After it the geometric means, and the scripts where we are slower. Options that a script needs stand in a comment
of it, as `--tries 65536`.

The program is the one that the variable INVRING of the environment names, else the proved one that stands in crates/invring/out.
The status is 1 where `check` does not accept what `ring` wrote. Outside the gate; run it on an idle machine.

    bench/corpus.py [FOLDER [SECONDS [MEGABYTES]]]     examples/, 120 and 4000 where they are not given"""
import os
import re
import shutil
import statistics
import sys

import certificates
import commands


def options_in(text):
    """The options that the comments of a script name."""
    return [word for line in re.findall(r"//(.*)", text) for pair in re.findall(r"(--[a-z-]+)[ =](\d+)", line) for word in pair]


def ending(status, errors, seconds):
    """How a run of the program ended that was not done."""
    if status < 0:
        return f"over {seconds} s" if status == -9 else f"signal {-status}"
    return errors.decode().strip() or f"status {status}"


def singular_seconds(text, seconds, megabytes):
    """How long finvar.lib needs for the group of a script, or why that is not known."""
    try:
        p, _, matrices = certificates.read_script(text)
    except (AttributeError, KeyError, ValueError):
        return "not read here"
    task = commands.singular(p, [[str(c) for c in cells] for cells in matrices], ["ring"])
    status, took, _, output, _ = commands.measured([shutil.which("Singular"), "-q"], task, seconds, megabytes)
    if status == -9:
        return f"over {seconds} s"
    return took if status == 0 and output.strip().isdigit() else "failed"


def ours(text, seconds, megabytes):
    """Seconds of `ring` and of `check`, the peak of memory in MB, and how they ended."""
    options = options_in(text)
    status, making, memory, certificate, errors = commands.measured(
        [commands.PROGRAM, "ring", *options], text, seconds, megabytes
    )
    if status != 0:
        return None, None, memory, ending(status, errors, seconds)
    status, checking, more, verdict, errors = commands.measured(
        [commands.PROGRAM, "check", *options], certificate, seconds, megabytes
    )
    if status not in (0, 1):
        return making, None, max(memory, more), f"check: {ending(status, errors, seconds)}"
    return making, checking, max(memory, more), verdict.decode().strip()


def number(value, width, form):
    return f"{value:{width}{form}}" if isinstance(value, float) else f"{value or '-':>{width}}"


def main():
    if not os.access(commands.PROGRAM, os.X_OK):
        sys.exit(f"corpus: there is no program {commands.PROGRAM}; rt ci proves and builds it, or INVRING names another")
    folder = sys.argv[1] if len(sys.argv) > 1 else os.path.join(commands.TOP, "examples")
    seconds = int(sys.argv[2]) if len(sys.argv) > 2 else 120
    megabytes = int(sys.argv[3]) if len(sys.argv) > 3 else 4000
    other = shutil.which("Singular")
    if not other:
        print("Singular is not installed: no ratios to it")
    print(f"{'script':<22} {'ring s':>8} {'check s':>8} {'check/ring':>10} {'MB':>6} {'Singular s':>12} {'Singular/ours':>13}  ended")
    by_ring, by_singular, rejected = [], {}, []
    for name in sorted(file for file in os.listdir(folder) if file.endswith(".sing")):
        with open(os.path.join(folder, name), encoding="utf-8") as file:
            text = file.read()
        making, checking, memory, ended = ours(text, seconds, megabytes)
        theirs = singular_seconds(text, seconds, megabytes) if other else None
        part = ratio = None
        if checking is not None:
            part = checking / making
            by_ring.append(part)
        if making is not None and isinstance(theirs, float):
            ratio = theirs / making
            by_singular[name] = ratio
        if ended.startswith("rejected"):
            rejected.append(name)
        print(
            f"{name.removesuffix('.sing'):<22} {number(making, 8, '.3f')} {number(checking, 8, '.3f')} {number(part, 10, '.2f')}"
            f" {memory:6.0f} {number(theirs, 12, '.3f')} {number(ratio, 13, '.2g')}  {ended}",
            flush=True,
        )
    if by_ring:
        print(f"geometric mean of check/ring, {len(by_ring)} scripts: {statistics.geometric_mean(by_ring):.2f}")
    if by_singular:
        print(
            f"geometric mean of Singular/ours, {len(by_singular)} scripts: {statistics.geometric_mean(by_singular.values()):.2g}"
        )
        slower = sorted((ratio, name) for name, ratio in by_singular.items() if ratio < 1)
        print("slower than Singular at: " + (", ".join(f"{name} ({1 / ratio:.2g} times)" for ratio, name in slower) or "none"))
    if rejected:
        sys.exit("check rejects what ring wrote: " + ", ".join(rejected))


if __name__ == "__main__":
    main()
