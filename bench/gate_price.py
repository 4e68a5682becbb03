#!/usr/bin/env python3
"""Prints the processor minutes that the gate takes for each crate: for its proof, its tests and its must-fail edits.

    bench/gate_price.py [CRATE ..]

Works on a clone of the last commit in a temporary folder, so that everything is proved from nothing and nothing here
changes, and with a kit of its own there, since a kit begins a check with what other checkouts on the machine kept. The
crates are taken lowest first, one job at a time; those that are not named are only built, as far as the named ones stand
on them. What is printed is processor time, so other work on the machine changes it little.
"""

import os
import re
import resource
import shutil
import subprocess
import sys
import tempfile

TOP = os.path.dirname(os.path.dirname(os.path.abspath(__file__)))


def crates_of(top):
    """The crates with those that each stands on, in the order of crates.txt, which is lowest first."""
    crates = {}
    with open(f"{top}/crates.txt", encoding="utf-8") as file:
        for line in file:
            if ":" in line and not line.startswith("#"):
                name, below = line.split(":")
                crates[name.split()[0]] = below.split()
    return crates


def below(crates, names):
    """The named crates and all that they stand on."""
    wanted = set()
    left = list(names)
    while left:
        name = left.pop()
        if name in crates and name not in wanted:
            wanted.add(name)
            left += crates[name]
    return wanted


def own_kit(folder):
    """A kit in the folder that keeps nothing and is given nothing: the scripts of the kit are copied, all else is linked."""
    kit = os.path.dirname(os.path.dirname(os.path.realpath(shutil.which("rt"))))
    own = f"{folder}/kit"
    os.makedirs(f"{own}/bin")
    for name in os.listdir(kit):
        if name != "bin":
            os.symlink(f"{kit}/{name}", f"{own}/{name}")
    for name in os.listdir(f"{kit}/bin"):
        with open(f"{kit}/bin/{name}", "rb") as file:
            is_program = file.read(4) == b"\x7fELF"
        (os.symlink if is_program else shutil.copy2)(f"{kit}/bin/{name}", f"{own}/bin/{name}")
    os.environ["PATH"] = f"{own}/bin:{os.environ['PATH']}"


def minutes(folder, *words):
    """The processor minutes of a command, which has to succeed."""
    before = resource.getrusage(resource.RUSAGE_CHILDREN)
    ran = subprocess.run(words, cwd=folder, stdout=subprocess.PIPE, stderr=subprocess.STDOUT, text=True, errors="replace")
    after = resource.getrusage(resource.RUSAGE_CHILDREN)
    if ran.returncode:
        sys.exit(f"{' '.join(words)} in {folder} failed:\n{ran.stdout[-2000:]}")
    return (after.ru_utime + after.ru_stime - before.ru_utime - before.ru_stime) / 60


def has_tests(folder):
    """Whether a source of the crate has a test."""
    for at, _, files in os.walk(f"{folder}/src"):
        for name in files:
            with open(f"{at}/{name}", encoding="utf-8") as file:
                if re.search(r"#\[test\]", file.read()):
                    return True
    return False


def price(top, name):
    """The minutes of a crate's proof, tests and edits."""
    folder = f"{top}/crates/{name}"
    is_program = os.path.isfile(f"{folder}/src/main.rt")
    proof = minutes(folder, "rt", "check" if is_program else "lib", "--jobs", "1")
    tests = 0.0
    if has_tests(folder):
        # The gate proves a crate with its tests anew.
        shutil.move(f"{folder}/out/incremental", f"{top}/incremental-{name}")
        tests = minutes(folder, "rt", "check", "--test", "--jobs", "1")
    edits = 0.0
    if os.path.isdir(f"{folder}/must-fail"):
        edits = minutes(top, "rt", "must-fail", name)
    return proof, tests, edits


def main():
    crates = crates_of(TOP)
    named = sys.argv[1:] or list(crates)
    wanted = below(crates, named)
    sums = [0.0, 0.0, 0.0]
    print("| Crate | Proof | Tests | Edits |\n|---|---|---|---|", flush=True)
    with tempfile.TemporaryDirectory(prefix="gate-price-") as room:
        own_kit(room)
        top = f"{room}/clone"
        subprocess.run(["git", "clone", "-q", TOP, top], check=True)
        for name in crates:
            if name in named:
                taken = price(top, name)
                sums = [a + b for a, b in zip(sums, taken)]
                print(f"| `{name}` | {taken[0]:.1f} | {taken[1]:.1f} | {taken[2]:.1f} |", flush=True)
            elif name in wanted:
                minutes(f"{top}/crates/{name}", "rt", "lib", "--jobs", "1")
    print(f"| all | {sums[0]:.1f} | {sums[1]:.1f} | {sums[2]:.1f} |\n\n{sum(sums):.0f} processor minutes")


if __name__ == "__main__":
    main()
