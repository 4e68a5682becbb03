#!/usr/bin/env python3
"""Runs the shell lines of pages, those after `$ ` in their blocks, and compares what is printed on both streams with what the page
shows under each. They run one after another in a new folder that has the program as `invring` and `./invring`, the folder
examples/, its scripts beside it, and the certificates of some of them as NAME.cert. The pages are the README, the guide, the
formats and the man page where none are given. The program is the one that the variable INVRING of the environment names, else the
proved one that stands in crates/invring/out. Outside the gate.

    bench/pages.py [PAGE ..]"""
import os
import re
import shutil
import subprocess
import sys
import tempfile

import commands

PAGES = ["README.md", "docs/GUIDE.md", "docs/FORMATS.md", "share/man/man1/invring.1"]
CERTIFICATES = ["swap", "two_swaps", "transvection", "manual"]


def cases(text):
    """Each shell line of a page, with the lines under it."""
    for block in re.findall(r"^(?:```|\.Bd -literal[^\n]*)\n(.*?)^(?:```|\.Ed)$", text, re.M | re.S):
        for part in re.split(r"^\$ ", block, flags=re.M)[1:]:
            line, _, under = part.partition("\n")
            yield line, under.rstrip("\n")


def printed(line, folder):
    """What a shell line prints."""
    path = os.pathsep.join([os.path.join(folder, "bin"), os.environ["PATH"]])
    run = subprocess.run(
        ["bash", "-c", line], cwd=folder, env={**os.environ, "PATH": path}, stdout=subprocess.PIPE, stderr=subprocess.STDOUT
    )
    return run.stdout.decode().rstrip("\n")


def furnish(folder):
    """Puts the program, the scripts and the certificates into a folder."""
    examples = os.path.join(commands.TOP, "examples")
    shutil.copytree(examples, os.path.join(folder, "examples"))
    for name in os.listdir(examples):
        shutil.copy(os.path.join(examples, name), folder)
    os.mkdir(os.path.join(folder, "bin"))
    for name in ("invring", os.path.join("bin", "invring")):
        os.symlink(os.path.abspath(commands.PROGRAM), os.path.join(folder, name))
    for name in CERTIFICATES:
        printed(f"./invring ring < {name}.sing > {name}.cert", folder)


def main():
    if not os.access(commands.PROGRAM, os.X_OK):
        sys.exit(f"pages: there is no program {commands.PROGRAM}; rt ci proves and builds it, or INVRING names another")
    failed = False
    for page in sys.argv[1:] or [os.path.join(commands.TOP, page) for page in PAGES]:
        with open(page, encoding="utf-8") as file:
            text = file.read()
        differing = count = 0
        with tempfile.TemporaryDirectory() as folder:
            furnish(folder)
            for line, shown in cases(text):
                count += 1
                found = printed(line, folder)
                if found != shown:
                    differing += 1
                    print(f"{page}: {line}\n-- shown:\n{shown}\n-- found:\n{found}")
        print(f"{os.path.relpath(page, commands.TOP)}: {count} lines, {differing} differ", flush=True)
        failed |= differing > 0
    sys.exit(1 if failed else 0)


if __name__ == "__main__":
    main()
