#!/usr/bin/env python3
"""Runs the tests in checks/rows/ by `rt try`, on a copy of the crates: they are compiled and run, and not proved.

They stand there as texts, since the gate takes no source that it does not prove. They call what no command asks for
yet, on examples that were computed by hand or by other programs. Some of these calls ask what no test at run time can
tell, as that every invariant is a combination of given ones, so a proved test could not make them. Where there is no
`rt`, nothing is run.
"""

import json
import os
import shutil
import subprocess
import sys
import tempfile

TOP = os.path.dirname(os.path.dirname(os.path.abspath(__file__)))
ROWS = os.path.join(TOP, "checks", "rows")


def certificates():
    """The certificates that the transcripts expect, each as its whole text."""
    with open(f"{TOP}/crates/transcripts/stdout", encoding="utf-8") as file:
        answers = [line[2:] for line in file if line.startswith("> ")]
    texts = "".join(answers).split("invring certificate ")[1:]
    return ["invring certificate " + text[: text.index("\nend\n") + 5] for text in texts]


def lay_out(folder):
    """A repository with these crates, and one more that has the tests."""
    shutil.copytree(f"{TOP}/crates", f"{folder}/crates", ignore=shutil.ignore_patterns("out", "must-fail"))
    shutil.copy(f"{TOP}/HANDLES", folder)
    modules = sorted(name[:-4] for name in os.listdir(ROWS) if name.endswith(".txt"))
    source = f"{folder}/crates/rows/src"
    os.makedirs(source)
    for name in modules:
        shutil.copy(f"{ROWS}/{name}.txt", f"{source}/{name}.rt")
    with open(f"{source}/written.rt", "w", encoding="utf-8") as file:
        file.write("//! The certificates of the transcripts.\n\npub(crate) const CERTIFICATES: &[&str] = &[\n")
        file.writelines(f"    {json.dumps(text)},\n" for text in certificates())
        file.write("];\n")
    with open(f"{source}/lib.rt", "w", encoding="utf-8") as file:
        file.write("//! Tests that are run and not proved.\n\n")
        file.writelines(f"#[cfg(test)]\nmod {name};\n" for name in [*modules, "written"])
    with open(f"{TOP}/crates.txt", encoding="utf-8") as file:
        lines = file.read()
    libraries = [line.split(":")[0] for line in lines.splitlines() if ":" in line and not line.startswith("#")]
    tests = "".join(open(f"{ROWS}/{name}.txt", encoding="utf-8").read() for name in modules)
    used = [name for name in libraries if f"use {name}::" in tests]
    with open(f"{folder}/crates.txt", "w", encoding="utf-8") as file:
        file.write(f"{lines}rows: {' '.join(used)}\n")


def main():
    if shutil.which("rt") is None:
        print("checks/rows.py: no rt, so nothing is run")
        return 0
    with tempfile.TemporaryDirectory() as folder:
        lay_out(folder)
        words = ["rt", "try", "--test", "--seconds", "1200"]
        run = subprocess.run(words, cwd=f"{folder}/crates/rows", capture_output=True, text=True)
    told = run.stdout + run.stderr
    lines = [line for line in told.splitlines() if line.startswith("test ")]
    print("\n".join(lines))
    if any(line.startswith("test result: ok") for line in lines):
        return 0
    print(told[-4000:])
    if "error[" in told or any("FAILED" in line or "failed" in line for line in lines):
        return 1
    print("checks/rows.py: rt try did not run here, so nothing is said")
    return 0


if __name__ == "__main__":
    sys.exit(main())
