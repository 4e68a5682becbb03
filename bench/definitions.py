#!/usr/bin/env python3
"""Writes docs/DEFINITIONS.md from the dictionaries at the heads of the specs.

    bench/definitions.py > docs/DEFINITIONS.md

The first comment of a file of specs/ says what the file is about and then has a line for each definition: three blanks,
its name, two blanks or more, and what it is, which may go on in the next lines.
"""

import os
import re
import sys

TOP = os.path.dirname(os.path.dirname(os.path.abspath(__file__)))
HEAD = """# Definitions

Each definition in words, with the name under which the specs have it, crate by crate, lowest first. This page is made
by `bench/definitions.py` from the dictionaries at the heads of the specs: change them there, and run it again.
"""


def lines_of(path):
    with open(path, encoding="utf-8") as file:
        return file.read().split("\n")


def crates_of(top):
    """The crates in the order of crates.txt, which is lowest first."""
    lines = lines_of(f"{top}/crates.txt")
    return [line.split(":")[0].split()[0] for line in lines if ":" in line and not line.startswith("#")]


def title_of(folder):
    """The first sentence of what the root file says of its crate."""
    for name in ("lib.rt", "main.rt"):
        if os.path.isfile(f"{folder}/src/{name}"):
            said = [line[3:].strip() for line in lines_of(f"{folder}/src/{name}") if line.startswith("//!")]
            return " ".join(said).split(". ")[0].rstrip(".")
    return ""


def dictionary_of(path):
    """What the file is about, and its definitions as pairs of a name and what it is."""
    head = []
    for line in lines_of(path):
        if not line.startswith("--"):
            break
        head.append(line[2:])
    # where most lines say what a name is
    starts = [found.end() for found in (re.match(r"   \S.*?\s{2,}(?=\S)", text) for text in head) if found]
    column = max(set(starts), key=starts.count) if starts else 0
    about, entries = [], []
    for text in head:
        entry = re.match(r"   (\S.*?)(?:\s{2,}(\S.*))?$", text)
        if entry and not entry[2] and 0 < column < len(text) and text[column - 1] == " ":
            entry = re.match(r"   (\S.{%d}) (.*)$" % (column - 5), text) or entry
        if entry and entries and entries[-1][0].endswith(","):
            entries[-1] = [f"{entries[-1][0]} {entry[1]}", entry[2] or ""]
        elif entry:
            entries.append([entry[1].rstrip(), entry[2] or ""])
        elif entries and text.startswith("    "):
            entries[-1][1] = f"{entries[-1][1]} {text.strip()}".strip()
        elif text.strip() and not entries:
            about.append(text.strip())
    return " ".join(about), entries


def modules_of(folder, path="Lib", within=""):
    """The files of specs/ in the order in which Lib.antt names them, each followed by those that it names itself."""
    file = f"{folder}/specs/{path}.antt"
    if not os.path.isfile(file):
        return []
    found = []
    for name in re.findall(r"^pub mod (\w+)", "\n".join(lines_of(file)), re.M):
        found += [within + name, *modules_of(folder, within + name, f"{within}{name}/")]
    return found


def main():
    out = [HEAD]
    for crate in crates_of(TOP):
        folder = f"{TOP}/crates/{crate}"
        modules = modules_of(folder)
        if modules:
            out.append(f"## `{crate}`\n\n{title_of(folder)}.\n")
        for module in modules:
            about, entries = dictionary_of(f"{folder}/specs/{module}.antt")
            out.append(f"**`{module}`.** {about}\n")
            if entries:
                cell = lambda text: text.replace("|", "\\|")
                rows = [f"| `{cell(name)}` | {cell(what)} |" for name, what in entries]
                out.append("| Name | What it is |\n|---|---|\n" + "\n".join(rows) + "\n")
    sys.stdout.write("\n".join(out))


if __name__ == "__main__":
    main()
