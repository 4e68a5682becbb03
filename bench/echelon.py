#!/usr/bin/env python3
"""Times the reduced row echelon form of a random square matrix over GF(p) beside FLINT's `nmod_mat_rref` on the same
matrix, where FLINT's headers and a C compiler are installed, as a ratio in one run. The program is proved and built in a
copy of the repository, which takes minutes where nothing is kept. Outside the gate; run it on an idle machine.

    bench/echelon.py [SIZE [P [RUNS]]]     1953, 7 and 3 where they are not given; p is at most 7
"""

import os
import random
import shutil
import subprocess
import sys
import tempfile

TOP = os.path.dirname(os.path.dirname(os.path.abspath(__file__)))
LIBRARIES = "alg_core prime_field lin_algebra"
MAIN = r"""//! Reads a matrix, a line of digits for each row, and prints its rank and the milliseconds that its
//! reduced row echelon form took. The first line has the characteristic.
#![tactic(auto)]

ghost use Rattle.std.specs.Prelude.{All, IfOk, OnOk};
ghost use Rattle.alg_core.specs.Fields.{Has};

use alg_core::Field;
use lin_algebra::{Matrix, echelon};
use prime_field::PrimeField;
use std::alloc::Global;
use std::test::Fail;
use std::time::Instant;

/// Adds the entries of a line.
fn add_row<F: Field<Elem = u16>>(field: &F, line: &str, cells: &mut Vec<u16>) -> Result<(), Fail>
    requires has { All (Has (F.field field.now)) cells.old.items }
    ensures has { OnOk result (All (Has (F.field field.now)) cells.new.items) }
{
    for byte in line.as_bytes() {
        let value = u16::from(byte.wrapping_sub(48));
        if !field.has(value) {
            return Err(Fail::new("no element"));
        }
        cells.push(value)?;
    }
    Ok(())
}

/// The entries of the lines.
fn entries<F: Field<Elem = u16>>(alloc: Global, field: &F, lines: &[String]) -> Result<Vec<u16>, Fail>
    ensures has { IfOk result (λ v. All (Has (F.field field.now)) v.items) }
{
    let mut cells = Vec::new(alloc);
    for line in lines {
        add_row(field, line.as_str(), &mut cells)?;
    }
    Ok(cells)
}

fn timed<F: Field<Elem = u16>>(rt: &HostRuntime, field: &F, lines: &[String]) -> Result<(), Fail> {
    let cells = entries(rt.alloc(), field, lines)?;
    let size = lines.len() as u64;
    if size > 100000 || cells.len() as u64 != size * size {
        return Err(Fail::new("not square"));
    }
    let a = Matrix { rows: size, cols: size, cells };
    let start = Instant::now(rt)?;
    let Ok(found) = echelon(rt.alloc(), field, &a) else {
        return Err(Fail::new("out of memory"));
    };
    let elapsed = start.elapsed(rt)?;
    println!(rt; "{} {}", found.pivots.len(), elapsed.as_millis())?;
    Ok(())
}

fn main(rt: HostRuntime) -> Result<(), Fail> {
    let alloc = rt.alloc();
    let mut lines = Vec::new(alloc);
    for line in rt.lines(alloc) {
        lines.push(line?)?;
    }
    if lines.is_empty() {
        return Err(Fail::new("no field"));
    }
    let Ok(p) = lines[0].parse::<u32>() else {
        return Err(Fail::new("no number"));
    };
    let Ok(field) = PrimeField::new(p) else {
        return Err(Fail::new("no field"));
    };
    timed(&rt, &field, &lines[1..])
}
"""
PROOFS = {
    "add_row/Invariants.antt": r"""use Rattle.std.specs.Prelude.{All}
use Rattle.alg_core.specs.Fields.{Has}
use Rattle.timed.proofs.add_row.Given as goal

abbrev pub invariant-loop-byte : goal.invariant-loop-byte
invariant-loop-byte g l = All (Has (g.F.Field.field l.field)) l.cells.items
""",
    "entries/Invariants.antt": r"""use Rattle.std.specs.Prelude.{All}
use Rattle.alg_core.specs.Fields.{Has}
use Rattle.timed.proofs.entries.Given as goal

abbrev pub invariant-loop-line : goal.invariant-loop-line
invariant-loop-line g l = All (Has (g.F.Field.field l.field)) l.cells.items
""",
}
THEIRS = r"""#include <stdio.h>
#include <stdlib.h>
#include <time.h>
#include <flint/nmod_mat.h>
int main(void)
{
    long n, rank;
    unsigned long p;
    nmod_mat_t a;
    struct timespec from, to;
    if (scanf("%lu %ld", &p, &n) != 2)
        return 1;
    nmod_mat_init(a, n, n, p);
    for (long i = 0; i < n; i++)
        for (long j = 0; j < n; j++) {
            int c;
            while ((c = getchar()) < '0')
                if (c == EOF)
                    return 1;
            nmod_mat_entry(a, i, j) = c - '0';
        }
    clock_gettime(CLOCK_MONOTONIC, &from);
    rank = nmod_mat_rref(a);
    clock_gettime(CLOCK_MONOTONIC, &to);
    printf("%ld %.0f\n", rank, (to.tv_sec - from.tv_sec) * 1e3 + (to.tv_nsec - from.tv_nsec) / 1e6);
    return 0;
}
"""


def built(folder):
    """The program, in a copy of the repository that has it as one more crate."""
    shutil.copytree(f"{TOP}/crates", f"{folder}/crates", ignore=shutil.ignore_patterns("out", "must-fail"))
    shutil.copy(f"{TOP}/HANDLES", folder)
    with open(f"{TOP}/crates.txt", encoding="utf-8") as file:
        lines = file.read()
    crate = f"{folder}/crates/timed"
    for name, text in {"src/main.rt": MAIN, **{f"proofs/{name}": text for name, text in PROOFS.items()}}.items():
        os.makedirs(os.path.dirname(f"{crate}/{name}"), exist_ok=True)
        with open(f"{crate}/{name}", "w", encoding="utf-8") as file:
            file.write(text)
    with open(f"{folder}/crates.txt", "w", encoding="utf-8") as file:
        file.write(f"{lines}timed: {LIBRARIES}\n")
    run = subprocess.run(["rt", "run"], input="", cwd=crate, capture_output=True, text=True)
    program = f"{crate}/out/timed"
    if not os.access(program, os.X_OK):
        sys.exit(f"{run.stdout[-4000:]}\n{run.stderr[-4000:]}\nthe program was not proved")
    return program


def flint(folder):
    """FLINT's program, or None where it cannot be compiled."""
    program = f"{folder}/theirs"
    with open(f"{program}.c", "w", encoding="utf-8") as file:
        file.write(THEIRS)
    compiler = shutil.which("cc") or shutil.which("gcc") or shutil.which("clang")
    words = [compiler, "-O2", "-o", program, f"{program}.c", "-lflint", "-lgmp"]
    return program if compiler and subprocess.run(words, capture_output=True).returncode == 0 else None


def least(program, text, runs):
    """The rank and the least milliseconds of some runs."""
    found = [subprocess.run([program], input=text, capture_output=True, text=True, check=True).stdout.split() for _ in range(runs)]
    return int(found[0][0]), min(int(ms) for _, ms in found)


def main():
    size, p, runs = (int(word) for word in (sys.argv[1:] + ["1953", "7", "3"][len(sys.argv) - 1 :]))
    random.seed(size)
    rows = ["".join(str(random.randrange(p)) for _ in range(size)) for _ in range(size)]
    with tempfile.TemporaryDirectory() as folder:
        theirs = flint(folder)
        rank, ours = least(built(folder), "\n".join([str(p), *rows]) + "\n", runs)
        print(f"{size} by {size} over GF({p}), rank {rank}: echelon {ours} ms", flush=True)
        if theirs is None:
            sys.exit("FLINT is not installed")
        same, ms = least(theirs, "\n".join([f"{p} {size}", *rows]) + "\n", runs)
        print(f"FLINT rank {same}: {ms} ms; ratio {ours / max(ms, 1):.1f}")


if __name__ == "__main__":
    main()
