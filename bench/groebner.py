#!/usr/bin/env python3
"""Times the reduced basis of four modules beside Singular's `std`, where it is installed, as a ratio in one run: a
colon module of two cubics in four variables over GF(5), the graphs of one swap and of two swaps over GF(2), and a random
module of 30 positions and 60 generators over GF(7) in three variables. Where a basis takes less than some milliseconds it
is made many times over by both, and the time is that of one. The program is proved and built in a copy of the repository,
which takes minutes where nothing is kept. Outside the gate; run it on an idle machine.

    bench/groebner.py [SECONDS]     how long one run may take; 300 where it is not given
"""

import os
import random
import shutil
import subprocess
import sys
import tempfile

TOP = os.path.dirname(os.path.dirname(os.path.abspath(__file__)))
LIBRARIES = "alg_core prime_field poly_module module_groebner algebra_tests"
MAIN = r"""//! Reads a module, and prints how many members and terms its reduced basis has and the milliseconds that it takes to make it
//! as often as is asked. The first line has p, the number of variables, the number of positions of the first block, how often,
//! and the shifts of the positions. Each other line is a term, with a coefficient, a position from 0 and the
//! exponents; an empty line ends a generator.
#![tactic(auto)]

ghost use Rattle.std.specs.Prelude.{IfOk};
ghost use Rattle.alg_core.specs.Fields.{Has};
ghost use Rattle.alg_core.specs.Spaces.{over, place, IsPlace};
ghost use Rattle.poly_module.specs.SpaceVectors.{IsVector, AreVectors};

use alg_core::{Dp, ElimOrder, Field, Grading, ModTerm, Mono, Monomial, Space, Term, TermOrder, is_place};
use algebra_tests::{are_homogeneous, is_positive};
use module_groebner::reduced_basis;
use poly_module::{Vector, make};
use prime_field::PrimeField;
use std::alloc::Global;
use std::test::Fail;
use std::time::Instant;

fn numbers(alloc: Global, line: &str) -> Result<Vec<u32>, Fail> {
    let mut numbers = Vec::new(alloc);
    for word in line.split_whitespace() {
        let Ok(number) = word.parse::<u32>() else {
            return Err(Fail::new("no number"));
        };
        numbers.push(number)?;
    }
    Ok(numbers)
}

fn term<F: Field<Elem = u16>, O: TermOrder>(
    alloc: Global,
    space: &Space<F, O>,
    listed: &[u32],
) -> Result<Term<u16, Mono>, Fail>
    ensures has { IfOk result (λ t. Has (F.field space.now.field) t.coef) }
    ensures place { IfOk result (λ t. IsPlace (over F.field O.order space.now) (place (λ m. m) t.at)) }
{
    if listed.len() < 2 {
        return Err(Fail::new("no term"));
    }
    let Ok(coef) = u16::try_from(listed[0]) else {
        return Err(Fail::new("no coefficient"));
    };
    let mono = Mono::from_exps(alloc, &listed[2..])?;
    let at = ModTerm { pos: u64::from(listed[1]), mono };
    if space.field.has(coef) && is_place(space, &at) {
        Ok(Term { coef, at })
    } else {
        Err(Fail::new("no term of the space"))
    }
}

fn generator<F: Field<Elem = u16>, O: TermOrder>(
    alloc: Global,
    space: &Space<F, O>,
    lists: &[Vec<u32>],
) -> Result<Vector<u16, Mono>, Fail>
    ensures vector { IfOk result (IsVector (over F.field O.order space.now) (λ m. m)) }
{
    let mut terms = Vec::new(alloc);
    for listed in lists {
        terms.push(term(alloc, space, listed.as_slice())?)?;
    }
    let made = make(alloc, space, terms.as_slice())?;
    Ok(made)
}

fn generators<F: Field<Elem = u16>, O: TermOrder>(
    alloc: Global,
    space: &Space<F, O>,
    lists: &[Vec<Vec<u32>>],
) -> Result<Vec<Vector<u16, Mono>>, Fail>
    ensures vectors { IfOk result (λ vs. AreVectors (over F.field O.order space.now) (λ m. m) vs.items) }
{
    let mut made = Vec::new(alloc);
    for list in lists {
        made.push(generator(alloc, space, list.as_slice())?)?;
    }
    Ok(made)
}

/// How many members and terms the reduced basis has.
fn size_of_basis<F: Field<Elem = u16>, O: TermOrder>(
    alloc: Global,
    space: &Space<F, O>,
    generators: &[Vector<u16, Mono>],
) -> Result<(usize, usize), Fail>
    requires vectors { AreVectors (over F.field O.order space.now) (λ m. m) generators.now }
{
    if !is_positive(space) || !are_homogeneous(space, generators) {
        return Err(Fail::new("not homogeneous"));
    }
    let Ok(basis) = reduced_basis(alloc, space, generators, 1000) else {
        return Err(Fail::new("no basis"));
    };
    let mut terms: usize = 0;
    for v in basis.as_slice() {
        terms = terms.wrapping_add(v.terms().len());
    }
    Ok((basis.len(), terms))
}

fn timed<O: TermOrder>(
    rt: &HostRuntime,
    space: &Space<PrimeField, O>,
    times: u32,
    lists: &[Vec<Vec<u32>>],
) -> Result<(), Fail> {
    let alloc = rt.alloc();
    let generators = generators(alloc, space, lists)?;
    let start = Instant::now(rt)?;
    let mut size = (0, 0);
    for _ in 0..times {
        size = size_of_basis(alloc, space, generators.as_slice())?;
    }
    let elapsed = start.elapsed(rt)?;
    println!(rt; "{} {} {}", size.0, size.1, elapsed.as_millis())?;
    Ok(())
}

/// The numbers of the lines, in groups that empty lines end.
fn groups(rt: &HostRuntime) -> Result<Vec<Vec<Vec<u32>>>, Fail> {
    let alloc = rt.alloc();
    let mut groups = Vec::new(alloc);
    let mut group = Vec::new(alloc);
    for line in rt.lines(alloc) {
        let listed = numbers(alloc, line?.as_str())?;
        if listed.is_empty() {
            groups.push(group)?;
            group = Vec::new(alloc);
        } else {
            group.push(listed)?;
        }
    }
    Ok(groups)
}

fn main(rt: HostRuntime) -> Result<(), Fail> {
    let alloc = rt.alloc();
    let groups = groups(&rt)?;
    if groups.len() < 1 || groups[0].len() < 1 || groups[0][0].len() < 4 || groups[0][0][1] > 8 {
        return Err(Fail::new("no space"));
    }
    let head = &groups[0][0];
    let Ok(field) = PrimeField::new(head[0]) else {
        return Err(Fail::new("no field"));
    };
    let n = head[1] as usize;
    let weights = vec![in alloc; 1; n]?;
    let grading = Grading {
        weights: vec![in alloc; 1; n]?,
        shifts: Vec::from_slice(alloc, &head[4..])?,
    };
    let lists = &groups[1..];
    if head[2] == 0 {
        let space = Space { field, order: Dp { weights }, grading };
        timed(&rt, &space, head[3], lists)
    } else {
        let order = ElimOrder { first: u64::from(head[2]), weights };
        timed(&rt, &Space { field, order, grading }, head[3], lists)
    }
}
"""
PROOFS = {
    "generator/Answers.antt": r"""use Rattle.std.proofs.Common.{ℕ, List, sym, subst}
use Rattle.std.specs.Prelude.{All}
use Rattle.alg_core.specs.Fields.{Has}
use Rattle.alg_core.specs.Spaces.{over, entry, entries, IsPlace}
use Rattle.poly_module.proofs.CheckedEntries.{all_pushed}
use Rattle.timed.proofs.generator.Goals as goal

pub loop-listed-preserved : goal.loop-listed-preserved
loop-listed-preserved g c =
    let S = over g.F.Field.field g.O.TermOrder.order c.args.space.now in
    all_pushed (entry (λ m. m)) (λ e. Has S.field e.1 × IsPlace S e.0) _ _ _ c.in_ok-push.ensures.items c.loop-listed.invariant (c.in_ok-term.ensures.has, c.in_ok-term.ensures.place)

pub make-requires : goal.make-requires
make-requires g c =
    let S = over g.F.Field.field g.O.TermOrder.order c.args.space.now in
    record { given = subst (λ l. All (λ e. Has S.field e.1 × IsPlace S e.0) (entries (λ (m : List ℕ). m) l)) (sym c.as_slice-2.ensures.value) c.loop-listed.invariant }
""",
    "generator/Invariants.antt": r"""use Rattle.std.specs.Prelude.{All}
use Rattle.alg_core.specs.Fields.{Has}
use Rattle.alg_core.specs.Spaces.{over, entries, IsPlace}
use Rattle.timed.proofs.generator.Given as goal

abbrev pub invariant-loop-listed : goal.invariant-loop-listed
invariant-loop-listed g l =
    let S = over g.F.Field.field g.O.TermOrder.order l.space in
    All (λ e. Has S.field e.1 × IsPlace S e.0) (entries (λ m. m) l.terms.items)
""",
    "generators/Invariants.antt": r"""use Rattle.std.proofs.Common.{ℕ, List}
use Rattle.alg_core.specs.Spaces.{over}
use Rattle.poly_module.specs.SpaceVectors.{AreVectors}
use Rattle.timed.proofs.generators.Given as goal

abbrev pub invariant-loop-list : goal.invariant-loop-list
invariant-loop-list g l = AreVectors (over g.F.Field.field g.O.TermOrder.order l.space) (λ m. m) l.made.items
""",
    "size_of_basis/Answers.antt": r"""use Rattle.std.proofs.Common.{refl}
use Rattle.timed.proofs.size_of_basis.Goals as goal

pub reduced_basis-requires-clause-homogeneous : goal.reduced_basis-requires-clause-homogeneous
reduced_basis-requires-clause-homogeneous g c = c.if-not-are_homogeneous.ensures.divided refl
""",
}


def monomials(n, degree):
    if n == 1:
        return [(degree,)]
    return [(first, *rest) for first in range(degree, -1, -1) for rest in monomials(n - 1, degree - first)]


def colon():
    """p, the variables, the positions of the first block, the shifts, and the generators as terms by position."""
    f, g = ({m: random.randrange(1, 5) for m in monomials(4, 3)} for _ in range(2))
    return 5, 4, 1, [0, 3], [[(0, f), (1, {(0,) * 4: 1})], [(0, g)]]


def one_swap():
    """Marks for a+b and a*b: the coordinates of what the swap changes of 1 and b, and then these elements themselves."""
    one = {(0, 0): 1}
    return 2, 2, 2, [0, 1] * 2, [[(2, one)], [(0, {(1, 0): 1}), (3, one)]]


def two_swaps():
    """Marks for a+b, c+d (as variables of degree 1), a*b and c*d: the coordinates of what the swap changes of 1, b, d and
    b*d, and then these elements themselves."""
    mark = lambda *places: tuple(int(k in places) for k in range(4))
    one = {mark(): 1}
    differences = [[], [(0, {mark(0): 1})], [(0, {mark(1): 1})], [(0, {mark(0, 1): 1}), (1, {mark(1): 1}), (2, {mark(0): 1})]]
    return 2, 4, 4, [0, 1, 1, 2] * 2, [[*d, (4 + i, one)] for i, d in enumerate(differences)]


def random_module():
    generators = []
    for _ in range(60):
        degree, parts = random.randrange(2, 5), {}
        for _ in range(8):
            parts.setdefault(random.randrange(30), {})[random.choice(monomials(3, degree))] = random.randrange(1, 7)
        generators.append(sorted(parts.items()))
    return 7, 3, 0, [0] * 30, generators


def as_numbers(module, times):
    p, n, first, shifts, generators = module
    groups = [[[p, n, first, times, *shifts]]] + [[[c, q, *m] for q, f in g for m, c in f.items()] for g in generators]
    return "".join("".join(" ".join(map(str, line)) + "\n" for line in group) + "\n" for group in groups)


def as_singular(module, times):
    p, n, first, shifts, generators = module
    names = "xyzw"[:n]
    term = lambda q, m, c: "*".join([str(c), *(f"{v}^{e}" for v, e in zip(names, m) if e), f"gen({q + 1})"])
    vectors = ["+".join(term(q, m, c) for q, f in g for m, c in f.items()) for g in generators]
    order = "(c,dp)" if first else "(dp,c)"
    return (
        f'system("--ticks-per-sec",1000); ring r={p},({",".join(names)}),{order}; option(redSB); module M={",".join(vectors)};'
        f' attrib(M,"isHomog",intvec({",".join(map(str, shifts))})); int k; int c; module G; int t=timer; for(k=1;k<={times};k++){{G=std(M);}} int u=timer-t;'
        " for(k=1;k<=size(G);k++){c=c+size(G[k]);} print(string(size(G),\" \",c,\" \",u)); quit;"
    )


def answer(words, text, folder, seconds):
    """The last line of three numbers: members, terms, milliseconds."""
    try:
        run = subprocess.run(words, input=text, cwd=folder, capture_output=True, text=True, timeout=seconds)
    except subprocess.TimeoutExpired:
        return None
    found = [line.split() for line in run.stdout.splitlines() if len(line.split()) == 3 and line.replace(" ", "").isdigit()]
    return tuple(map(int, found[-1])) if found else None


def built(folder):
    """The program, in a copy of the repository that has it as one more crate."""
    shutil.copytree(f"{TOP}/crates", f"{folder}/crates", ignore=shutil.ignore_patterns("out", "must-fail"))
    shutil.copy(f"{TOP}/HANDLES", folder)
    with open(f"{TOP}/crates.txt", encoding="utf-8") as file:
        lines = file.read()
    crate = f"{folder}/crates/timed"
    files = {"src/main.rt": MAIN, **{f"proofs/{name}": text for name, text in PROOFS.items()}}
    for name, text in files.items():
        os.makedirs(os.path.dirname(f"{crate}/{name}"), exist_ok=True)
        with open(f"{crate}/{name}", "w", encoding="utf-8") as file:
            file.write(text)
    with open(f"{folder}/crates.txt", "w", encoding="utf-8") as file:
        file.write(f"{lines}timed: {LIBRARIES}\n")
    run = subprocess.run(["rt", "run"], input="", cwd=crate, capture_output=True, text=True)
    program = f"{crate}/out/timed"
    if not os.access(program, os.X_OK):
        sys.exit(f"{run.stdout[-2000:]}\n{run.stderr[-2000:]}\nthe program was not proved")
    return program


def shown(found, times):
    return "over the limit" if found is None else f"{found[0]} members, {found[1]} terms, {found[2] / times:g} ms"


def main():
    seconds = int(sys.argv[1]) if len(sys.argv) > 1 else 300
    random.seed(7)
    cases = [
        ("colon module of two cubics", colon(), 1000),
        ("graph of one swap", one_swap(), 10000),
        ("graph of two swaps", two_swaps(), 10000),
        ("random module", random_module(), 1),
    ]
    with tempfile.TemporaryDirectory() as folder:
        program = built(folder)
        for name, module, times in cases:
            ours = answer([program], as_numbers(module, times), folder, seconds)
            theirs = answer(["Singular", "-q"], as_singular(module, times), folder, seconds) if shutil.which("Singular") else None
            ratio = f", ratio {ours[2] / max(theirs[2], 1):.1f}" if ours and theirs else ""
            print(f"{name}: {shown(ours, times)}; Singular {shown(theirs, times)}{ratio}", flush=True)


if __name__ == "__main__":
    main()
