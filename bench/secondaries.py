#!/usr/bin/env python3
"""Times the calls on secondary invariants and irreducible generators in two examples: the combinations of the averages
of all standard monomials, the first superfluous secondary invariant, the choice of the irreducible generators, the first
superfluous one of these, and the words of the secondary invariants. Beside them stands
what Singular's finvar.lib needs for its own secondary and irreducible invariants over the same primary ones, where it is
installed. The choice of secondary invariants is not timed: it asks that every invariant is a combination of given ones,
which no test at run time can tell, so no proved program of this size makes it. The program is proved and built in a copy
of the repository, which takes minutes where nothing is kept. Outside the gate; run it on an idle machine.

    bench/secondaries.py [SECONDS]     how long one run may take; 300 where it is not given
"""

import itertools
import os
import shutil
import subprocess
import sys
import tempfile

import groebner

NAMES = "abcdef"
LIBRARIES = "alg_core prime_field poly_module secondary_gens irreducible_gens algebra_tests"
SHIFT = [int(j == (i + 1) % 6) for i in range(6) for j in range(6)]
MINUS_ONE = [-int(i == j) for i in range(6) for j in range(6)]

# The primary invariants; the leads of their ideal by dp, with which Singular's std agrees; and the leads of the secondary
# invariants, each of which is the sum of what its lead is moved to.
SHIFT_CASE = (
    "shift of six over GF(7)",
    7,
    SHIFT,
    ["a+b+c+d+e+f", "a*b+b*c+c*d+d*e+a*f+e*f", "a*c+b*d+a*e+c*e+b*f+d*f", "a*d+b*e+c*f", "a*c*e+b*d*f", "a*b*c*d*e*f"],
    "a bd bc b2 cde cd2 c2d c3 be3 c2e2 d3e d4 de4 ce4 d2e3 d2e2f2 e6 d3f4 de3f3 ce3f3 e5f2 e3f5 de2f5 ce2f5 "
    "be2f5 d2ef5 c2ef5 e4f4 e2f7 def7 cef7 bef7 d2f7 cdf7 c2f7 ef9 df9 cf9 bf9 f11",
    "1 a3 a2b ab2 a2c abd a4 a3b a2b2 ab3 a3c a2bc a5 a4b a5b a4b2 a5c a6b a5b2 a4b3 a3b4 a6b2 a5b3 a9",
)
MINUS_CASE = (
    "minus one in six over GF(3)",
    3,
    MINUS_ONE,
    [f"{v}^2" for v in NAMES],
    "a2 b2 c2 d2 e2 f2",
    " ".join("".join(NAMES[i] for i in s) or "1" for n in (0, 2, 4, 6) for s in itertools.combinations(range(6), n)),
)

MAIN = r"""//! Reads primary invariants, secondary ones, invariants and irreducible generators, and prints what each call
//! on them answers and the milliseconds.
//! The first line has p, the number of variables, and how many polynomials of each kind follow. Each other line
//! is a term, with a coefficient, the position 0 and the exponents; an empty line ends a polynomial.
#![tactic(auto)]

ghost use Rattle.std.specs.Prelude.{IfOk};
ghost use Rattle.alg_core.specs.Fields.{Has};
ghost use Rattle.alg_core.specs.Spaces.{over, place, IsPlace};
ghost use Rattle.poly_module.specs.SpaceVectors.{IsVector, AreVectors};

use alg_core::{Dp, Field, Grading, ModTerm, Mono, Monomial, Space, Term, TermOrder, is_place};
use algebra_tests::{are_positive_forms, are_small_forms, do_not_fall, has_constants};
use irreducible_gens::{choose, first_reducible, words};
use poly_module::{Vector, make};
use prime_field::PrimeField;
use secondary_gens::degrees::degrees;
use secondary_gens::{combine_all, first_redundant};
use std::alloc::Global;
use std::test::Fail;
use std::time::Instant;

fn numbers(alloc: Global, line: &str) -> Result<Vec<u32>, Fail> {
    let mut numbers = Vec::new(alloc);
    for word in line.split_whitespace() {
        let Ok(number) = word.parse::<u32>() else {
            return Err(Fail::new("no number"));
        };
        numbers.push(number)?;
    }
    Ok(numbers)
}

fn term<F: Field<Elem = u16>, O: TermOrder>(
    alloc: Global,
    space: &Space<F, O>,
    listed: &[u32],
) -> Result<Term<u16, Mono>, Fail>
    ensures has { IfOk result (λ t. Has (F.field space.now.field) t.coef) }
    ensures place { IfOk result (λ t. IsPlace (over F.field O.order space.now) (place (λ m. m) t.at)) }
{
    if listed.len() < 2 {
        return Err(Fail::new("no term"));
    }
    let Ok(coef) = u16::try_from(listed[0]) else {
        return Err(Fail::new("no coefficient"));
    };
    let mono = Mono::from_exps(alloc, &listed[2..])?;
    let at = ModTerm { pos: u64::from(listed[1]), mono };
    if space.field.has(coef) && is_place(space, &at) {
        Ok(Term { coef, at })
    } else {
        Err(Fail::new("no term of the space"))
    }
}

fn generator<F: Field<Elem = u16>, O: TermOrder>(
    alloc: Global,
    space: &Space<F, O>,
    lists: &[Vec<u32>],
) -> Result<Vector<u16, Mono>, Fail>
    ensures vector { IfOk result (IsVector (over F.field O.order space.now) (λ m. m)) }
{
    let mut terms = Vec::new(alloc);
    for listed in lists {
        terms.push(term(alloc, space, listed.as_slice())?)?;
    }
    let made = make(alloc, space, terms.as_slice())?;
    Ok(made)
}

fn generators<F: Field<Elem = u16>, O: TermOrder>(
    alloc: Global,
    space: &Space<F, O>,
    lists: &[Vec<Vec<u32>>],
) -> Result<Vec<Vector<u16, Mono>>, Fail>
    ensures vectors { IfOk result (λ vs. AreVectors (over F.field O.order space.now) (λ m. m) vs.items) }
{
    let mut made = Vec::new(alloc);
    for list in lists {
        made.push(generator(alloc, space, list.as_slice())?)?;
    }
    Ok(made)
}

fn tell(rt: &HostRuntime, name: &str, answer: u64, start: Instant) -> Result<(), Fail> {
    let elapsed = start.elapsed(rt)?;
    println!(rt; "{name} {answer} {}", elapsed.as_millis())?;
    Ok(())
}

/// The combinations of the images, and the first superfluous place.
fn time_combinations(
    rt: &HostRuntime,
    space: &Space<PrimeField, Dp>,
    theta: &[Vector<u16, Mono>],
    secs: &[Vector<u16, Mono>],
    images: &[Vector<u16, Mono>],
) -> Result<(), Fail>
    requires primaries { AreVectors (over ⟦<PrimeField as Field>⟧.field ⟦<Dp as TermOrder>⟧.order space.now) (λ m. m) theta.now }
    requires secondaries { AreVectors (over ⟦<PrimeField as Field>⟧.field ⟦<Dp as TermOrder>⟧.order space.now) (λ m. m) secs.now }
    requires images { AreVectors (over ⟦<PrimeField as Field>⟧.field ⟦<Dp as TermOrder>⟧.order space.now) (λ m. m) images.now }
{
    let alloc = rt.alloc();
    if !has_constants(alloc, space)? || !are_positive_forms(space, theta) {
        return Err(Fail::new("no primary invariants"));
    }
    if !are_small_forms(space, secs) || !are_small_forms(space, images) {
        return Err(Fail::new("not homogeneous"));
    }
    let start = Instant::now(rt)?;
    let all = combine_all(alloc, space, theta, secs, images)?;
    let mut found: u64 = 0;
    for i in 0..all.len() {
        if all[i].is_some() {
            found = found.wrapping_add(1);
        }
    }
    tell(rt, "combine_all", found, start)?;
    let start = Instant::now(rt)?;
    let redundant = first_redundant(alloc, space, theta, secs)?;
    tell(rt, "first_redundant", redundant.unwrap_or(0), start)?;
    Ok(())
}

/// The places of the irreducible generators.
fn time_choice(
    rt: &HostRuntime,
    space: &Space<PrimeField, Dp>,
    theta: &[Vector<u16, Mono>],
    secs: &[Vector<u16, Mono>],
) -> Result<(), Fail>
    requires primaries { AreVectors (over ⟦<PrimeField as Field>⟧.field ⟦<Dp as TermOrder>⟧.order space.now) (λ m. m) theta.now }
    requires secondaries { AreVectors (over ⟦<PrimeField as Field>⟧.field ⟦<Dp as TermOrder>⟧.order space.now) (λ m. m) secs.now }
{
    let alloc = rt.alloc();
    if !has_constants(alloc, space)? || !are_positive_forms(space, theta) {
        return Err(Fail::new("no primary invariants"));
    }
    if !are_small_forms(space, secs) || !do_not_fall(&degrees(alloc, space, secs)?) {
        return Err(Fail::new("not homogeneous"));
    }
    let start = Instant::now(rt)?;
    let places = choose(alloc, space, theta, secs)?;
    tell(rt, "choose", places.len() as u64, start)?;
    for place in places.as_slice() {
        println!(rt; "place {}", place)?;
    }
    Ok(())
}

/// The words of the secondary invariants, and the first superfluous irreducible generator.
fn time_words(
    rt: &HostRuntime,
    space: &Space<PrimeField, Dp>,
    theta: &[Vector<u16, Mono>],
    secs: &[Vector<u16, Mono>],
    irr: &[Vector<u16, Mono>],
) -> Result<(), Fail>
    requires primaries { AreVectors (over ⟦<PrimeField as Field>⟧.field ⟦<Dp as TermOrder>⟧.order space.now) (λ m. m) theta.now }
    requires secondaries { AreVectors (over ⟦<PrimeField as Field>⟧.field ⟦<Dp as TermOrder>⟧.order space.now) (λ m. m) secs.now }
    requires irreducibles { AreVectors (over ⟦<PrimeField as Field>⟧.field ⟦<Dp as TermOrder>⟧.order space.now) (λ m. m) irr.now }
{
    let alloc = rt.alloc();
    if !has_constants(alloc, space)? || !are_positive_forms(space, theta) {
        return Err(Fail::new("no primary invariants"));
    }
    if !are_positive_forms(space, irr) || !are_small_forms(space, secs) {
        return Err(Fail::new("not homogeneous"));
    }
    let start = Instant::now(rt)?;
    let all = words(alloc, space, theta, irr, secs)?;
    let mut found: u64 = 0;
    for i in 0..all.len() {
        if all[i].is_some() {
            found = found.wrapping_add(1);
        }
    }
    tell(rt, "words", found, start)?;
    let start = Instant::now(rt)?;
    let reducible = first_reducible(alloc, space, theta, irr)?;
    tell(rt, "first_reducible", reducible.unwrap_or(0), start)?;
    Ok(())
}

/// The numbers of the lines, in groups that empty lines end.
fn groups(rt: &HostRuntime) -> Result<Vec<Vec<Vec<u32>>>, Fail> {
    let alloc = rt.alloc();
    let mut groups = Vec::new(alloc);
    let mut group = Vec::new(alloc);
    for line in rt.lines(alloc) {
        let listed = numbers(alloc, line?.as_str())?;
        if listed.is_empty() {
            groups.push(group)?;
            group = Vec::new(alloc);
        } else {
            group.push(listed)?;
        }
    }
    Ok(groups)
}

fn timed(
    rt: &HostRuntime,
    space: &Space<PrimeField, Dp>,
    lists: &[Vec<Vec<u32>>],
    counts: (usize, usize, usize),
) -> Result<(), Fail> {
    let alloc = rt.alloc();
    let (p, s, r) = counts;
    if p > 100 || s > 1000 || r > 1000 || p + s + r > lists.len() {
        return Err(Fail::new("no lists"));
    }
    let theta = generators(alloc, space, &lists[..p])?;
    let secs = generators(alloc, space, &lists[p..p + s])?;
    if r > 0 {
        let irr = generators(alloc, space, &lists[p + s..p + s + r])?;
        return time_words(rt, space, theta.as_slice(), secs.as_slice(), irr.as_slice());
    }
    let images = generators(alloc, space, &lists[p + s..])?;
    time_choice(rt, space, theta.as_slice(), secs.as_slice())?;
    time_combinations(rt, space, theta.as_slice(), secs.as_slice(), images.as_slice())
}

fn main(rt: HostRuntime) -> Result<(), Fail> {
    let alloc = rt.alloc();
    let groups = groups(&rt)?;
    if groups.len() < 1 || groups[0].len() < 1 || groups[0][0].len() != 5 || groups[0][0][1] > 8 {
        return Err(Fail::new("no space"));
    }
    let head = &groups[0][0];
    let Ok(field) = PrimeField::new(head[0]) else {
        return Err(Fail::new("no field"));
    };
    let n = head[1] as usize;
    let grading = Grading {
        weights: vec![in alloc; 1; n]?,
        shifts: vec![in alloc; 0; 1]?,
    };
    let order = Dp { weights: vec![in alloc; 1; n]? };
    let space = Space { field, order, grading };
    let counts = (head[2] as usize, head[3] as usize, head[4] as usize);
    timed(&rt, &space, &groups[1..], counts)
}
"""

POSITIVE = "c.if-not-are_positive_forms.ensures.are refl"
SMALL = "c.if-not-are_small_forms.ensures.are refl"
ANSWERS = {
    "time_combinations": {
        "combine_all-requires-clause-primaries": POSITIVE,
        "combine_all-requires-clause-secondaries": SMALL,
        "combine_all-requires-clause-forms": SMALL.replace("forms.", "forms-2."),
    },
    "time_choice": {
        "degrees-requires": f"record {{ forms = {SMALL} }}",
        "choose-requires-clause-primaries": POSITIVE,
        "choose-requires-clause-secondaries": SMALL,
    },
    "time_words": {
        "words-requires-clause-primaries": POSITIVE,
        "words-requires-clause-irreducibles": POSITIVE.replace("forms.", "forms-2."),
        "words-requires-clause-forms": SMALL,
    },
}

SINGULAR = """LIB "finvar.lib";
ring R=%d,(a,b,c,d,e,f),dp;
matrix A[6][6]=%s;
matrix P[1][6]=%s;
list L=group_reynolds(A);
system("--ticks-per-sec",1000);
int t=rtimer;
matrix S,IS=secondary_and_irreducibles_no_molien(P,L[1]);
int u=rtimer-t;
ncols(S),u;
quit;
"""


def exponents(lead):
    """The exponents of a monomial as Singular prints it, with no signs between its factors."""
    result = dict.fromkeys(NAMES, 0)
    for sign in lead.removeprefix("1"):
        if sign in NAMES:
            last, result[sign] = sign, 1
            digits = ""
        else:
            digits += sign
            result[last] = int(digits)
    return tuple(result[v] for v in NAMES)


def standard_monomials(leads):
    """The monomials that no lead divides, by rising degree."""
    leads = [exponents(lead) for lead in leads.split()]
    is_standard = lambda m: not any(all(x <= y for x, y in zip(lead, m)) for lead in leads)
    level, result = [(0,) * 6], []
    while level:
        result += level
        above = {m[:i] + (m[i] + 1,) + m[i + 1 :] for m in level for i in range(6)}
        level = sorted(filter(is_standard, above), reverse=True)
    return result


def moved(matrix, m, p):
    """What a matrix with one entry in each row makes of a monomial: a monomial, and its coefficient."""
    coefficient, result = 1, [0] * 6
    for i in range(6):
        j = next(j for j in range(6) if matrix[6 * i + j])
        coefficient = coefficient * matrix[6 * i + j] ** m[i] % p
        result[j] += m[i]
    return tuple(result), coefficient


def average(matrix, order, m, p):
    """The average of a monomial over the powers of the matrix."""
    result, c = {}, pow(order, -1, p)
    for _ in range(order):
        result[m] = (result.get(m, 0) + c) % p
        m, sign = moved(matrix, m, p)
        c = c * sign % p
    return {m: c for m, c in result.items() if c}


def as_polynomial(text):
    """The polynomial with this text, in which all coefficients are 1."""
    power = lambda word: (word[0], int(word[2:] or "1"))
    terms = [dict(map(power, term.split("*"))) for term in text.split("+")]
    return {tuple(term.get(v, 0) for v in NAMES): 1 for term in terms}


def orbit_sum(matrix, order, lead, p):
    """The sum of what the powers of the matrix make of a monomial, each once."""
    found = average(matrix, order, lead, p)
    return {m: c * pow(found[lead], -1, p) % p for m, c in found.items()}


def as_numbers(p, kinds, images):
    lists = [f for kind in kinds for f in kind] + images
    head = f"{p} 6 {' '.join(str(len(kind)) for kind in kinds)}\n\n"
    return head + "".join("".join(f"{c} 0 {' '.join(map(str, m))}\n" for m, c in f.items()) + "\n" for f in lists)


def answers(program, text, seconds):
    """The lines that the program prints, in words; None where it takes too long."""
    try:
        run = subprocess.run([program], input=text, capture_output=True, text=True, timeout=seconds)
    except subprocess.TimeoutExpired:
        return None
    if run.returncode:
        print(run.stdout + run.stderr, file=sys.stderr)
    return [line.split() for line in run.stdout.splitlines()]


def answers_of(function):
    """The file of answers of a function: each condition of its calls was tested before."""
    head = f"use Rattle.std.proofs.Common.{{refl}}\nuse Rattle.timed.proofs.{function}.Goals as goal\n"
    return head + "".join(f"\npub {name} : goal.{name}\n{name} c = {text}\n" for name, text in ANSWERS[function].items())


def main():
    seconds = int(sys.argv[1]) if len(sys.argv) > 1 else 300
    groebner.MAIN, groebner.LIBRARIES = MAIN, LIBRARIES
    groebner.PROOFS.pop("size_of_basis/Answers.antt")
    groebner.PROOFS.update({f"{function}/Answers.antt": answers_of(function) for function in ANSWERS})
    with tempfile.TemporaryDirectory() as folder:
        program = groebner.built(folder)
        for name, p, matrix, primaries, leads, secondaries in [MINUS_CASE, SHIFT_CASE]:
            order = 6 if matrix is SHIFT else 2
            theta = [as_polynomial(text) for text in primaries]
            secs = [orbit_sum(matrix, order, exponents(lead), p) for lead in secondaries.split()]
            images = [average(matrix, order, m, p) for m in standard_monomials(leads)]
            print(f"{name}: {len(secs)} secondary invariants, {len(images)} averages", flush=True)
            first = answers(program, as_numbers(p, [theta, secs, []], images), seconds) or []
            irr = [secs[int(line[1]) - 1] for line in first if line[0] == "place"]
            second = (answers(program, as_numbers(p, [theta, secs, irr], images), seconds) or []) if irr else []
            for line in first + second:
                if len(line) == 3:
                    print(f"    {line[0]}: answers {line[1]}, {line[2]} ms", flush=True)
            if shutil.which("Singular"):
                task = SINGULAR % (p, ",".join(map(str, matrix)), ",".join(primaries))
                run = subprocess.run(["Singular", "-q"], input=task, capture_output=True, text=True, timeout=seconds)
                print(f"    Singular's own secondary and irreducible invariants: {run.stdout.strip()} ms", flush=True)


if __name__ == "__main__":
    main()
