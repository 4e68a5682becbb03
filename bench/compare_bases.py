#!/usr/bin/env python3
"""Compares `basis D` on random invertible matrices with a plain computation of its own: every monomial is
expanded, and the invariants are the kernel of the matrix of the substitution minus the identity.
Outside the gate. usage: compare_bases.py [seed [cases]]"""
import os
import random
import subprocess
import sys

TOP = os.path.dirname(os.path.dirname(os.path.abspath(__file__)))
PROGRAM = os.path.join(TOP, "crates", "invring", "out", "invring")
LISTED = [2, 3, 5, 7, 11, 257, 32003]
GREATEST_DEGREE = {1: 12, 2: 9, 3: 6, 4: 4, 5: 3, 8: 2}


def monomials(n, degree):
    """The exponents of the monomials of a degree, in falling order by dp."""
    if n == 1:
        return [(degree,)]
    return [(*front, last) for last in range(degree + 1) for front in monomials(n - 1, degree - last)]


def product(f, g, p):
    result = {}
    for a, c in f.items():
        for b, d in g.items():
            key = tuple(x + y for x, y in zip(a, b))
            result[key] = (result.get(key, 0) + c * d) % p
    return result


def image(monomial, matrix, p):
    """The monomial with the linear form of row i put for variable i."""
    n = len(monomial)
    result = {(0,) * n: 1}
    for i, exponent in enumerate(monomial):
        form = {tuple(int(k == j) for k in range(n)): matrix[i * n + j] for j in range(n)}
        for _ in range(exponent):
            result = product(result, form, p)
    return result


def echelon(rows, width, p):
    """The reduced echelon form of the rows, without zero rows."""
    done = []
    for column in range(width):
        pivot = next((row for row in rows if row[column]), None)
        if pivot is None:
            continue
        rows.remove(pivot)
        inverse = pow(pivot[column], -1, p)
        pivot = [x * inverse % p for x in pivot]
        clear = lambda row: [(x - row[column] * y) % p for x, y in zip(row, pivot)]
        rows = [clear(row) for row in rows]
        done = [clear(row) for row in done] + [pivot]
    return done


def kernel(rows, width, p):
    rows = echelon(rows, width, p)
    pivots = [next(i for i, x in enumerate(row) if x) for row in rows]
    basis = []
    for free in set(range(width)) - set(pivots):
        vector = [int(i == free) for i in range(width)]
        for row, pivot in zip(rows, pivots):
            vector[pivot] = -row[free] % p
        basis.append(vector)
    return echelon(basis, width, p)


def line(vector, keys, names, p):
    text = ""
    for c, key in zip(vector, keys):
        if c == 0:
            continue
        number = c if p == 2 or c <= (p - 1) // 2 else c - p
        powers = [v if e == 1 else f"{v}^{e}" for v, e in zip(names, key) if e]
        factors = ([str(abs(number))] if abs(number) != 1 or not powers else []) + powers
        text += ("-" if number < 0 else "+" if text else "") + "*".join(factors)
    return text + "\n"


def expected(names, p, degree, matrix):
    keys = monomials(len(names), degree)
    images = [image(key, matrix, p) for key in keys]
    equations = [[(f.get(key, 0) - (i == j)) % p for j, f in enumerate(images)] for i, key in enumerate(keys)]
    return "".join(line(v, keys, names, p) for v in kernel(equations, len(keys), p))


def is_invertible(n, p, matrix):
    return len(echelon([matrix[i * n:(i + 1) * n] for i in range(n)], n, p)) == n


def any_matrix(n, p):
    order = random.sample(range(n), n)
    signs = [random.choice([1, p - 1]) for _ in range(n)]
    return random.choice([
        [random.randrange(p) for _ in range(n * n)],
        [int(order[i] == j) for i in range(n) for j in range(n)],
        [signs[i] * int(order[i] == j) for i in range(n) for j in range(n)],
        [int(i == j) if j <= i else random.randrange(p) for i in range(n) for j in range(n)],
    ])


def random_matrix(n, p):
    while True:
        matrix = any_matrix(n, p)
        if is_invertible(n, p, matrix):
            return matrix


def main():
    random.seed(int(sys.argv[1]) if len(sys.argv) > 1 else 1)
    cases = int(sys.argv[2]) if len(sys.argv) > 2 else 200
    differ = 0
    for _ in range(cases):
        p, n = random.choice(LISTED), random.choice(list(GREATEST_DEGREE))
        degree, names = random.randrange(GREATEST_DEGREE[n] + 1), "xyzuvwst"[:n]
        matrix = random_matrix(n, p)
        script = f"ring R={p},({','.join(names)}),dp; matrix A[{n}][{n}]={','.join(map(str, matrix))};"
        ours = subprocess.run([PROGRAM, "basis", str(degree)], input=script, capture_output=True, text=True)
        if (ours.returncode, ours.stdout) != (0, expected(names, p, degree, matrix)):
            differ += 1
            print(f"basis {degree} differs: {script}")
    print(f"{cases} cases, {differ} differ")
    return differ != 0


if __name__ == "__main__":
    sys.exit(main())
