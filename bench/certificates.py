#!/usr/bin/env python3
"""Certificates made another way: `certificates.py SCRIPT "P1,P2,.."` writes the certificate that `invring ring` ought to write for
a script whose primary invariants are given (as `invring primary` or another program tells them).

Everything is linear algebra in one degree after another: no division, no S-vector, no Gröbner basis. A basis of a module is read
off the leads of the echelon form of each degree. It is slow, and shares no code and no method with the program, so that it serves
for the expected answers of the tests (`docs/TRANSCRIPTS.md`). Only the search for the primary invariants is not done again.
"""
import itertools
import re
import sys


def compositions(total, weights):
    """The exponents of the weighted degree `total`, in no order."""
    if not weights:
        return [()] if total == 0 else []
    return [
        (e,) + rest
        for e in range(total // weights[0] + 1)
        for rest in compositions(total - e * weights[0], weights[1:])
    ]


def rising(weights):
    """The key by which monomials rise in weighted degree reverse lexicographic order."""
    return lambda a: (sum(w * e for w, e in zip(weights, a)), [-e for e in reversed(a)])


class Field:
    def __init__(self, p):
        self.p = p

    def inverse(self, a):
        return pow(a, self.p - 2, self.p)

    def times(self, f, g):
        product = {}
        for (a, c), (b, d) in itertools.product(f.items(), g.items()):
            key = tuple(x + y for x, y in zip(a, b))
            product[key] = (product.get(key, 0) + c * d) % self.p
        return {a: c for a, c in product.items() if c}

    def sum(self, f, g, factor=1):
        total = dict(f)
        for a, c in g.items():
            total[a] = (total.get(a, 0) + factor * c) % self.p
        return {a: c for a, c in total.items() if c}

    def power(self, fs, exps, one):
        value = one
        for f, e in zip(fs, exps):
            for _ in range(e):
                value = self.times(value, f)
        return value

    def echelon(self, rows, order):
        """The reduced echelon form of rows (dicts), leads greatest by `order`, falling."""
        made = []
        for row in rows:
            row = self.reduced(row, made)
            if row:
                lead = max(row, key=order)
                row = self.sum({}, row, self.inverse(row[lead]))
                made = [(m, self.sum(r, row, -r.get(lead, 0))) for m, r in made] + [(lead, row)]
        return [r for _, r in sorted(made, key=lambda x: order(x[0]), reverse=True)]

    def reduced(self, row, made):
        for lead, other in made:
            if row.get(lead):
                row = self.sum(row, other, -row[lead])
        return row

    def first_solution(self, columns, f):
        """Coefficients of f by the columns that no columns before them give; None where there are none."""
        chosen, made = [], []
        for j, column in enumerate(columns):
            rest, how = self.expressed(column, made)
            if rest:
                lead = next(iter(rest))
                factor = self.inverse(rest[lead])
                how = {i: -c for i, c in how.items()}
                how[j] = 1
                made.append((lead, self.sum({}, rest, factor), {i: c * factor % self.p for i, c in how.items()}))
        rest, how = self.expressed(f, made)
        return None if rest else {j: c for j, c in how.items() if c}

    def expressed(self, f, made):
        how = {}
        for lead, row, by in made:
            c = f.get(lead, 0)
            if c:
                f = self.sum(f, row, -c)
                for i, d in by.items():
                    how[i] = (how.get(i, 0) + c * d) % self.p
        return f, how

    def kernel(self, columns):
        """A basis of the relations of the columns, as lists of coefficients."""
        relations, made = [], []
        for j, column in enumerate(columns):
            rest, how = self.expressed(column, made)
            how = {i: -c % self.p for i, c in how.items()}
            how[j] = 1
            if rest:
                lead = next(iter(rest))
                factor = self.inverse(rest[lead])
                made.append((lead, self.sum({}, rest, factor), {i: c * factor % self.p for i, c in how.items()}))
            else:
                relations.append({i: c for i, c in how.items() if c})
        return relations


def read_script(text):
    p, names = re.search(r"ring \w+=(\d+),\(([^)]*)\),dp;", text).groups()
    matrices = {
        name: [int(c) for c in cells.split(",")]
        for name, cells in re.findall(r"matrix (\w+)\[\d+\]\[\d+\]=([^;]*);", text)
    }
    last = re.search(r"invariant_ring\(([^)]*)\)", text)
    used = last.group(1).split(",") if last else list(matrices)
    return int(p), names.split(","), [matrices[name] for name in used]


def read_poly(text, names, p):
    f = {}
    for sign, term in re.findall(r"([+-]?)([^+-]+)", text):
        coef, exps = (-1 if sign == "-" else 1), [0] * len(names)
        for factor in term.split("*"):
            name, _, exp = factor.partition("^")
            if name.isdigit():
                coef *= int(name)
            else:
                exps[names.index(name)] += int(exp or 1)
        f[tuple(exps)] = (f.get(tuple(exps), 0) + coef) % p
    return {a: c for a, c in f.items() if c}


class Certificate:
    def __init__(self, script, primaries):
        self.p, self.names, self.gens = read_script(script)
        self.field = Field(self.p)
        self.n = len(self.names)
        self.one = {(0,) * self.n: 1}
        self.theta = [read_poly(f, self.names, self.p) for f in primaries.split(",")]
        self.ds = [sum(next(iter(f))) for f in self.theta]
        self.order = rising([1] * self.n)
        self.marks = rising(self.ds)
        self.gens = [[c % self.p for c in m] for m in self.gens]
        self.standard()

    # the polynomials over the primary invariants

    def standard(self):
        """The standard monomials, rising, and the least monomials that are not standard."""
        self.B, self.corners, degree = [], [], 0
        while True:
            rows = [
                self.field.times({a: 1}, f)
                for f, d in zip(self.theta, self.ds)
                for a in (compositions(degree - d, [1] * self.n) if degree >= d else [])
            ]
            leads = {max(r, key=self.order) for r in self.field.echelon(rows, self.order)}
            here = [a for a in compositions(degree, [1] * self.n) if a not in leads]
            above = [c for c in self.corners]
            self.corners += [
                a for a in leads if not any(all(x >= y for x, y in zip(a, c)) for c in above)
            ]
            if not here:
                break
            self.B += sorted(here, key=self.order)
            degree += 1

    def value(self, key):
        b, marks = key
        return self.field.times({b: 1}, self.field.power(self.theta, marks, self.one))

    def keys(self, degree):
        """The monomials b * @^a of a degree."""
        return [
            (b, a)
            for b in self.B
            if sum(b) <= degree
            for a in compositions(degree - sum(b), self.ds)
        ]

    def coordinates(self, f):
        if not f:
            return {}
        keys = self.keys(sum(next(iter(f))))
        found = self.field.first_solution([self.value(k) for k in keys], f)
        return {keys[j]: c for j, c in found.items()}

    # the group

    def image(self, f, matrix):
        n = self.n
        rows = []
        for i in range(n):
            row = {}
            for j in range(n):
                c = matrix[i * n + j]
                if c:
                    row[tuple(int(k == j) for k in range(n))] = c
            rows.append(row)
        total = {}
        for a, c in f.items():
            total = self.field.sum(total, self.field.power(rows, a, self.one), c)
        return total

    def product(self, a, b):
        n = self.n
        return tuple(sum(a[i * n + k] * b[k * n + j] for k in range(n)) % self.p for i in range(n) for j in range(n))

    def group(self):
        start = tuple(int(i == j) for i in range(self.n) for j in range(self.n))
        found, todo = {start}, [start]
        while todo:
            a = todo.pop()
            for g in self.gens:
                b = self.product(a, tuple(g))
                if b not in found:
                    found.add(b)
                    todo.append(b)
        return found

    # evidence

    def averages(self, group):
        factor = self.field.inverse(len(group) % self.p)
        images = []
        for b in self.B:
            total = {}
            for g in group:
                total = self.field.sum(total, self.image({b: 1}, list(g)))
            images.append(self.field.sum({}, total, factor))
        return images

    def kernel(self):
        """The reduced basis of the graph, by falling lead: pairs of the last part, and whether the others are 0."""
        count, place = len(self.B), {b: i for i, b in enumerate(self.B)}
        block = len(self.gens) * count

        def order(key):
            position, marks = key
            return (position < block, self.marks(marks), -position)

        differences = []
        for b in self.B:
            vector = {(block + place[b], (0,) * len(self.ds)): 1}
            for g, matrix in enumerate(self.gens):
                moved = self.field.sum(self.image({b: 1}, matrix), {b: 1}, -1)
                for (c, a), coef in self.coordinates(moved).items():
                    vector[(g * count + place[c], a)] = coef
            differences.append(vector)
        basis, degree, quiet = [], 0, 0
        while quiet <= 2 * max(self.ds) + sum(map(max, zip(*self.B))):
            rows = [
                {(pos, tuple(x + y for x, y in zip(marks, a))): c for (pos, marks), c in vector.items()}
                for b, vector in zip(self.B, differences)
                if sum(b) <= degree
                for a in compositions(degree - sum(b), self.ds)
            ]
            new = []
            for row in self.field.echelon(rows, order):
                lead = max(row, key=order)
                if not any(l[0] == lead[0] and all(x <= y for x, y in zip(l[1], lead[1])) for l, _ in basis):
                    new.append((lead, row))
            quiet = 0 if new else quiet + 1
            basis += new
            degree += 1
        basis.sort(key=lambda x: order(x[0]), reverse=True)
        members = []
        for _, row in basis:
            last = {(self.B[pos - block], a): c for (pos, a), c in row.items() if pos >= block}
            members.append((last, all(pos >= block for pos, _ in row)))
        return members

    # secondary invariants

    def invariants(self, degree):
        monomials = sorted(compositions(degree, [1] * self.n), key=self.order, reverse=True)
        columns = []
        for a in monomials:
            column = {}
            for g, matrix in enumerate(self.gens):
                for b, c in self.field.sum(self.image({a: 1}, matrix), {a: 1}, -1).items():
                    column[(g, b)] = c
            columns.append(column)
        rows = [{monomials[j]: c for j, c in r.items()} for r in self.field.kernel(columns)]
        return self.field.echelon(rows, self.order)

    def terms(self, degree):
        """The terms of combinations of a degree, in the order of their choice."""
        return [
            (j, a)
            for j, s in enumerate(self.secondaries)
            if sum(next(iter(s))) <= degree
            for a in sorted(compositions(degree - sum(next(iter(s))), self.ds), key=self.marks)
        ]

    def combination(self, f):
        if not f:
            return {}
        terms = self.terms(sum(next(iter(f))))
        columns = [
            self.field.times(self.secondaries[j], self.field.power(self.theta, a, self.one)) for j, a in terms
        ]
        found = self.field.first_solution(columns, f)
        return None if found is None else {terms[j]: c for j, c in found.items()}

    def choose(self, images):
        self.secondaries = []
        for degree in sorted({sum(next(iter(f))) for f in images if f}):
            for f in self.invariants(degree):
                if self.combination(f) is None:
                    self.secondaries.append(f)

    def word(self, f, generators):
        """f as a polynomial in the primary invariants and the generators, by the smallest monomials; None where it is none."""
        weights = self.ds + [sum(next(iter(g))) for g in generators]
        monomials = sorted(compositions(sum(next(iter(f))), weights), key=rising(weights))
        columns = [self.field.power(self.theta + generators, a, self.one) for a in monomials]
        found = self.field.first_solution(columns, f)
        return None if found is None else {monomials[j]: c for j, c in found.items()}

    # text

    def number(self, c):
        return c - self.p if 2 * c > self.p else c

    def text(self, terms):
        """Terms (factors, coefficient), as they are printed."""
        if not terms:
            return "0"
        out = ""
        for factors, c in terms:
            c = self.number(c)
            out += "-" if c < 0 else "+" if out else ""
            body = "*".join(name if e == 1 else f"{name}^{e}" for name, e in factors if e)
            out += str(abs(c)) if not body else body if abs(c) == 1 else f"{abs(c)}*{body}"
        return out

    def poly(self, f):
        return self.text([(zip(self.names, a), f[a]) for a in sorted(f, key=self.order, reverse=True)])

    def mark_names(self):
        return [f"@{j + 1}" for j in range(len(self.ds))]

    def marked(self, f):
        keys = sorted(f, key=lambda k: (self.order(k[0]), self.marks(k[1])), reverse=True)
        names = self.names + self.mark_names()
        return self.text([(zip(names, b + a), f[(b, a)]) for b, a in keys])

    def combination_text(self, c):
        keys = sorted(c, key=lambda t: (-t[0], self.marks(t[1])), reverse=True)
        names = self.mark_names()
        return self.text([(list(zip(names, a)) + [(f"%{j + 1}", 1)], c[(j, a)]) for j, a in keys])

    def word_text(self, u, generators):
        weights = self.ds + [sum(next(iter(g))) for g in generators]
        names = self.mark_names() + [f"${l + 1}" for l in range(len(generators))]
        return self.text([(zip(names, a), u[a]) for a in sorted(u, key=rising(weights), reverse=True)])

    def lines(self):
        nothing = (0,) * len(self.ds)
        yield "invring certificate 1"
        yield f"field {self.p}"
        yield "vars " + " ".join(self.names)
        for m in self.gens:
            yield "matrix " + " ".join(str(self.number(c)) for c in m)
        group = self.group()
        yield f"order {len(group)}"
        for f in self.theta:
            yield "primary " + self.poly(f)
        for a in sorted(self.corners, key=self.order, reverse=True):
            lift = {(a, nothing): 1}
            for key, c in self.coordinates({a: 1}).items():
                lift[key] = -c % self.p
            yield "lift " + self.marked(lift)
        for i, name in enumerate(self.names):
            e = 1
            while True:
                form = self.coordinates({tuple(e * int(k == i) for k in range(self.n)): 1})
                if all(any(a) for _, a in form):
                    break
                e += 1
            yield f"power {name} {e} " + self.marked(form)
        yield f"rank {len(self.B)}"
        if len(group) % self.p:
            images, members = self.averages(group), None
        else:
            members = self.kernel()
            images = []
            for u, fixed in members:
                if fixed:
                    value = {}
                    for key, c in u.items():
                        value = self.field.sum(value, self.value(key), c)
                    images.append(value)
        self.choose(images)
        for f in self.secondaries:
            yield "secondary " + self.poly(f)
        combinations = [self.combination_text(self.combination(f)) for f in images]
        if members is None:
            yield "evidence reynolds"
            for b, c in zip(self.B, combinations):
                yield f"image {self.poly({b: 1})} {c}"
        else:
            yield "evidence kernel"
            rest = iter(combinations)
            for u, fixed in members:
                yield f"fixed {self.marked(u)} {next(rest)}" if fixed else f"moved {self.marked(u)}"
        generators = []
        for f in self.secondaries:
            if sum(next(iter(f))) > 0 and self.word(f, generators) is None:
                generators.append(f)
        for f in generators:
            yield "irreducible " + self.poly(f)
        for f in self.secondaries:
            yield "word " + self.word_text(self.word(f, generators), generators)
        yield "end"


if __name__ == "__main__":
    script, primaries = sys.argv[1:]
    print("\n".join(Certificate(open(script).read() if "\n" not in script and "=" not in script else script, primaries).lines()))
