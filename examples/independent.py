#!/usr/bin/env python3
"""An independent calculator of Ext over the mod 2 Steenrod algebra, to compare charts with.

    independent.py S T <module.json

prints what `ext resolve S T <module.json` prints. It is written from the definitions alone and shares nothing with the program: products
are counted over Milnor's matrices; the action of Sq(R) is solved from those of the Sq^(2^k) by linear algebra, with no Adem relation; the
resolution is any minimal one, not the canonical one, so that only the numbers of generators can be compared.
"""
import json
import math
import re
import sys
from functools import lru_cache
from itertools import product as choices
from common import whole_numbers


def trimmed(exponents):
    exponents = list(exponents)
    while exponents and exponents[-1] == 0:
        exponents.pop()
    return tuple(exponents)


@lru_cache(None)
def basis(degree, length=None):
    """The exponent lists of Milnor's basis of a degree."""
    if length is None:
        length = max(degree, 0).bit_length()
    if degree == 0:
        return ((),)
    if degree < 0 or length == 0:
        return ()
    size = 2 ** length - 1
    found = []
    for last in range(degree // size + 1):
        for front in basis(degree - last * size, length - 1):
            found.append(trimmed(list(front) + [0] * (length - 1 - len(front)) + [last]))
    return tuple(found)


def disjoint(numbers):
    """Whether the multinomial of the numbers is odd: no two share a binary digit."""
    seen = 0
    for n in numbers:
        if seen & n:
            return False
        seen |= n
    return True


@lru_cache(None)
def milnor_product(r, s):
    """The exponent lists with an odd coefficient in Sq(r) Sq(s)."""
    rows, columns = len(r), len(s)
    terms = {}

    def fill(i, left, matrix):
        if i == rows:
            first = [r[k] - sum(2 ** (j + 1) * x for j, x in enumerate(matrix[k])) for k in range(rows)]
            diagonals = []
            for n in range(1, rows + columns + 1):
                entries = []
                if n <= columns:
                    entries.append(left[n - 1])
                if n <= rows:
                    entries.append(first[n - 1])
                entries += [matrix[i - 1][n - i - 1] for i in range(1, rows + 1) if 1 <= n - i <= columns]
                if not disjoint(entries):
                    return
                diagonals.append(sum(entries))
            term = trimmed(diagonals)
            terms[term] = terms.get(term, 0) ^ 1
            return
        for row in choices(*(range(min(left[j], r[i] >> (j + 1)) + 1) for j in range(columns))):
            if sum(2 ** (j + 1) * x for j, x in enumerate(row)) <= r[i]:
                fill(i + 1, tuple(a - b for a, b in zip(left, row)), matrix + [row])

    fill(0, tuple(s), [])
    return tuple(t for t, odd in terms.items() if odd)


class Echelon:
    """Rows in echelon form, each with the combination that it is."""

    def __init__(self):
        self.rows = {}

    def cleared(self, v, c):
        while v:
            top = v.bit_length() - 1
            if top not in self.rows:
                break
            row, coefficients = self.rows[top]
            v ^= row
            c ^= coefficients
        return v, c

    def add(self, v, c):
        v, c = self.cleared(v, c)
        if v:
            self.rows[v.bit_length() - 1] = (v, c)
        return v, c


def powers(least, greatest):
    """The generators and actions of a real projective space: Sq^k x^n is (n over k) x^(n + k), and (n over k) is (k - n - 1 over k) below 0."""
    gens = {f"x{n}": n for n in range(least, greatest + 1)}
    actions = []
    for n in gens.values():
        for k in (1, 2, 4, 8, 16, 32):
            binomial = math.comb(n, k) if n >= 0 else math.comb(k - n - 1, k)
            if n + k <= greatest and binomial % 2:
                actions.append(f"Sq{k} x{n} = x{n + k}")
    return {"gens": gens, "actions": actions}


class Module:
    """A finite module: vectors of a degree are numbers, bit i for its i-th generator."""

    @staticmethod
    def read(text):
        """The module of a file's text; where it describes none, the script ends and says what was met."""
        try:
            return Module(text)
        except (ArithmeticError, AttributeError, LookupError, TypeError, ValueError) as error:
            sys.exit(f"no module file, or no module: {error!r}")

    def __init__(self, text):
        file = json.loads(text)
        if file["type"] == "real projective space":
            file = powers(file["min"], file["max"])
        names = sorted(file["gens"], key=lambda name: (file["gens"][name], name))
        degree = file["gens"]
        self.by_degree = {}
        place = {}
        for name in names:
            place[name] = len(self.by_degree.setdefault(degree[name], []))
            self.by_degree[degree[name]].append(name)
        self.bottom = min(degree.values(), default=0)
        self.span = max(degree.values(), default=0) - self.bottom
        listed = {}
        for action in file.get("actions", []):
            n, name, total = re.fullmatch(r"\s*Sq(\d+)\s+(\S+)\s*=\s*(.*?)\s*", action).groups()
            value = 0
            if total != "0":
                for term in total.split("+"):
                    value ^= 1 << place[term.strip()]
            listed[int(n), name] = value
        self.values = {(): {name: 1 << place[name] for name in names}}
        for n in range(1, self.span + 1):
            solver = Echelon()
            elements = {r: 1 << i for i, r in enumerate(basis(n))}
            made = []
            for k in range(n.bit_length()):
                for s in basis(n - 2 ** k):
                    vector = 0
                    for term in milnor_product((2 ** k,), s):
                        vector ^= elements[term]
                    made.append((vector, {name: self.squared(listed, 2 ** k, degree[name] + n - 2 ** k, self.values[s][name]) for name in names}))
            for i, (vector, _) in enumerate(made):
                solver.add(vector, 1 << i)
            for r, unit in elements.items():
                rest, combination = solver.cleared(unit, 0)
                assert rest == 0, "the squares of powers of two generate"
                self.values[r] = {name: 0 for name in names}
                for i, (_, value) in enumerate(made):
                    if combination >> i & 1:
                        for name in names:
                            self.values[r][name] ^= value[name]
            for vector, value in made:
                for name in names:
                    total = 0
                    for r, unit in elements.items():
                        if vector & unit:
                            total ^= self.values[r][name]
                    if total != value[name]:
                        raise ValueError("not a module")

    def squared(self, listed, n, degree, vector):
        value = 0
        for i, name in enumerate(self.by_degree.get(degree, [])):
            if vector >> i & 1:
                value ^= listed.get((n, name), 0)
        return value

    def width(self, t):
        return len(self.by_degree.get(t, []))

    def act(self, r, t, vector):
        value = 0
        if r in self.values:
            for i, name in enumerate(self.by_degree.get(t, [])):
                if vector >> i & 1:
                    value ^= self.values[r][name]
        return value


class Free:
    """A free module on generators of degrees in order; images of them under d."""

    def __init__(self):
        self.degrees = []
        self.images = []
        self.places = {}

    def elements(self, t):
        key = (t, len(self.degrees))
        if key not in self.places:
            found = [(g, r) for g, d in enumerate(self.degrees) for r in basis(t - d)]
            self.places[key] = (found, {e: i for i, e in enumerate(found)})
        return self.places[key]

    def width(self, t):
        return len(self.elements(t)[0])

    def act(self, r, t, vector):
        degree = sum(x * (2 ** (i + 1) - 1) for i, x in enumerate(r))
        found, places = self.elements(t)[0], self.elements(t + degree)[1]
        value, i = 0, 0
        while vector >> i:
            if vector >> i & 1:
                g, s = found[i]
                for term in milnor_product(r, s):
                    value ^= 1 << places[g, term]
            i += 1
        return value


def resolve(module, rows, top):
    """How many generators a minimal resolution has at each (s, degree above the bottom)."""
    frees = [Free() for _ in range(rows + 1)]
    counts = {}
    for above in range(top + 1):
        t = module.bottom + above
        below, kernel = module, [1 << i for i in range(module.width(t))]
        for s, free in enumerate(frees):
            image = Echelon()
            found = list(free.elements(t)[0])
            relations = []
            for i, (g, r) in enumerate(found):
                value = below.act(r, free.degrees[g], free.images[g])
                rest, combination = image.add(value, 1 << i)
                if not rest:
                    relations.append(combination)
            new = 0
            for candidate in kernel:
                rest, _ = image.add(candidate, 0)
                if rest:
                    free.degrees.append(t)
                    free.images.append(candidate)
                    new += 1
            counts[s, above] = new
            below, kernel = free, relations
    return counts


def chart(module, rows, top):
    counts = resolve(module, rows, top)
    lines = []
    for s in range(rows, -1, -1):
        marks = ""
        for stem in range(top - s + 1):
            n = counts[s, stem + s]
            marks += "." if n == 0 else str(n) if n < 10 else "*"
        lines.append(f"{s:2} |{marks}\n")
    return "".join(lines) + f"stems {module.bottom}..{module.bottom + top}\n"


if __name__ == "__main__":
    rows, top = whole_numbers(2, __doc__, least=0)
    sys.stdout.write(chart(Module.read(sys.stdin.read()), rows, top))
