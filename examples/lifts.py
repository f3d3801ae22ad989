#!/usr/bin/env python3
"""Differentials by their definition, and products and brackets by random lifts and homotopies, to compare the program's with.

    lifts.py dump S T <MODULE.json
    lifts.py products S T --by C <MODULE.json
    lifts.py massey S T --a C --b C --c C <MODULE.json

prints what `ext` prints on these words, and shares nothing with it: algebra and modules are those of independent.py. It makes the canonical
resolutions of the module and of the sphere, so that its classes are those of the program, and then takes nothing canonical any more. Each map
is made on one generator after another: a preimage is found by elimination, and a random element of the kernel is added, in degrees above the
first a random element in row 0, and to the value of a bracket the product of a random class with c. This is done TRIES times with other
choices (the variable TRIES says how often; it is 24 else).

A product has to be one and the same each time. The values of a bracket have to lie in one coset of the indeterminacy, which is found by itself
as a Ext + Ext c, and their differences have to span it; then the coset is printed. Else the script says what differs, and ends with status 1.
Where a bracket is not defined, a class is not there, or a square lies past the range, it says so and ends with status 2. A class may be a sum
of classes of one square, joined by +.
"""
import os
import random
import re
import sys
from common import CLASS
from independent import Echelon, Free, Module

TRIES = int(os.environ.get("TRIES", 24))
POINT = '{"type": "finite dimensional module", "gens": {"x0": 0}}'


def ones(vector):
    """The places of a vector's ones."""
    return [i for i in range(vector.bit_length()) if vector >> i & 1]


class Rows:
    """Vectors in reduced echelon form: each first one, which is the lowest bit, is alone in its column."""

    def __init__(self, vectors=()):
        self.rows = {}
        for it in vectors:
            self.add(it)

    def cleared(self, v):
        for pivot, row in self.rows.items():
            if v >> pivot & 1:
                v ^= row
        return v

    def add(self, v):
        """Adds a vector, and says whether the span grows."""
        v = self.cleared(v)
        if v:
            pivot = (v & -v).bit_length() - 1
            for other, row in self.rows.items():
                if row >> pivot & 1:
                    self.rows[other] = row ^ v
            self.rows[pivot] = v
        return bool(v)

    def in_order(self):
        return [self.rows[pivot] for pivot in sorted(self.rows)]


class Resolution:
    """The canonical minimal resolution of a module through a range, its rows as free modules with the images of their generators."""

    def __init__(self, module, rows, top):
        self.module, self.frees = module, [Free() for _ in range(rows + 1)]
        self.rows, self.last, self.inverses = rows, module.bottom + top, {}
        for t in range(module.bottom, module.bottom + top + 1):
            candidates = [1 << i for i in range(module.width(t))]
            for s, free in enumerate(self.frees):
                image, kernel = Echelon(), []
                for i, value in enumerate(self.values(s, t)):
                    rest, relation = image.add(value, 1 << i)
                    if not rest:
                        kernel.append(relation)
                # (a vector of the basis of the kernel below is a new image where it is in the span neither of the images nor of those before it)
                for it in candidates:
                    if image.add(it, 0)[0]:
                        free.degrees.append(t)
                        free.images.append(it)
                candidates = Rows(kernel).in_order()

    def below(self, s):
        return self.frees[s - 1] if s else self.module

    def values(self, s, t):
        """d of the basis of row s in degree t."""
        free = self.frees[s]
        return [self.below(s).act(r, free.degrees[g], free.images[g]) for g, r in free.elements(t)[0]]

    def is_past(self, s, t):
        """Whether a square lies past the range."""
        return s > self.rows or t > self.last

    def square(self, s, t):
        """The numbers in row s of the generators of degree t."""
        if self.is_past(s, t):
            raise PastRange(f"the square ({s},{t}) is past the range")
        return [g for g, degree in enumerate(self.frees[s].degrees) if degree == t]

    def preimage(self, s, t, vector):
        """A random vector of row s with this image; none where there is none."""
        if (s, t) not in self.inverses:
            image, kernel = Echelon(), []
            for i, value in enumerate(self.values(s, t)):
                rest, relation = image.add(value, 1 << i)
                if not rest:
                    kernel.append(relation)
            self.inverses[s, t] = image, kernel
        image, kernel = self.inverses[s, t]
        rest, found = image.cleared(vector, 0)
        for it in kernel:
            if random.getrandbits(1):
                found ^= it
        return None if rest else found

    def has_term(self, s, t, vector, g):
        """Whether a vector of row s has the coefficient 1 at Sq() on generator g."""
        return vector >> self.frees[s].elements(t)[1][g, ()] & 1


class Refused(Exception):
    """What is asked for is not there."""


class NoClass(Refused):
    """A class that is not there through the range."""


class PastRange(Refused):
    """A square past the range."""


class NotDefined(Refused):
    """A bracket that is not defined, since this product is not zero."""


class Differs(Exception):
    """Choices that ought to make no difference did."""


def mapped(values, source, target, drop, t, vector):
    """A linear map of free modules on a vector of degree t: it is given by its values on generators, and lowers degrees."""
    total, found = 0, source.elements(t)[0]
    for place in ones(vector):
        g, r = found[place]
        if values[g]:
            total ^= target.act(r, source.degrees[g] - drop, values[g])
    return total


def random_vector(width):
    return random.getrandbits(width) if width else 0


def lift(of, sphere, s, t, is_one, upto, last):
    """A random lift of the class with these coefficients on row s's generators of degree t.

    It is a list of maps, to rows 0 to `upto` of the sphere's resolution, each as its values on generators through a degree.
    """
    free, maps = of.frees[s], []
    first = []
    for g, degree in enumerate(free.degrees):
        first.append(is_one(g) if degree == t else random_vector(sphere.frees[0].width(degree - t)) if t < degree <= last else 0)
    maps.append(first)
    for k in range(1, upto + 1):
        def wanted(g, degree, image, k=k):
            return mapped(maps[k - 1], of.frees[s + k - 1], sphere.frees[k - 1], t, degree, image)
        maps.append(next_map(of, sphere, s + k, k, t, last, wanted))
    return maps


def next_map(of, sphere, row, k, drop, last, wanted):
    """A map from a row to row k of the sphere whose values have these images under d."""
    values = []
    for g, degree in enumerate(of.frees[row].degrees):
        value = 0
        if drop <= degree <= last:
            value = sphere.preimage(k, degree - drop, wanted(g, degree, of.frees[row].images[g]))
            assert value is not None, "a cycle has a preimage"
        values.append(value)
    return values


def product(module, sphere, a, x):
    """The product of a class of the sphere with a class of the module, each as row, degree and coefficients, by one random lift, as bits."""
    (sa, ta, pa), (sx, tx, px) = a, x
    numbers = module.square(sx, tx)
    maps = lift(module, sphere, sx, tx, lambda g: px >> numbers.index(g) & 1, sa, tx + ta)
    return read_off(module, sphere, maps[sa], sx + sa, tx + ta, tx, a)


def read_off(module, sphere, values, row, t, drop, a):
    """The class of the module whose coefficient at a generator is that of a at the map's value there."""
    sa, ta, pa = a
    chosen = [g for i, g in enumerate(sphere.square(sa, ta)) if pa >> i & 1]
    return sum(sum(sphere.has_term(sa, t - drop, values[g], one) for one in chosen) % 2 << i for i, g in enumerate(module.square(row, t)))


def dimension(of, s, t):
    return len(of.square(s, t))


def units(count):
    return [1 << i for i in range(count)]


def indeterminacy(module, sphere, a, b, c):
    """a Ext(M) + Ext(F2) c in the bracket's square."""
    (sa, ta, _), (sb, tb, _), (sc, tc, _) = a, b, c
    left = [product(module, sphere, a, (sb + sc - 1, tb + tc, it)) for it in units(dimension(module, sb + sc - 1, tb + tc))]
    right = [product(module, sphere, (sa + sb - 1, ta + tb, it), c) for it in units(dimension(sphere, sa + sb - 1, ta + tb))]
    return Rows(left + right)


def member(module, sphere, a, b, c):
    """A random member of the bracket <a, b, c>."""
    (sa, ta, _), (sb, tb, pb), (sc, tc, pc) = a, b, c
    last, drop = ta + tb + tc, tb + tc
    numbers, others = module.square(sc, tc), sphere.square(sb, tb)
    gamma = lift(module, sphere, sc, tc, lambda g: pc >> numbers.index(g) & 1, sa + sb - 1, last)
    beta = lift(sphere, sphere, sb, tb, lambda g: pb >> others.index(g) & 1, sa, ta + tb)
    base = sb + sc - 1
    homotopy = [[random_vector(sphere.frees[0].width(degree - drop)) if drop <= degree <= last else 0 for degree in module.frees[base].degrees]]
    for k in range(sa):
        def wanted(g, degree, image, k=k):
            both = mapped(beta[k], sphere.frees[sb + k], sphere.frees[k], tb, degree - tc, gamma[sb + k][g])
            return both ^ mapped(homotopy[k], module.frees[base + k], sphere.frees[k], drop, degree, image)
        homotopy.append(next_map(module, sphere, base + k + 1, k + 1, drop, last, wanted))
    value = read_off(module, sphere, homotopy[sa], base + sa, last, drop, a)
    e = sa + sb - 1, ta + tb, random_vector(dimension(sphere, sa + sb - 1, ta + tb))
    return value ^ read_off(module, sphere, gamma[sa + sb - 1], base + sa, last, tc, e)


def written(s, t, vector):
    return " + ".join(f"({s},{t},{i})" for i in ones(vector)) or "0"


def class_of(of, text):
    """A class by its words, as row, degree and coefficients."""
    parts = [tuple(map(int, part.split(","))) for part in text.split("+")]
    (s, t), *others = {part[:2] for part in parts}
    if others or of.is_past(s, t) or any(i >= dimension(of, s, t) for _, _, i in parts):
        raise NoClass(f"there is no class {text}")
    bits = 0
    for _, _, i in parts:
        bits ^= 1 << i
    return s, t, bits


def dump(module):
    """The lines of `ext dump`."""
    for s, free in enumerate(module.frees):
        for g, (t, image) in enumerate(zip(free.degrees, free.images)):
            if s == 0:
                terms = [module.module.by_degree[t][i] for i in ones(image)]
            else:
                below, found = module.frees[s - 1], module.frees[s - 1].elements(t)[0]
                terms = [f"Sq({','.join(map(str, r))})*{called(s - 1, below, x)}" for x, r in map(found.__getitem__, ones(image))]
            yield f"d{called(s, free, g)} = {' + '.join(terms)}"


def called(s, free, g):
    """A generator of a row as (s,t,i)."""
    t = free.degrees[g]
    return f"({s},{t},{g - free.degrees.index(t)})"


def products(module, sphere, a):
    """The lines of `ext products`."""
    for s in range(module.rows - a[0] + 1):
        for t in range(module.module.bottom, module.last - a[1] + 1):
            for i, unit in enumerate(units(dimension(module, s, t))):
                found = {product(module, sphere, a, (s, t, unit)) for _ in range(TRIES)}
                if len(found) > 1:
                    raise Differs(f"lifts of ({s},{t},{i}) give several products: {sorted(found)}")
                yield f"({s},{t},{i}) -> {written(s + a[0], t + a[1], *found)}"


def bracket(module, sphere, a, b, c):
    """The lines of `ext massey`."""
    s, t = a[0] + b[0] + c[0] - 1, a[1] + b[1] + c[1]
    for name, of, row, degree in (("ab", sphere, a[0] + b[0], a[1] + b[1]), ("bc", module, b[0] + c[0], b[1] + c[1]), ("value", module, s, t)):
        if of.is_past(row, degree):
            raise PastRange(f"out of range at {name} ({row},{degree})")
    for name, left, right, of in (("ab", a, b, sphere), ("bc", b, c, module)):
        value = product(of, sphere, left, right)
        if value:
            raise NotDefined(f"product {name} is not zero: {written(left[0] + right[0], left[1] + right[1], value)}")
    coset = indeterminacy(module, sphere, a, b, c)
    members = [member(module, sphere, a, b, c) for _ in range(TRIES)]
    values = {coset.cleared(it) for it in members}
    spanned = Rows(it ^ members[0] for it in members)
    if len(values) > 1 or spanned.in_order() != coset.in_order():
        raise Differs(f"members {sorted(set(members))} are no coset of {coset.in_order()}")
    return [f"value ({s},{t}): {written(s, t, *values)}"] + [f"indeterminacy: {written(s, t, it)}" for it in coset.in_order() or [0]]


def main():
    words = sys.argv[1:]
    options = dict(zip(words[3::2], words[4::2]))
    wanted = {"dump": [], "products": ["--by"], "massey": ["--a", "--b", "--c"]}
    if len(words) < 3 or sorted(options) != wanted.get(words[0]) or len(words) != 3 + 2 * len(options):
        sys.exit(__doc__.strip())
    if not all(it.isdecimal() for it in words[1:3]) or not all(re.fullmatch(CLASS, it) for it in options.values()):
        sys.exit(__doc__.strip())
    rows, top = map(int, words[1:3])
    module, sphere = Resolution(Module.read(sys.stdin.read()), rows, top), Resolution(Module(POINT), rows, top)
    try:
        if words[0] == "dump":
            lines = dump(module)
        elif words[0] == "products":
            lines = list(products(module, sphere, class_of(sphere, options["--by"])))
        else:
            lines = bracket(module, sphere, *(class_of(of, options[it]) for it, of in (("--a", sphere), ("--b", sphere), ("--c", module))))
    except (Refused, Differs) as error:
        print(f"lifts.py: {error}", file=sys.stderr)
        return 2 if isinstance(error, Refused) else 1
    sys.stdout.write("".join(f"{line}\n" for line in lines))
    return 0


if __name__ == "__main__":
    sys.exit(main())
