#!/usr/bin/env python3
"""Names of classes of the sphere, and their triples (s,t,i).

    names.py NAME..             prints the class of each name, as C of the program's words; of a product too, as h0^2h2 or 'd0 e0'
    names.py s,t,i..            prints the name of each class, or of a sum of classes of one square, s,t,i+s,t,i
    names.py - <TEXT            copies a text of `ext products` or `ext massey` on the sphere, with names behind the classes that have one
    names.py --check            compares names.txt with the program

The names stand in names.txt, or in the file that the variable NAMES names, each in a line: a name, its class, and how it is known. For the last

    place                       the square has no other class but zero, and the literature has the name there
    <A,B,C>                     it is this bracket, which has no indeterminacy
    in <A,B,C>                  it is a member of this bracket
    X = Y, X != 0               this holds; X and Y are sums of products of names, or 0
    literature                  the literature says so, and nothing here does

may stand, several of them with `;` between them. `--check` tries each, says where one does not hold, and then ends with status 1. It also says
where a class that is no sum of products of others has no name, and ends with 1. A class is named by products of h0 to h5 with a class of
the list where it has no name of its own.
"""
import os
import re
import sys
from collections import Counter, defaultdict, namedtuple
from common import CLASS, HERE, SPHERE, UNIT, classes, ext, h, lines_of, table
from independent import Echelon

Line = namedtuple("Line", "name s t bits ways number")


def bits_of(total):
    """A sum of classes of one square as bits."""
    bits = 0
    for _, _, i in total:
        bits ^= 1 << i
    return bits


def sum_of(s, t, bits):
    """The classes of a square whose sum has these bits."""
    return [(s, t, i) for i in range(bits.bit_length()) if bits >> i & 1]


def words_of(s, t, bits):
    """A sum of classes as in the program's words."""
    return "+".join(f"{s},{t},{i}" for s, t, i in sum_of(s, t, bits))


def class_of(text):
    """A class or sum of classes of one square by its words; none where the text is none."""
    if not re.fullmatch(CLASS, text):
        return None
    parts = [tuple(map(int, part.split(","))) for part in text.split("+")]
    if len({part[:2] for part in parts}) > 1:
        raise ValueError(f"{text} is in several squares")
    return (*parts[0][:2], bits_of(parts))


class Names:
    """The names of a file; none where there is no file."""

    @staticmethod
    def known():
        """The names of names.txt, or of the file that the variable NAMES names."""
        return Names(os.environ.get("NAMES") or os.path.join(HERE, "names.txt"))

    def __init__(self, path):
        self.path, self.lines, self.tables = path, {}, {}
        for number, text in enumerate(lines_of(path) if path else [], 1):
            words = text.split("#")[0].split(None, 2)
            if words:
                self.add(number, *words)

    def add(self, number, name, place="", ways=""):
        found = class_of(place)
        if not re.fullmatch(r"[A-Za-z]\S*", name) or found is None or not found[2]:
            self.fail(number, f"{name} {place}: a name and a class are wanted")
        if name in self.lines:
            self.fail(number, f"{name} stands twice")
        if any(line[1:4] == found for line in self.lines.values()):
            self.fail(number, f"{name} is another name of a class that has one")
        self.lines[name] = Line(name, *found, [it.strip() for it in ways.split(";") if it.strip()], number)

    def fail(self, number, text):
        sys.exit(f"{self.path}:{number}: {text}")

    def by_square(self):
        """The names by square and bits."""
        found = defaultdict(dict)
        for line in self.lines.values():
            found[line.s, line.t][line.bits] = line.name
        return dict(found)

    # -- names of products

    def factors(self, text):
        """The names whose product a text is, in their order."""
        known = "|".join(map(re.escape, sorted(self.lines, key=len, reverse=True)))
        found, at, text = [], 0, text.strip()
        while at < len(text):
            one = re.compile(rf"\s*\*?\s*({known})(\^(\d+))?").match(text, at) if known else None
            if not one:
                raise ValueError(f"{text[at:].strip()} is no name")
            found += [one[1]] * int(one[3] or 1)
            at = one.end()
        if not found:
            raise ValueError("a name is wanted")
        return found

    def vector(self, text):
        """A class by its words, or the product of names that a text is, as row, degree and bits."""
        found = class_of(text)
        if found:
            return found
        first, *others = [self.lines[name][1:4] for name in self.factors(text)]
        for it in others:
            first = self.times(it, first)
        return first

    def times(self, left, right):
        """The product of two classes, by the program."""
        (s, t, a), (u, v, x) = left, right
        if (s, t) != (1, t) and u == 1:
            return self.times(right, left)
        total = 0
        for one in sum_of(s, t, a):
            products = self.products_by(one, s + u, t + v)
            for other in sum_of(u, v, x):
                total ^= bits_of(products[other])
        return s + u, t + v, total

    def products_by(self, one, rows, top):
        """The products of the sphere by a class, in a range that reaches so far."""
        reach = self.tables.get(one)
        if reach is None or reach[0] < rows or reach[1] < top:
            rows, top = max(rows, reach[0] if reach else 0), max(top, reach[1] if reach else 0)
            self.tables[one] = rows, top, table(rows, top, [one]).products[one]
        return self.tables[one][2]

    def total(self, text):
        """A sum of products of names, as a set of squares with their bits."""
        found = defaultdict(int)
        for part in text.split("+") if text.strip() != "0" else []:
            s, t, bits = self.vector(part.strip())
            found[s, t] ^= bits
        return {square: bits for square, bits in found.items() if bits}


# ---- all classes of a range


def named(names, rows, top):
    """The classes of a range that have names, or are products of h0 to h5 with one that has, by square and bits."""
    made = table(rows, top, [h(k) for k in range(6)])
    found = defaultdict(dict, {(0, 0): {1: "1"}})
    for square, its in names.by_square().items():
        found[square].update(its)
    for stem, s in sorted(made.counts, key=lambda it: (it[1], it[0])):
        for bits, name in list(found[s, stem + s].items()):
            for k in range(6):
                total = [made.products[h(k)].get(one) for one in sum_of(s, stem + s, bits)]
                if None not in total:
                    value = 0
                    for it in total:
                        value ^= bits_of(it)
                    if value:
                        found[s + 1, stem + s + 2 ** k].setdefault(value, joined(k, name))
    return found


def joined(k, name):
    """The name of h_k times a class with a name."""
    powers, rest = Counter([k]), []
    for word in name.split():
        one = re.fullmatch(r"h([0-5])(?:\^(\d+))?", word)
        if one:
            powers[int(one[1])] += int(one[2] or 1)
        elif word != "1":
            rest.append(word)
    return " ".join([f"h{j}^{n}" if n > 1 else f"h{j}" for j, n in sorted(powers.items())] + rest)


def with_names(names, text):
    """A text with the names of its classes and sums behind them."""
    found = classes(text)
    known = named(names, max((s for s, _, _ in found), default=0), max((t for _, t, _ in found), default=0))

    def name(match):
        total = classes(match[0])
        its = known.get(total[0][:2], {}) if len({it[:2] for it in total}) == 1 else {}
        called = its.get(bits_of(total))
        return f"{match[0]} {called if len(total) == 1 else '= ' + called}" if called else match[0]

    return re.sub(r"\(\d+,-?\d+,\d+\)(?: \+ \(\d+,-?\d+,\d+\))*", name, text)


# ---- the check


def holds(names, line, way):
    """Whether a way in which a class is known holds."""
    bracket = re.fullmatch(r"(in )?<([^,]*),([^,]*),([^,]*)>", way)
    if bracket:
        parts = [names.vector(it) for it in bracket.groups()[1:]]
        (a, b, c) = parts
        rows, top = max(a[0] + b[0], b[0] + c[0], a[0] + b[0] + c[0] - 1), a[1] + b[1] + c[1]
        words = [word for name, it in zip("abc", parts) for word in (f"--{name}", words_of(*it))]
        value, *rest = ext("massey", rows, top, *words, file=SPHERE)
        member, coset = bits_of(classes(value.split(": ")[1])), Echelon()
        for it in rest:
            coset.add(bits_of(classes(it)), 0)
        square = tuple(map(int, re.search(r"\((\d+),(\d+)\)", value).groups()))
        if not bracket[1] and coset.rows:
            return False
        return square == (line.s, line.t) and not coset.cleared(member ^ line.bits, 0)[0]
    if "!=" in way:
        left, right = way.split("!=")
        return names.total(left) != names.total(right)
    if "=" in way:
        left, right = way.split("=")
        return names.total(left) == names.total(right)
    raise ValueError(f"{way}: no way to know a class")


def check(names):
    """Compares each line with the program, and looks for classes without a name; says what does not hold, and how much does."""
    rows, top = max(it.s for it in names.lines.values()), max(it.t for it in names.lines.values())
    counts = table(rows, top).counts
    wrong = tried = alone = 0
    there = []
    for line in names.lines.values():
        count = counts.get((line.t - line.s, line.s), 0)
        if line.bits >> count:
            print(f"{names.path}:{line.number}: {line.name}: the square has {count} classes")
            wrong += 1
            continue
        there.append(line)
        alone += line.ways == ["literature"]
        for way in line.ways or [""]:
            tried += way != "literature"
            if way == "literature" or way == "place" and count == 1:
                continue
            try:
                if way != "place" and holds(names, line, way):
                    continue
                print(f"{names.path}:{line.number}: {line.name}: does not hold: {way}")
            except ValueError as error:
                print(f"{names.path}:{line.number}: {line.name}: {way}: {error}")
            wrong += 1
    print(f"{len(names.lines)} names: {tried - wrong} of {tried} facts hold, {alone} names are from the literature alone")
    lost = list(unnamed(there, max(line.t - line.s for line in there))) if there else []
    for stem, s, count in lost:
        print(f"stem {stem}, row {s}: {count} classes are no products, and have no name")
    return wrong + len(lost)


def unnamed(lines, last):
    """The places through a stem where classes are no sums of products and of classes with a name, with their number.

    A product of classes of positive row has a factor that is no product, in a stem of at most half of its own, and that has a name if all is well.
    """
    rows = max(last // 2 + 2, max(line.s for line in lines))
    factors = [line for line in lines if line.t - line.s <= last // 2]
    by = sorted({one for line in factors for one in sum_of(*line[1:4])})
    made = table(rows, last + rows, by)
    spans = defaultdict(Echelon)
    for line in factors:
        columns = [made.products[one] for one in sum_of(*line[1:4])]
        for x in columns[0] if line.s else []:
            # (the product with the unit is the class itself, and none)
            if x != UNIT and all(x in it for it in columns):
                spans[x[0] + line.s, x[1] + line.t].add(bits_of([one for it in columns for one in it[x]]), 0)
    for line in lines:
        spans[line.s, line.t].add(line.bits, 0)
    for (stem, s), count in sorted(made.counts.items()):
        rank = len(spans[s, stem + s].rows)
        if 0 < s and stem <= last and rank < count:
            yield stem, s, count - rank


def main():
    words = sys.argv[1:]
    if not words:
        sys.exit(__doc__.strip())
    names = Names.known()
    if words == ["--check"]:
        return int(check(names) > 0)
    if words == ["-"]:
        sys.stdout.write(with_names(names, sys.stdin.read()))
        return 0
    for word in words:
        try:
            found = class_of(word)
            if found:
                s, t, bits = found
                print(named(names, s, t)[s, t].get(bits, "no name"))
            else:
                s, t, bits = names.vector(word)
                print(words_of(s, t, bits) or "0")
        except ValueError as error:
            sys.exit(f"names.py: {error}")
    return 0


if __name__ == "__main__":
    sys.exit(main())
