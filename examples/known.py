#!/usr/bin/env python3
"""The chart of the sphere through a stem, compared with what is known of Ext over the mod 2 Steenrod algebra.

    known.py N

N is the last stem. Compared are: in each degree the classes of even rows less those of odd ones, which are the coefficient in the product of
all 1 - x^(2^i - 1), since the resolution is exact and free; rows 0 to 3 (Adams, Wang), which have monomials in the h_i and c_i; Adams' vanishing
line, with one class on each of its corners; and his periodicity, stem n and row s as stem n + 2^(r+1) and row s + 2^r, where s is past n/2 + 3 - 2^r and
(n + 12)/5 (Adams 1966; in this region Krause 2018). A line tells of each difference, the last how many comparisons there were.
"""
import sys
from itertools import combinations_with_replacement
from collections import Counter
from common import chart, whole_numbers


def edge(row):
    """The least stem above 0 in which the row may have classes."""
    return 8 * (row // 4) + (-1, 1, 2, 3)[row % 4]


def first_rows(last):
    """How many classes rows 0 to 3 have in each stem through the last one."""
    h = range((last + 1).bit_length() + 1)
    found = Counter((sum(2 ** i - 1 for i in m), row) for row in range(4) for m in combinations_with_replacement(h, row) if not any(
        i + 1 in m or m.count(i) == 2 and i + 2 in m or m.count(i + 2) == 2 for i in m))
    found.update((11 * 2 ** i - 3, 3) for i in h)
    return found


def series(last):
    """The product of all 1 - x^(2^i - 1) through x^last."""
    found = [1] + last * [0]
    for size in (2 ** i - 1 for i in range(1, last + 2) if 2 ** i - 1 <= last):
        found = [a - (found[t - size] if t >= size else 0) for t, a in enumerate(found)]
    return found


def comparisons(last):
    """Each as what it is about, and the two numbers that have to be equal."""
    top = last // 2 + 3
    found = chart(top, last, stems=True)
    at = lambda n, s: 1 if n == 0 else found.get((n, s), 0)
    wanted, few = series(last), first_rows(last)
    for t in range(last + 1):
        yield f"degree {t}", sum((-1) ** s * at(t - s, s) for s in range(t + 1)), wanted[t]
    for n in range(last + 1):
        for s in range(top + 1):
            if s < 4:
                yield f"row {s}, stem {n}", found.get((n, s), 0), few[n, s]
            if 0 < n < edge(s):
                yield f"vanishing, row {s}, stem {n}", at(n, s), 0
            if 0 < n == edge(s):
                yield f"corner, row {s}, stem {n}", at(n, s), 1
            for r in range(2, 7):
                m, p = n + 2 ** (r + 1), s + 2 ** r
                if n > 0 and s > n / 2 + 3 - 2 ** r and s > (n + 12) / 5 and m <= last and p <= top:
                    yield f"periodicity 2^{r}, row {s}, stem {n}", at(n, s), at(m, p)


def main():
    (last,) = whole_numbers(1, __doc__, 0)
    asked = list(comparisons(last))
    wrong = [it for it in asked if it[1] != it[2]]
    for what, found, wanted in wrong:
        print(f"{what}: {found}, not {wanted}")
    print(f"{len(asked)} comparisons, {len(wrong)} differ")
    return min(len(wrong), 1)


if __name__ == "__main__":
    sys.exit(main())
