#!/usr/bin/env python3
"""A product of Steenrod's squares as a sum of admissible monomials, by Adem's relations alone, to compare `ext sq` with.

    adem.py W        prints the second line of what `ext sq W` prints
    adem.py N all    prints the sums of all products of degree N, one a line, the numbers of the products in lexicographic order

W is numbers from 1 on with a comma between each two. The script knows nothing of Milnor's basis, and shares nothing with the program.
"""
import sys
from functools import lru_cache
from common import numbers


def is_odd(n, k):
    """Whether the binomial of n over k is odd."""
    return 0 <= k <= n and n & k == k


@lru_cache(None)
def times(a, monomial):
    """Sq^a times an admissible monomial, as the set of the admissible monomials of the sum."""
    if not monomial or a >= 2 * monomial[0]:
        return frozenset([(a,) + monomial])
    b, rest = monomial[0], monomial[1:]
    terms = set()
    for c in range(a // 2 + 1):
        if is_odd(b - c - 1, a - 2 * c):
            for right in times(c, rest) if c else [rest]:
                terms ^= times(a + b - c, right)
    return frozenset(terms)


def times_sum(a, monomials):
    terms = set()
    for monomial in monomials:
        terms ^= times(a, monomial)
    return frozenset(terms)


def product(numbers):
    terms = frozenset([()])
    for a in reversed(numbers):
        terms = times_sum(a, terms)
    return terms


def products(n, kept={}):
    """The sums of all products of degree n."""
    if n == 0:
        yield frozenset([()])
    elif n <= 16:
        if n not in kept:
            kept[n] = [times_sum(a, rest) for a in range(1, n + 1) for rest in products(n - a)]
        yield from kept[n]
    else:
        for a in range(1, n + 1):
            for rest in products(n - a):
                yield times_sum(a, rest)


def text(monomials):
    terms = [" ".join(f"Sq{a}" for a in monomial) for monomial in sorted(monomials, reverse=True)]
    return " + ".join(terms) if terms else "0"


def main():
    words = sys.argv[1:]
    if len(words) == 2 and words[1] == "all":
        (degree,) = numbers(words[:1], __doc__, least=0)
        for terms in products(degree):
            print(text(terms))
    elif len(words) == 1:
        print("admissible:", text(product(numbers(words[0].split(","), __doc__, least=1))))
    else:
        sys.exit(__doc__.strip())


if __name__ == "__main__":
    main()
