#!/usr/bin/env python3
"""Algebraic root invariants: how far down a class of the sphere is seen in projective spectra.

    roots.py NAME..

For each name of names.txt, or of the file that the variable NAMES names, or class s,t,i of the sphere, it looks for the least k for which the
product of the class with that of the cell -1 of RP_-k^inf is not zero. The product then lies on the cell -k, and its class there is a root
invariant, in stem n + k - 1 where n is the stem of the class. A line has the class, k and that stem. The spectrum is cut above dimension n,
which leaves Ext as it is in stems up to n - 1, where the product lies. A module file has at most 64 cells, -k to n, and a range at most 255
degrees: so k is looked for as far as these go, and not beyond 40. Source: Mahowald and Ravenel, The root invariant in homotopy theory (1993).
"""
import json
import sys
from common import table
from names import Names, sum_of

LIMIT, CELLS, DEGREES = 40, 64, 255


def last_k(s, t, _):
    """How far k can be looked for, for a class of the sphere."""
    return max(0, min(LIMIT, CELLS - 1 - (t - s), DEGREES + 1 - t))


def is_seen(one, k):
    """Whether the product of a class of the sphere with that of the cell -1 of RP_-k is not zero."""
    s, t, bits = one
    file = json.dumps({"type": "real projective space", "min": -k, "max": t - s}).encode()
    # (the range is counted from the least degree, -k, and the product lies in degree t - 1)
    by = sum_of(*one)
    products = table(s, t - 1 + k, by, file).products
    total = set()
    for it in by:
        total ^= set(products[it][0, -1, 0])
    return bool(total)


def main():
    if not sys.argv[1:]:
        sys.exit(__doc__.strip())
    names = Names.known()
    for word in sys.argv[1:]:
        try:
            one = names.vector(word)
        except ValueError as error:
            sys.exit(f"roots.py: {word}: {error}")
        last = last_k(*one)
        k = next((k for k in range(1, last + 1) if is_seen(one, k)), None)
        stem = one[1] - one[0]
        print(f"{word}: k = {k}, stem {stem + k - 1}" if k else f"{word}: not seen down to k = {last}")


if __name__ == "__main__":
    main()
