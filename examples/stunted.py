#!/usr/bin/env python3
"""Prints the module file of a stunted real projective space or spectrum.

    stunted.py LO HI >MODULE.json

It has a generator in each degree from LO to HI, at most 64 of them: x5 in degree 5, m5 in degree -5. They are the powers of a class x of
degree 1, and Sq^k x^n is (n over k) x^(n+k), for negative n too. RP^n is LO = 1 and HI = n. With a negative LO it is the Thom spectrum of LO
times the line bundle over the projective space of dimension HI - LO. Source: Steenrod and Epstein, Cohomology Operations, chapter I; Atiyah,
Thom complexes.
"""
import sys
from common import file_text, whole_numbers

lo, hi = whole_numbers(2, __doc__)
names = {n: f"x{n}" if n >= 0 else f"m{-n}" for n in range(lo, hi + 1)}
actions = []
for n in names:
    for k in (1, 2, 4, 8, 16, 32):
        # (n over k) is odd where n has the binary digit k: for negative n too, as its digits go on with ones for ever
        if n + k <= hi and n & k:
            actions.append(f"Sq{k} {names[n]} = {names[n + k]}")
sys.stdout.write(file_text({name: n for n, name in names.items()}, actions))
