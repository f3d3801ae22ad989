#!/usr/bin/env python3
"""Prints the module file of A//A(N), cut above degree D.

    quotient.py N D >MODULE.json

A//A(N) is the Steenrod algebra modulo the left ideal of Sq^1, Sq^2, Sq^4, .., Sq^(2^N). Its part above degree D is a submodule. The file
leaves it out, which changes Ext from stem D on. In the stems below D the chart of the file is therefore that of A//A(N), which is Ext of F2
over A(N) by a change of rings: N = 1 belongs to ko, and N = 2 to tmf. A module file has at most 64 generators, so D is at most 18 for N = 0,
28 for N = 1, 49 for N = 2 and 64 for N = 3. Generator x8_0 is number 0 of degree 8. Source: Ravenel, Complex Cobordism and Stable Homotopy
Groups of Spheres, A1.3.12 (change of rings); Milnor, The Steenrod algebra and its dual (the products).
"""
import sys
from common import file_text, whole_numbers
from independent import Echelon, basis, milnor_product


class Degree:
    """A degree of the quotient: the ideal's elements as rows in echelon form, over the bits of Milnor's basis, and the generators' bits."""

    def __init__(self, degree, squares):
        self.bits = {r: 1 << i for i, r in enumerate(basis(degree))}
        self.ideal = Echelon()
        for k in squares:
            for r in basis(degree - k):
                self.ideal.add(self.vector(milnor_product(r, (k,))), 0)
        heads = {1 << i for i in self.ideal.rows}
        free = [(r, bit) for r, bit in self.bits.items() if bit not in heads]
        self.generators = {bit: (f"x{degree}_{i}", r) for i, (r, bit) in enumerate(free)}

    def vector(self, terms):
        return sum(self.bits[r] for r in terms)

    def names(self, vector):
        """The generators whose sum the vector is modulo the ideal."""
        for i in sorted(self.ideal.rows, reverse=True):
            if vector >> i & 1:
                vector ^= self.ideal.rows[i][0]
        return [name for bit, (name, _) in self.generators.items() if vector & bit]


n, top = whole_numbers(2, __doc__)
degrees = [Degree(d, [2 ** k for k in range(n + 1)]) for d in range(top + 1)]
actions = []
for d, here in enumerate(degrees):
    for name, r in here.generators.values():
        for k in (2 ** j for j in range((top - d).bit_length())):
            total = degrees[d + k].names(degrees[d + k].vector(milnor_product((k,), r)))
            if total:
                actions.append(f"Sq{k} {name} = {' + '.join(total)}")
generators = {name: d for d, here in enumerate(degrees) for name, _ in here.generators.values()}
if len(generators) > 64:
    print(f"quotient.py: this has {len(generators)} generators, and ext takes at most 64: choose a smaller D", file=sys.stderr)
sys.stdout.write(file_text(generators, actions))
