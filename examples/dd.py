#!/usr/bin/env python3
"""Says whether d d = 0 in a text that `ext dump` printed.

    dd.py MODULE.json <DUMP

It reads the lines `d(s,t,i) = ..` of the resolution of that module, and works out d of each image: products of Milnor's basis, and how it
acts on the module, are those of independent.py, which shares nothing with the program. It prints for how many generators d d = 0, and a line
for each other one; then the status is 1.
"""
import re
import sys
from common import arguments, classes, text_of, written
from independent import Module, milnor_product

TERM = re.compile(r"Sq\(([\d,]*)\)\*(\([-\d,]+\))")


def read(lines):
    """The image of each generator above row 0, as pairs of an exponent list and a generator; and of those of row 0, as names."""
    images, bottom = {}, {}
    for line in lines:
        if not re.fullmatch(r"d\(\d+,-?\d+,\d+\) = .+\n?", line):
            sys.exit(f"no line of a dump: {line.rstrip()}")
        left, right = line.rstrip("\n").split(" = ")
        (generator,) = classes(left)
        if generator[0] == 0:
            bottom[generator] = right.split(" + ")
        else:
            images[generator] = [(tuple(map(int, r.split(","))) if r else (), *classes(g)) for r, g in TERM.findall(right)]
    for it in {below for image in images.values() for _, below in image} - images.keys() - bottom.keys():
        sys.exit(f"there is no line for the generator {written([it])}")
    return images, bottom


def twice(generator, images, bottom, module):
    """The terms of d d of a generator that do not cancel: in row 1 the vector of the module."""
    vector, terms = 0, set()
    for r, below in images[generator]:
        if below in bottom:
            vector ^= module.act(r, below[1], sum(1 << module.by_degree[below[1]].index(name) for name in bottom[below]))
        else:
            for s, target in images[below]:
                terms ^= {(term, target) for term in milnor_product(r, s)}
    return vector or terms


module = Module.read(text_of(*arguments(1, __doc__)))
images, bottom = read(sys.stdin)
wrong = [it for it in images if twice(it, images, bottom, module)]
print(f"d d = 0 for {len(images) - len(wrong)} of {len(images)} generators above row 0")
for s, t, i in wrong:
    print(f"d d({s},{t},{i}) is not 0")
sys.exit(bool(wrong))
