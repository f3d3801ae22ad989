#!/usr/bin/env python3
"""Compares dimensions of Ext that Lin's theorem ties: Ext^(s,t)(RP^inf) goes onto Ext^(s+1,t)(S^0) in positive stems, by the transfer.

    transfer.py STEM

The cofibre of the transfer has the cells -1, 1, 2, 3, ..: its cohomology is that of RP_-1^inf modulo the class of degree 0. Where the transfer is
onto in Ext, the dimension for the cofibre is that for RP^inf less that for the sphere. The script says in how many places, of stems 1 to STEM and all
rows that have a class there, that is so. The map itself is not computed. Sources: Lin, On conjectures of Mahowald, Segal and Sullivan (1980);
Mahowald, The image of J in the EHP sequence (1982).
"""
import sys
from common import chart, file_text, whole_numbers


def cofibre(last):
    """The module file of the cofibre through a dimension."""
    cells = [n for n in range(-1, last + 1) if n]
    name = {n: f"x{n}" if n > 0 else "m1" for n in cells}
    actions = [f"Sq{k} {name[n]} = {name[n + k]}" for n in cells for k in (1, 2, 4, 8, 16, 32) if n & k and n + k in name]
    return file_text({name[n]: n for n in cells}, actions).encode()


def space(last):
    return b'{"type": "real projective space", "min": 1, "max": %d}' % last


def main():
    (stem,) = whole_numbers(1, __doc__)
    rows = stem // 2 + 3
    # (above these cells Ext is as it is without the cut; a range is counted from the least degree, -1, 1 or 0)
    last = stem + 2
    middle = chart(rows, stem + 1 + rows, cofibre(last))
    projective = chart(rows, stem - 1 + rows, space(last))
    sphere = chart(rows + 1, stem + rows + 1)
    # (the cell -1 carries the sphere of dimension -1, so row s + 1 and stem n of the sphere meet row s and stem n of RP^inf)
    places = sorted({it for it in (*middle, *projective) if 1 <= it[0] <= stem} | {(n, s - 1) for n, s in sphere if 1 <= n <= stem and s})
    wrong = [(n, s) for n, s in places if middle.get((n, s), 0) != projective.get((n, s), 0) - sphere.get((n, s + 1), 0)]
    for n, s in wrong:
        print(f"stem {n}, row {s}: other dimensions")
    print(f"{len(places)} places, {len(wrong)} differ")
    return int(bool(wrong))


if __name__ == "__main__":
    sys.exit(main())
