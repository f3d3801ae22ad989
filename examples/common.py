"""What the scripts of this folder share: they take their arguments, read files, run the program and others, read its texts as numbers, and write
module files.

A class is (s, t, i): row, internal degree, number. Its stem is t - s. A sum of classes is a list of them, and zero the empty list.
"""
import json
import math
import os
import re
import shutil
import signal
import subprocess
import sys
from collections import namedtuple
from contextlib import suppress

HERE = os.path.dirname(os.path.realpath(__file__))
# The program: the one that the variable EXT names, or else ../ext, which builds it first.
EXT = os.environ.get("EXT") or os.path.join(HERE, os.pardir, "ext")
SPHERE = b'{"type": "finite dimensional module", "p": 2, "gens": {"x0": 0}, "actions": []}'
UNIT = (0, 0, 0)
# A class, or a sum of classes, in words.
CLASS = r"\d+,-?\d+,\d+(\+\d+,-?\d+,\d+)*"


def arguments(count, description):
    """The arguments of the script; where they are not so many, it ends with its description."""
    if len(sys.argv) != count + 1:
        sys.exit(description.strip())
    return sys.argv[1:]


def numbers(words, description, least=-math.inf):
    """Words as whole numbers; where one is none, or below the least that may be, the script ends with its description."""
    with suppress(ValueError):
        found = [int(it) for it in words]
        if all(it >= least for it in found):
            return found
    sys.exit(description.strip())


def whole_numbers(count, description, least=-math.inf):
    """The arguments of the script as whole numbers; where they are not so many, or no such numbers, it ends with its description."""
    return numbers(arguments(count, description), description, least)


def ext(*words, file=b""):
    """The lines that the program prints on these words and this file. Where it fails, the script ends with its status."""
    try:
        run = subprocess.run([EXT, *map(str, words)], input=file, stdout=subprocess.PIPE)
    except OSError as error:
        sys.exit(f"the program {EXT} cannot be run: {error.strerror}")
    if run.returncode:
        # (a program that a signal ended has no status of its own)
        sys.exit(run.returncode if run.returncode > 0 else f"the program was ended by signal {-run.returncode}")
    return run.stdout.decode().splitlines()


def ended(words, seconds, source=b"", **more):
    """The status of a command and what it prints. None where it takes longer than these seconds; then it is killed, with all that it began."""
    run = subprocess.Popen(words, stdin=subprocess.PIPE, stdout=subprocess.PIPE, start_new_session=True, **more)
    try:
        text = run.communicate(source, timeout=seconds)[0]
    except BaseException as error:
        with suppress(ProcessLookupError):
            os.killpg(run.pid, signal.SIGKILL)
        run.communicate()
        if isinstance(error, subprocess.TimeoutExpired):
            return None
        raise
    return run.returncode, text.decode(errors="replace")


def browser():
    """The command of chromium; none where it is not on the path."""
    return next((it for it in ("chromium", "chromium-browser") if shutil.which(it)), None)


def bytes_of(path):
    """The bytes of a file; where it cannot be read, the script ends and says so."""
    try:
        with open(path, "rb") as file:
            return file.read()
    except OSError as error:
        sys.exit(f"{path}: {error.strerror}")


def text_of(path):
    """The text of a file; where it cannot be read, or is no text, the script ends and says so."""
    try:
        return bytes_of(path).decode()
    except UnicodeDecodeError as error:
        sys.exit(f"{path}: {error}")


def lines_of(path):
    """The lines of a file that is read as text."""
    return text_of(path).splitlines()


def classes(text):
    """The classes that a text names, in their order."""
    return [tuple(map(int, found)) for found in re.findall(r"\((\d+),(-?\d+),(\d+)\)", text)]


def written(total):
    """A sum of classes as the program writes it."""
    return " + ".join(f"({s},{t},{i})" for s, t, i in total) or "0"


def h(k):
    """The class h_k of the sphere."""
    return 1, 2 ** k, 0


# ---- charts and products as numbers

# A module through a range, of rows and degrees or of rows and stems: its least degree; at each (stem, row) that has a class, how many; and for each class of the sphere that was asked
# for, the product of each class x of the module with it, as a sum of classes, where that lies in the range.
Table = namedtuple("Table", "bottom counts products")


def bottom_of(file):
    """The least degree of a module; 0 where it is zero."""
    (line,) = ext("check", file=file)
    found = re.search(r"degrees (-?\d+)\.\.", line)
    return int(found[1]) if found else 0


def chart(rows, top, file=SPHERE, stems=False):
    """How many classes lie at each (stem, row) of the range, where there is one: the numbers of `ext resolve`, which writes ten or more as *.

    With stems, top is the last stem above the bottom, and else the last degree.
    """
    *lines, ends = ext("resolve", rows, top, *["--stems"] * stems, file=file)
    bottom = int(re.match(r"stems (-?\d+)\.\.", ends)[1])
    marks = [(bottom + column, int(line[:line.index("|")]), mark) for line in lines for column, mark in enumerate(line[line.index("|") + 1:])]
    if any(mark == "*" for _, _, mark in marks):
        return table(rows, top, file=file, stems=stems).counts
    return {(stem, s): int(mark) for stem, s, mark in marks if mark != "."}


def table(rows, top, by=(), file=SPHERE, stems=False):
    """The module's table through the range, with its products by these classes of the sphere: what `ext table` prints. With stems, top is the last stem
    above the bottom, and else the last degree. Classes of the sphere past the range have no products in it, and the others have to be there.

    Products with classes of row 1 are read off images, those with others made of lifts. So there is a run for each kind of classes.
    """
    near = [a for a in by if a[0] <= rows and a[1] <= top + rows * stems]
    counts, products = {}, {a: {} for a in by}
    for some in filter(None, ([a for a in near if a[0] == 1], [a for a in near if a[0] != 1])) if near else [[]]:
        *lines, ends = ext("table", rows, top, *["--stems"] * stems, *[f"--by={','.join(map(str, a))}" for a in some], file=file)
        for line in lines:
            kind, place, *others = line.split()
            if kind == "square":
                counts[int(others[1]), int(place[1:place.index(",")])] = int(others[3])
            elif others[-1] != "past":
                a, x, *total = classes(line)
                products[a][x] = total
    return Table(int(re.match(r"stems (-?\d+)\.\.", ends)[1]), counts, products)


# ---- module files


def file_text(degrees, actions):
    """The module file with generators of these degrees, by name, and these actions."""
    lines = ",".join(f"\n    {json.dumps(it)}" for it in actions)
    return f"""{{
  "type": "finite dimensional module",
  "p": 2,
  "gens": {json.dumps(degrees)},
  "actions": [{lines}{lines and chr(10) + "  "}]
}}
"""
