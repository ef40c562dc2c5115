#!/usr/bin/env python3
"""Makes the rows of the program `vectors` and the answers that they must get: crates/vectors/stdin and crates/vectors/stdout.

The answers are those of tests/model.py, which shares no code with the library; the house rows, and what document 01's table of values says,
are copied from that document.

usage: tests/vectors.py          writes the two files
       tests/vectors.py --check  says whether the stored files are what it would write
"""
import os
import random
import sys
from collections import Counter
from itertools import combinations, product

from model import CALLS, LISTS, affine_terms, field_of, refusals

HOUSE = [7, 11, 19, 37, 67, 131, 285, 529, 1033, 2053, 4179, 8219, 17475, 32771, 69643]
# another polynomial of each degree from 3 on; x does not generate the field of most of them
OTHERS = [13, 31, 61, 73, 247, 283, 515, 1039, 2243, 4105, 8231, 16417, 32879, 65579]
# the numbers that each call can be turned down by
NUMBERS = {
    **{call: [1, 2] for call in ["accept", "xpower"]},
    **{call: [1, 2, 4] for call in ["sum", "product", "root", "trace", "number", "element"]},
    **{call: [1, 2, 4, 6] for call in ["quotient", "power"]},
    **{call: [1, 2, 3, 4] for call in ["build", "affine"]},
    **{call: [1, 2, 3, 4, 7] for call in ["place", "list"]},
    "solve": [1, 2, 3, 4, 5],
}
# the two of them that cannot meet: what is too large is not 0
APART = {"power": {(4, 6)}, "solve": {(4, 5)}}
# which of four drawn elements the roots of an equation are: every way in which some of them are the same
REPEATS = ["", "0", "01", "00", "012", "010", "000", "0123", "0120", "0110", "0100", "0000"]
LOWEST, HIGHEST = -(2**31), 2**31 - 1
LARGEST = 2**32 - 1
# what the program fills a lent list with, how many entries it lends at most, and how many bytes of rows it reads
FILLING, LENT, READ = 4242, 20, 65536
HERE = os.path.join(os.path.dirname(os.path.abspath(__file__)), "..", "crates", "vectors")
rows, first, pairs = {}, {call: set() for call in CALLS}, {call: set() for call in CALLS}


def row(call, *v):
    """One row more; what it must get."""
    found = refusals(call, v)
    first[call] |= set(found[:1])
    pairs[call] |= set(combinations(found, 2))
    said = f"turned down by {found[0]}" if found else str(CALLS[call](field_of(v[0]), *v[1:]))
    if call == "list":
        listed = [] if found else field_of(v[0]).roots(affine_terms(v[2:]))
        said += ", list" + "".join(f" {entry}" for entry in [*listed, *[FILLING] * (v[1] - len(listed))])
    rows[" ".join([call, *map(str, v)])] = said
    return said


def list_row(call, p, *entries):
    """The same of a call with a list, for the first place and room for 16 roots."""
    return row(call, p, *{"place": [0], "list": [16]}.get(call, []), *entries)


def affine_rows(p, coefficients):
    """The three calls of an equation: around the last place, and with lists an entry too short, just long enough and longer."""
    row("affine", p, *coefficients)
    count = len(field_of(p).roots(affine_terms(coefficients)))
    around = range(max(count - 1, 0), count + 1)
    for n in [*around, LARGEST]:
        row("place", p, n, *coefficients)
    for room in [*around, count + 2]:
        row("list", p, room, *coefficients)


def vanishing(k, elements):
    """The coefficients l0, l1, .. of an affine polynomial L that is 0 at all sums of the elements: L² + L(a)·L for each a more."""
    l = [1]
    for a in elements:
        value = k.value(affine_terms([0, *l]), a)
        l = [c ^ k.product(lower, lower) for c, lower in zip([*k.times(value, l), 0], [0, *l])]
    return l


# the table of values
TABLE = {
    "solve 19 14 8 1": "3x1 11x1",
    "solve 37 31 1 1": "24x1 25x1",
    "solve 37 23 1 1": "no root",
    "trace 37 23": "1",
    "solve 19 1 1 1": "6x1 7x1",
    "solve 19 8 0 0 1": "2x1 12x1 14x1",
    "solve 19 2 0 0 1": "no root",
    "solve 11 2 0 0 1": "7x1",
    "solve 19 0 1 0 1": "0x1 1x2",
    "solve 19 0 1 1 1 1": "0x1 1x3",
    "solve 19 3 0 0 0 1": "2x4",
    "affine 37 31 1 1": "found, k 1, base 24, directions 1",
    "power 19 2 -1": "9",
    "number 31 3": "0",
    "number 19 15": "13",
    "solve 19 6 1 1 0 0": "2x1 3x1",
}
for name, said in TABLE.items():
    call, *v = name.split()
    assert row(call, *map(int, v)) == said, name
# its last two rows, for every call that they apply to
ANY = {"accept": [], "sum": [1, 2], "product": [2, 3], "quotient": [1, 2], "power": [2, -1], "root": [2], "trace": [2], "number": [3]}
ANY |= {"element": [3], "xpower": [-1], "solve": [1, 1, 1], "build": [1, 2, 3]}
ANY |= {"affine": [2, 1, 1], "place": [0, 0, 2, 1], "list": [2, 0, 2, 1]}
for call, v in ANY.items():
    for p, number in [(3, 1), (4, 2), (131072, 1)]:
        assert row(call, p, *v).startswith(f"turned down by {number}"), (call, p)
    assert "turned down" not in row(call, 7, *v), call
for call, length in {"solve": 5, "build": 4, "affine": 5, "place": 5, "list": 5}.items():
    for place in range(length):
        before, after = [0, 1, 0, 0, 0][:place], [0, 1, 0, 0, 0][place + 1 : length]
        assert "turned down" not in list_row(call, 19, *before, 15, *after), (call, place)
        assert list_row(call, 19, *before, 16, *after).startswith("turned down by 4"), (call, place)

# the arithmetic around the table, and the house
for p in [0, 3, 4, 5, 6, 7, 19, 21, 31, 69643, 131071, 131072, LARGEST]:
    row("accept", p)
for v in [(19, 14, 8), (19, 15, 15), (19, 16, 1), (19, 1, 16), (69643, 54321, 65535)]:
    row("sum", *v)
for v in [(19, 14, 8), (19, 15, 15), (19, 0, 7), (31, 3, 3), (69643, 54321, 12345), (69643, 65535, 65535), (69643, 65536, 1), (19, 1, LARGEST)]:
    row("product", *v)
for v in [(19, 1, 2), (19, 14, 8), (19, 0, 5), (31, 7, 3), (69643, 54321, 12345), (19, 5, 0), (19, 0, 0), (19, 0, 16)]:
    row("quotient", *v)
for v in [(19, 2, -1), (19, 2, 15), (19, 7, 0), (19, 0, 0), (19, 0, 5), (19, 0, HIGHEST), (19, 2, LOWEST), (19, 2, HIGHEST), (31, 3, -7)]:
    row("power", *v)
for v in [(69643, 54321, LOWEST), (19, 0, -1), (19, 0, LOWEST), (19, 16, -1)]:
    row("power", *v)
for v in [(19, 3), (19, 0), (19, 1), (31, 3), (37, 23), (69643, 54321), (19, 16)]:
    row("root", *v)
for v in [(37, 23), (37, 31), (19, 1), (11, 1), (19, 0), (69643, 54321), (37, 32)]:
    row("trace", *v)
for v in [(31, 3), (19, 15), (19, 0), (19, 1), (31, 16), (31, 15), (69643, 54321), (19, 16)]:
    row("number", *v)
for v in [(19, 0), (19, 1), (19, 13), (19, 15), (19, 16), (31, 6), (31, 15), (69643, 65535), (69643, 65536)]:
    row("element", *v)
for v in [(19, -1), (19, 0), (19, 14), (19, LOWEST), (31, 5), (69643, 65535)]:
    row("xpower", *v)
for d in [0, 1, *range(2, 17), 17, LARGEST]:
    rows[f"house {d}"] = str(HOUSE[d - 2]) if 2 <= d <= 16 else "turned down by 1"

# every order of refusals: 1 alone, 1 with 2, 2 alone and none, against 3 to 7 in every mixture
for p in [3, 131072, 21, 19]:
    large = 1 << p.bit_length()
    for a in [1, large]:
        for call in ["root", "trace", "number", "element"]:
            row(call, p, a)
        for b in [1, large]:
            row("sum", p, a, b)
            row("product", p, a, b)
        for b in [0, 1, large]:
            row("quotient", p, a, b)
    for a in [0, 1, large]:
        row("power", p, a, -1)
    row("xpower", p, -1)
    # no entry, all of them 0, faultless ones, one too large; too many that are 0, and with one too large
    for entries in [[], [0, 0], [0, 1], [0, large], [0] * 20, [0, large] * 10]:
        for call in ["solve", "build", "affine"]:
            row(call, p, *entries)
        for n in [0, LARGEST]:
            row("place", p, n, *entries)
        for room in [0, 8]:
            row("list", p, room, *entries)
for call, numbers in NUMBERS.items():
    assert first[call] == set(numbers), f"a number that {call} can be turned down by is not among the rows"
    assert pairs[call] == set(combinations(numbers, 2)) - APART.get(call, set()), f"two that can meet in {call} are not among the rows"

# every m, on chosen elements
random.seed(7)
for m, p in enumerate(HOUSE, 2):
    field, size = field_of(p), 1 << m
    row("accept", p)
    row("xpower", p, size - 1)
    row("number", p, field.power(2, size - 2))
    for _ in range(3):
        a, b = random.randrange(size), random.randrange(1, size)
        row("product", p, a, b)
        row("quotient", p, a, b)
        row("root", p, a)
        row("trace", p, a)
        row("power", p, b, LOWEST)
    row("product", p, size, 1)
    row("element", p, size)

# lists as long as they may be and longer, entries as large as they may be and larger, and as many roots as there can be
for p in [19, 69643]:
    for length in range(7):
        row("solve", p, *range(1, length + 1))
        row("build", p, *range(length))
    for call, entry in product(LISTS, [65535, 65536, LARGEST]):
        list_row(call, p, 1, entry)
for m, p in enumerate(HOUSE, 2):
    for call, length in product(["affine", "place", "list"], [m + 1, m + 2]):
        list_row(call, p, *[1] * length)
    for call, entry in product(LISTS, [2**m - 1, 2**m]):
        list_row(call, p, 0, 1, entry)
    row("affine", p, *[0] * (m + 1))
    row("place", p, 2**m - 1, 0)
    row("place", p, 2**m, 0)

# in every field, equations with many roots, with none, and any
for p in sorted(HOUSE + OTHERS):
    k = field_of(p)
    for _ in range(6 if k.m < 9 else 3):
        drawn, leading = random.choices(range(k.size), k=4), random.randrange(1, k.size)
        roots = [drawn[int(digit)] for digit in random.choice(REPEATS)]
        coefficients = k.times(leading, k.built(roots))
        row("build", p, *roots)
        row("solve", p, *coefficients, *[0] * random.randrange(6 - len(coefficients)))
        row("solve", p, *drawn[: random.randrange(5)], leading)
    l = k.times(leading, vanishing(k, [leading, *drawn[: random.randrange(min(k.m - 1, 4))]]))
    values = {k.value(affine_terms([0, *l]), x) for x in range(k.size)}
    affine_rows(p, [random.choice(sorted(values)), *l])
    affine_rows(p, [random.choice(sorted(set(range(k.size)) - values)), *l])
    row("affine", p, *random.choices(range(k.size), k=k.m + 1))

# what is no call, and a last row without a line end
unknown = ["cube 19 2", "", " ", "19 2", "sums 19 1 2", "xquotient 19 1 2", "sum 19 1 2x", "sum 19 4294967296 1"]
for name in [*unknown, f"list 19 {LENT + 1} 0 1", "solve 19" + " 1" * 22]:
    rows[name] = "turned down by 8"
rows["house 18"] = "turned down by 1"
files = {"stdin": "\n".join(rows), "stdout": "".join(f"{name}: {said}\n" for name, said in rows.items())}
assert len(files["stdin"]) <= READ
for name, text in files.items():
    path = os.path.join(HERE, name)
    if "--check" in sys.argv:
        with open(path, encoding="ascii") as stored:
            assert stored.read() == text, f"{name} is not what this program makes"
    else:
        with open(path, "w", encoding="ascii") as out:
            out.write(text)
counts = Counter(name.split(" ")[0] for name in rows)
print(len(rows), "rows:", ", ".join(f"{counts[call]} {call}" for call in [*CALLS, "house"]))
