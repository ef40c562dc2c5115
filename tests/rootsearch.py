#!/usr/bin/env python3
"""Computes what the program `rootsearch` is to print, crates/rootsearch/stdout: its draws again, and 0 differences.

It shares no code with the library. Products are taken by logarithms of a generating element. The roots of an equation
are the elements at which its terms, each a table over all elements, add up to 0. The multiplicity of a root is the
place of the first Taylor coefficient there that is not 0.

usage: tests/rootsearch.py          prints what the program is to print
       tests/rootsearch.py --check  says whether the stored file is that, and how often every two refusals met in a call
"""
import functools
import itertools
import os
import sys
from array import array
from collections import Counter
from operator import xor

# the house polynomial of each degree from 2 to 16, and another one; degree 2 has no other
ACCEPTED = [(7, 7), (11, 13), (19, 31), (37, 61), (67, 73), (131, 247), (285, 283), (529, 515), (1033, 1039)]
ACCEPTED += [(2053, 2243), (4179, 4105), (8219, 8231), (17475, 16417), (32771, 32879), (69643, 65579)]
# which of the drawn elements the entries of a list are: every way in which some of them are the same
REPEATS = ["", "0", "01", "00", "012", "010", "000", "0123", "0120", "0110", "0100", "0000"]
LENGTHS = {"solve": range(1, 6), "build": range(5)}
REFUSALS = {"solve": range(1, 6), "build": range(1, 5)}
COUNTED = ["equations", "elements tried", "different roots", "multiple roots", "builds with round trips", "differences"]
STORED = os.path.join(os.path.dirname(os.path.abspath(__file__)), "..", "crates", "rootsearch", "stdout")


def remainder(a, p):
    while a.bit_length() >= p.bit_length():
        a ^= p << (a.bit_length() - p.bit_length())
    return a


def size(p):
    """2^m, m being 0 for 0."""
    return 1 << max(p.bit_length() - 1, 0)


@functools.cache
def has_factor(p):
    """Quick for every p that is drawn: from 131072 up they have degree 17 or the factor x."""
    return any(remainder(p, d) == 0 for d in range(2, 1 << (p.bit_length() + 1) // 2))


@functools.cache
class Field:
    def __init__(self, p):
        self.p, self.size, self.nonzero = p, size(p), size(p) - 1
        powers = next(powers for powers in map(self.powers_of, range(2, self.size)) if len(powers) == self.nonzero)
        self.logarithm = {power: e for e, power in enumerate(powers)}
        # five times over, so that the values of a term of degree up to 4 are a slice
        self.powers = array("H", powers) * 5

    def powers_of(self, a):
        """The different powers of a, by the definition of the product."""
        powers, power = [1], a
        while power != 1:
            powers.append(power)
            power = remainder(functools.reduce(xor, (power << i for i in range(a.bit_length()) if a >> i & 1)), self.p)
        return powers

    def product(self, a, b):
        return self.powers[self.logarithm[a] + self.logarithm[b]] if a and b else 0

    def value(self, coefficients, x):
        return functools.reduce(lambda value, c: self.product(value, x) ^ c, reversed(coefficients))

    def roots(self, coefficients):
        values = [coefficients[0]] * self.nonzero
        for k, c in enumerate(coefficients[1:], 1):
            if c != 0:
                start = self.logarithm[c]
                values = map(xor, values, self.powers[start : start + k * self.nonzero : k])
        return [0] * (coefficients[0] == 0) + [x for x, value in zip(self.powers, values) if value == 0]

    def multiplicity(self, coefficients, r):
        _, c1, c2, c3, c4 = [*coefficients, 0, 0, 0, 0][:5]
        # without the terms whose binomial coefficient is even
        first, second = c1 ^ self.product(c3, self.product(r, r)), c2 ^ self.product(c3, r)
        return next(k for k, c in enumerate([self.value(coefficients, r), first, second, c3, c4]) if c != 0)

    def times(self, coefficients, r):
        """The product with x + r."""
        return [self.product(r, c) ^ lower for c, lower in zip([*coefficients, 0], [0, *coefficients])]

    def rooted(self, x, *above):
        """The equation with these coefficients above a constant that makes x a root."""
        return [self.value([0, *above], x), *above]


def equation(field, kind, drawn, roots):
    """The equation of a kind, up to its degree. The last two kinds have the drawn elements as they are."""
    a, b, c = drawn[:3]
    d, leading = drawn[3] or 1, drawn[7] or 1
    if kind < 12:
        return functools.reduce(field.times, roots, [leading])
    # with the root a that is the square root s of c1/c3; affine; a square; with s = 0; any
    quartics = [field.rooted(a, field.product(d, field.product(a, a)), b, d, leading), [a, b, c, 0, leading]]
    quartics += [[a, 0, c, 0, leading], [a, 0, c, d, leading], [a, b, c, d, leading]]
    # (x + a)^3 with a constant added, any or such that b is a root; with the root a = c2/c3; any
    second = field.product(leading, a)
    first = field.product(second, a)
    cubics = [[b, first, second, leading], field.rooted(b, first, second, leading)]
    cubics += [field.rooted(a, b, second, leading), [a, b, c, leading]]
    return [*quartics, *cubics, [a, b, leading], drawn[:5], drawn[:5]][kind - 12]


def generator(number):
    while True:
        number = (number * 1664525 + 1013904223) % 2**32
        yield number


numbers = generator(20240229)


def draw():
    """The high bits of the generator's next number, which vary most."""
    return next(numbers) >> 16


def drawn_elements(bound, zeros=0):
    """Eight numbers below `bound`, 0 where what is drawn is below `zeros`."""
    return [0 if drawn < zeros else drawn % bound for drawn in [draw() for _ in range(8)]]


def drawn_polynomial():
    """One below 4; one from 131072 up; any between, and most of these have a factor; an accepted one."""
    number = next(numbers)
    kind, some = divmod(number >> 16, 8192)
    between, accepted = 4 + (number >> 12) % 131068, ACCEPTED[some % 15][some // 15 % 2]
    return [some % 4, 131072 + some % 8, 131072 + some * 500000, between, between, accepted, accepted, accepted][kind]


def every_call(p):
    """Every list of up to five elements, as coefficients and as roots."""
    for length in range(6):
        for entries in itertools.product(range(size(p)), repeat=length):
            yield p, entries, entries


def drawn_calls(p):
    """Equations of every kind, with zeros above their degree or without: fewer the more elements are to be tried."""
    field = Field(p)
    for kind in [*range(24)] * min(16, 65536 // field.size):
        # the last two kinds are to have many zeros, and any degree
        drawn = drawn_elements(field.size, zeros=0 if kind < 22 else 32768)
        roots = [drawn[int(digit)] for digit in REPEATS[kind % 12]]
        coefficients = equation(field, kind, drawn, roots)
        least = len(coefficients) if kind < 22 else 1
        yield p, [*coefficients, 0, 0, 0, 0][: least + draw() % (6 - least)], roots


def damaged_calls():
    """Any polynomial, up to 7 entries, and half the lists with all of them 0 or one too large, maybe past the end."""
    for _ in range(800):
        p = drawn_polynomial()
        bound, length = min(size(p), 65536), draw() % 8
        entries, drawn = drawn_elements(bound), draw()
        kind, place = drawn // 8192, drawn % (length + 1)
        if kind == 0:
            entries = [0] * 8
        elif kind < 4:
            entries[place] = [bound, 2**32 - 1, bound + drawn][kind - 1]
        yield p, entries[:length], entries[:length]


turned_down, pairs = [{call: Counter() for call in REFUSALS} for _ in range(2)]


def passes(call, p, entries):
    """Whether no number of document 01's table applies to a call. The first that applies is counted, and every pair."""
    tests = [not 4 <= p < 131072, has_factor(p), len(entries) not in LENGTHS[call]]
    tests += [any(entry >= size(p) for entry in entries), call == "solve" and not any(entries)]
    found = [number for number, applies in enumerate(tests, 1) if applies]
    turned_down[call][f"by {found[0]}" if found else "by none"] += 1
    pairs[call].update(itertools.combinations(found, 2))
    return not found


def counted(calls):
    """What the program counts in calls, in twos: a polynomial, coefficients to solve, and roots to build from."""
    counts = Counter()
    for p, coefficients, roots in calls:
        if passes("solve", p, coefficients):
            field = Field(p)
            multiplicities = [field.multiplicity(coefficients, r) for r in field.roots(coefficients)]
            counts["equations"] += 1
            counts["elements tried"] += field.size
            counts["different roots"] += len(multiplicities)
            counts["multiple roots"] += sum(k > 1 for k in multiplicities)
        counts["builds with round trips"] += passes("build", p, roots)
    return counts


def line(name, counts, what):
    return f"{name}: {', '.join(f'{counts[one]} {one}' for one in what)}\n"


parts = {}
for m, polynomials in enumerate(ACCEPTED, 2):
    calls = every_call if m <= 3 else drawn_calls
    parts[f"m {m}"] = counted(itertools.chain(*map(calls, dict.fromkeys(polynomials))))
parts["damaged calls"] = counted(damaged_calls())
text = "".join(line(name, counts, COUNTED) for name, counts in parts.items())
for call, counts in turned_down.items():
    text += line(f"{call} turned down", counts, [f"by {number}" for number in [*REFUSALS[call], "none"]])
text += line("all", sum(parts.values(), Counter()), COUNTED)

if "--check" not in sys.argv:
    print(text, end="")
    sys.exit()
for call, met in pairs.items():
    print(f"{call}:", ", ".join(f"{met[a, b]} times {a} and {b}" for a, b in sorted(met)))
    # all can meet but 4 and 5: an entry that is too large is not 0
    expected = set(itertools.combinations(REFUSALS[call], 2)) - {(4, 5)}
    assert set(met) == expected, f"a pair of refusals that can meet is not among the calls of {call}"
with open(STORED, "rb") as stored:
    if stored.read() != text.encode("ascii"):
        sys.exit("stdout is not what the program is to print")
print("stdout is what the program is to print")
