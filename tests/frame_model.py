"""What a frame line is to be answered with, by the definitions in document 01: every element is tried, a multiplicity is the number of times
that x + r divides, and a polynomial has a factor when one of all the divisors tried leaves no remainder. For speed products are taken by
logarithms of a generating element; they and the values are compared with plain ones on samples. It shares no code with the library.
"""
import functools
import itertools
import random
import re
from array import array
from operator import xor

LONGEST = 1030
samples = random.Random(2)


def degree(p):
    return max(p.bit_length() - 1, 0)


def carryless(a, b):
    return functools.reduce(xor, (a << i for i in range(b.bit_length()) if b >> i & 1), 0)


def remainder(a, p):
    while a.bit_length() >= p.bit_length():
        a ^= p << (a.bit_length() - p.bit_length())
    return a


def product(p, a, b):
    return remainder(carryless(a, b), p)


def value(kind, p, coefficients, x):
    """Of the left side of an equation of either kind."""
    total, power = coefficients[0], x
    for c in coefficients[1:]:
        total, power = total ^ product(p, c, power), product(p, power, x if kind == 1 else power)
    return total


@functools.cache
def has_factor(p):
    return any(remainder(p, d) == 0 for d in range(2, 2 << degree(p) // 2))


@functools.cache
class Field:
    def __init__(self, p):
        self.p, self.size = p, 1 << degree(p)
        powers = next(powers for powers in map(self.powers_of, range(2, self.size)) if len(powers) == self.size - 1)
        self.logarithm = {power: e for e, power in enumerate(powers)}
        # five times over, so that the values of a term of degree up to 4 are a slice
        self.powers = array("H", powers) * 5
        tried = samples.choices(range(self.size), k=8)
        assert all(self.product(a, b) == product(p, a, b) for a in tried for b in tried), "a product by logarithms is wrong"

    def powers_of(self, a):
        powers, power = [1], a
        while power != 1:
            powers.append(power)
            power = product(self.p, power, a)
        return powers

    def product(self, a, b):
        return self.powers[self.logarithm[a] + self.logarithm[b]] if a and b else 0

    def roots(self, coefficients):
        values = [coefficients[0]] * (self.size - 1)
        for k, c in enumerate(coefficients):
            if k > 0 and c != 0:
                start = self.logarithm[c]
                values = map(xor, values, self.powers[start : start + k * (self.size - 1) : k])
        found = sorted([0] * (coefficients[0] == 0) + [x for x, y in zip(self.powers, values) if y == 0])
        tried = found + samples.choices(range(self.size), k=4)
        assert all((value(1, self.p, coefficients, x) == 0) == (x in found) for x in tried), "a root is wrong"
        return found

    def multiplicity(self, coefficients, r):
        for k in itertools.count():
            quotient = [0]
            for c in reversed(coefficients):
                quotient.append(self.product(quotient[-1], r) ^ c)
            if quotient.pop() != 0:
                return k
            coefficients = quotient[:0:-1]

    def base_and_directions(self, coefficients):
        """The smallest root, and of each highest bit the smallest element that the linear part takes to 0. With no root: nothing."""
        linear = [0]
        for j in range(degree(self.p)):
            # at the elements with highest bit j: the value at 2^j added to those at the elements below 2^j
            at = value(2, self.p, [0, *coefficients[1:]], 1 << j)
            linear += [at ^ y for y in linear]
        tried = samples.choices(range(self.size), k=4)
        assert all(linear[x] ^ coefficients[0] == value(2, self.p, coefficients, x) for x in tried), "a value is wrong"
        found, zeros = [[x for x, y in enumerate(linear) if y == wanted] for wanted in (coefficients[0], 0)]
        directions = [next(same) for _, same in itertools.groupby(zeros[1:], int.bit_length)]
        combined = found[:1]
        for d in directions:
            combined += [x ^ d for x in combined]
        assert combined == found, "base and directions do not give the roots in ascending order"
        return [found[0], *directions] if found else []


def fields(line):
    """The number of bytes that a line begins with and their meaning: kind, polynomial, count, and the coefficients that are there."""
    data = bytes.fromhex(re.match(rb"([0-9A-Fa-f]{2})*", line)[0].decode())
    kind, *p, count = data[:5] if len(data) >= 5 else bytes(5)
    pairs = zip(data[5 : 5 + 2 * count : 2], data[6 : 6 + 2 * count : 2])
    return len(data), kind, int.from_bytes(p, "big"), count, [high * 256 + low for high, low in pairs]


def refusals(line):
    """Every number that applies, in the order that decides. To a malformed line may apply what the bytes that it begins with say."""
    size, kind, p, count, coefficients = fields(line)
    tests = [size < 5 or 2 * size != len(line) or len(line) > LONGEST or kind not in (1, 2) or size != 5 + 2 * count]
    tests += [not 4 <= p < 131072, has_factor(p), not 1 <= count <= (degree(p) + 1 if kind == 2 else 5)]
    tests += [any(c >= 1 << degree(p) for c in coefficients), kind == 1 and not any(coefficients)]
    return [number for number, applies in zip([8, 1, 2, 3, 4, 5], tests) if applies]


def solved(roots):
    return f"0100{len(roots):02X}" + "".join(f"{r:04X}{k:02X}" for r, k in roots)


@functools.cache
def answer(line):
    (_, kind, p, _, coefficients), numbers = fields(line), refusals(line)
    if numbers:
        return "FF08" if numbers[0] == 8 else f"{kind:02X}{numbers[0]:02X}"
    if kind == 1:
        return solved([(r, Field(p).multiplicity(coefficients, r)) for r in Field(p).roots(coefficients)])
    found = Field(p).base_and_directions(coefficients)
    return f"020001{len(found) - 1:02X}" + "".join(f"{x:04X}" for x in found) if found else "020000000000"
