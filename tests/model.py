"""The public calls of `field`, `affine` and `roots` by the definitions of document 01, for tests/vectors.py.

It shares no code with the library. Quotients, inverses, square roots and the roots of equations are found by trying every element, numbers
by walking through the powers of x, multiplicities by dividing; products, powers, traces and the polynomials with given roots are computed
from their definitions.
"""
import functools


def remainder(a, p):
    while a.bit_length() >= p.bit_length():
        a ^= p << (a.bit_length() - p.bit_length())
    return a


@functools.cache
def has_factor(p):
    return any(remainder(p, d) == 0 for d in range(2, min(p, 1 << (p.bit_length() + 1) // 2)))


def plain_terms(coefficients):
    """The terms of an equation of degree up to 4, each a coefficient and an exponent."""
    return tuple((c, e) for e, c in enumerate(coefficients))


def affine_terms(coefficients):
    """The same of an affine equation."""
    return tuple(zip(coefficients, [0, *(2**i for i in range(len(coefficients)))]))


class Field:
    def __init__(self, p):
        self.p, self.m = p, p.bit_length() - 1
        self.size = 1 << self.m

    def product(self, a, b):
        whole = 0
        for i in range(b.bit_length()):
            whole ^= (a << i) * (b >> i & 1)
        return remainder(whole, self.p)

    def quotient(self, a, b):
        return next(q for q in range(self.size) if self.product(q, b) == a)

    def power(self, a, e):
        if e < 0:
            a, e = self.quotient(1, a), -e
        result = 1
        while e:
            if e & 1:
                result = self.product(result, a)
            a, e = self.product(a, a), e >> 1
        return result

    def root(self, b):
        return next(r for r in range(self.size) if self.product(r, r) == b)

    def trace(self, c):
        total = 0
        for _ in range(self.m):
            total, c = total ^ c, self.product(c, c)
        return total

    def number(self, a):
        x = 1
        for e in range(self.size - 1):
            if x == a:
                return e + 1
            x = self.product(x, 2)
        return 0

    def element(self, n):
        return 0 if n == 0 else self.power(2, n - 1)

    @functools.cached_property
    def powers(self):
        """All elements but 0, as the powers of one that generates the field."""
        for a in range(2, self.size):
            powers = [1]
            while (power := self.product(powers[-1], a)) != 1:
                powers.append(power)
            if len(powers) == self.size - 1:
                return powers

    @functools.cached_property
    def logarithms(self):
        return {power: e for e, power in enumerate(self.powers)}

    def value(self, terms, x):
        """The sum of the terms at x, each by logarithms."""
        total = 0
        for c, e in terms:
            if e == 0:
                total ^= c
            elif c and x:
                total ^= self.powers[(self.logarithms[c] + e * self.logarithms[x]) % (self.size - 1)]
        return total

    @functools.cache
    def roots(self, terms):
        """Ascending, by trying every element."""
        return [x for x in range(self.size) if self.value(terms, x) == 0]

    def divided(self, coefficients, r):
        """The remainder by x + r, then the quotient's coefficients, by Horner's rule."""
        sums = [0]
        for c in reversed(coefficients):
            sums.append(self.product(sums[-1], r) ^ c)
        return sums[:0:-1]

    def multiplicity(self, coefficients, r):
        """How often x + r divides."""
        rest, *quotient = self.divided(coefficients, r)
        return 0 if rest else 1 + self.multiplicity(quotient, r)

    def solve(self, *coefficients):
        return " ".join(f"{r}x{self.multiplicity(coefficients, r)}" for r in self.roots(plain_terms(coefficients))) or "no root"

    def times(self, a, coefficients):
        """All coefficients multiplied by a."""
        return [self.product(a, c) for c in coefficients]

    def built(self, roots):
        """The product of all x + r."""
        coefficients = [1]
        for r in roots:
            coefficients = [c ^ lower for c, lower in zip([*self.times(r, coefficients), 0], [0, *coefficients])]
        return coefficients

    def build(self, *roots):
        return " ".join(map(str, [*self.built(roots), 0, 0, 0, 0][:5]))

    def affine(self, *coefficients):
        """The directions are the differences at the places 1, 2, 4, .. and then must be what document 01 says of them."""
        roots = self.roots(affine_terms(coefficients))
        if not roots:
            return "no root"
        base, k = roots[0], len(roots).bit_length() - 1
        directions, sums = [base ^ roots[1 << i] for i in range(k)], [base]
        for d in directions:
            sums += [r ^ d for r in sums]
        assert sums == roots and directions == sorted(directions)
        assert all(other >> d.bit_length() - 1 & 1 == 0 for d in directions for other in [base, *directions] if other != d)
        return f"found, k {k}, base {base}" + ", directions" * (k > 0) + "".join(f" {d}" for d in directions)

    def place(self, n, *coefficients):
        return self.roots(affine_terms(coefficients))[n]

    def listing(self, _, *coefficients):
        return f"count {len(self.roots(affine_terms(coefficients)))}"


field_of = functools.cache(Field)
# what each call that works in a field answers, as text
CALLS = {
    "accept": lambda k: k.m,
    "sum": lambda k, a, b: a ^ b,
    "product": Field.product,
    "quotient": Field.quotient,
    "power": Field.power,
    "root": Field.root,
    "trace": Field.trace,
    "number": Field.number,
    "element": Field.element,
    "xpower": lambda k, e: k.power(2, e),
    "solve": Field.solve,
    "build": Field.build,
    "affine": Field.affine,
    "place": Field.place,
    "list": Field.listing,
}
# the calls with a list: where it begins among their numbers, and how long it may be for a degree m
LISTS = {
    "solve": (1, lambda m: range(1, 6)),
    "build": (1, lambda m: range(5)),
    **{call: (start, lambda m: range(1, m + 2)) for call, start in {"affine": 1, "place": 2, "list": 2}.items()},
}


def elements(call, v):
    """The numbers of a call that must be below 2^m."""
    if call in LISTS:
        return v[LISTS[call][0] :]
    return {"accept": (), "xpower": (), "power": v[1:2]}.get(call, v[1:])


def no_place(call, n, coefficients, roots):
    """Whether there is no place n, or n entries are too few. The roots are None where another number applies; then only what is beyond
    doubt counts: the largest number is past every place, and 0 is a root where there is no constant."""
    if call == "place":
        return n >= (2**32 - 1 if roots is None else len(roots))
    return n == 0 and not any(coefficients[:1]) if roots is None else n < len(roots)


def refusals(call, v):
    """Every number of document 01's table that applies to a call in a field, in the table's order."""
    p, m, entries = v[0], v[0].bit_length() - 1, elements(call, v)
    tests = {
        1: not 4 <= p < 131072,
        2: p >= 4 and has_factor(p),
        3: call in LISTS and len(entries) not in LISTS[call][1](m),
        4: p > 0 and any(a >= 1 << m for a in entries),
        5: call == "solve" and not any(entries),
        6: (call == "quotient" and v[2] == 0) or (call == "power" and v[1] == 0 and v[2] < 0),
    }
    found = [number for number, applies in tests.items() if applies]
    if call in ["place", "list"] and no_place(call, v[1], entries, None if found else field_of(p).roots(affine_terms(entries))):
        found.append(7)
    return found
