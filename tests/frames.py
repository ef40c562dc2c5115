#!/usr/bin/env python3
"""Makes the frame lines that the programs `gfroots` and `everyroot` read, and the output that both must give: crates/gfroots/stdin and
crates/gfroots/stdout, and the same two files in crates/everyroot.

It shares no code with the library. The answers are those of tests/frame_model.py, which tries every element.

usage: tests/frames.py             writes the four files
       tests/frames.py --check     says whether the stored files are what it would write
       tests/frames.py --load m n  prints n lines to measure with: kind 01, the house polynomial of degree m, the product of four drawn
                                   x + r and of a leading coefficient. They are drawn from 512 different lines (m = 2 has only 105)
"""
import itertools
import os
import random
import sys
from collections import Counter

from frame_model import LONGEST, Field, answer, carryless, degree, has_factor, product, refusals, solved, value

HOUSE = [7, 11, 19, 37, 67, 131, 285, 529, 1033, 2053, 4179, 8219, 17475, 32771, 69643]
# another polynomial of each degree from 3 on; x does not generate its field, except in the degrees 3, 5, 7 and 13, where it always does
OTHER = [13, 31, 41, 73, 137, 283, 515, 1039, 2243, 4105, 8231, 16417, 32879, 65579]
IRREDUCIBLE = {1: [2, 3], 2: [7], **{m: [HOUSE[m - 2], OTHER[m - 3]] for m in range(3, 17)}}
# from degree SLOW on fewer lines are to be searched
SLOW, PAGE, CHUNK = 14, 4096, 65536
CRATES = os.path.join(os.path.dirname(os.path.abspath(__file__)), "..", "crates")
draws = random.Random(1)

# The lines: each of the functions in GROUPS below makes those of one sort.


def frame(kind, p, coefficients):
    return f"{kind:02X}{p:06X}{len(coefficients):02X}{''.join(f'{c:04X}' for c in coefficients)}".encode()


def element(p, least=0):
    return draws.randrange(least, 1 << degree(p))


def of_trace(p, t):
    return next(c for c in iter(lambda: element(p), None) if value(2, p, [0] + [1] * degree(p), c) == t)


def padded(coefficients):
    """With zeros above, or without."""
    return [*coefficients, 0, 0, 0, 0][: draws.randint(len(coefficients), 5)]


def built(p, roots, leading):
    """The product of all x + r, and of the leading coefficient."""
    coefficients = [leading]
    for r in roots:
        coefficients = [product(p, r, c) ^ lower for c, lower in zip([*coefficients, 0], [0, *coefficients])]
    return coefficients


def rooted(kind, p, x, *above):
    """The equation with these coefficients above a constant that makes x a root."""
    return [value(kind, p, [0, *above], x), *above]


def vanishing(p, k):
    """l0, l1 ... of a linear part that takes 2^k elements to 0: k times f becomes f^2 + f(v) f, for a v with f(v) not 0."""
    linear = [element(p, 1)]
    while len(linear) <= k:
        at = value(2, p, [0, *linear], element(p))
        if at != 0:
            linear = [product(p, at, c) ^ product(p, lower, lower) for c, lower in zip([*linear, 0], [0, *linear])]
    return linear


EXAMPLE, AFFINE = b"0100001303000E00080001", b"0200002503001F00010001"


def document():
    """The example of document 01, then the rows of its table of values that can be lines and are not in the example."""
    lines = [EXAMPLE, b"0200002503001700010001", AFFINE, b"01000015010001"]
    expected = dict(zip(lines, ["010002000301000B01", "020000000000", "0200010100180001", "0102"]))
    rows = [(37, [31, 1, 1], [(24, 1), (25, 1)]), (37, [23, 1, 1], []), (19, [1, 1, 1], [(6, 1), (7, 1)]), (19, [2, 0, 0, 1], [])]
    rows += [(19, [8, 0, 0, 1], [(2, 1), (12, 1), (14, 1)]), (11, [2, 0, 0, 1], [(7, 1)]), (19, [0, 1, 0, 1], [(0, 1), (1, 2)])]
    rows += [(19, [0, 1, 1, 1, 1], [(0, 1), (1, 3)]), (19, [3, 0, 0, 0, 1], [(2, 4)]), (19, [6, 1, 1, 0, 0], [(2, 1), (3, 1)])]
    expected |= {frame(1, p, coefficients): solved(roots) for p, coefficients, roots in rows}
    for kind, nothing in [(1, "010000"), (2, "020000000000")]:
        expected |= {frame(kind, p, [c]): f"{kind:02X}0{n}" for p, c, n in [(3, 1, 1), (4, 1, 2), (131072, 1, 1), (19, 16, 4)]}
        expected |= {frame(kind, p, [c]): nothing for p, c in [(7, 1), (19, 15)]}
    assert all(answer(line) == said for line, said in expected.items()), "document 01 says otherwise"
    return expected


def boundaries():
    """Polynomials, counts and coefficients on both sides of each bound. 131053 is the last one accepted, 131081 has no factor."""
    for kind in (1, 2):
        yield from [frame(kind, p, [1, 1]) for p in [*range(8), 131053, 131071, 131072, 131081, 2**24 - 1]]
        yield from [frame(kind, 19, [1] * count) for count in [*range(8), 17, 18, 254, 255]]
        yield from [frame(kind, 19, [1] * place + [c] + [1] * (4 - place)) for place in range(5) for c in (15, 16, 65535)]
        for m, p in enumerate(HOUSE, 2):
            # at m = 16 none of 2 bytes is too large
            yield from [frame(kind, p, [1, c]) for c in sorted({(1 << m) - 1, min(1 << m, 65535), 65535})]
    yield from [frame(2, p, [1] * count) for p in HOUSE for count in (degree(p) + 1, degree(p) + 2)]


def orders():
    """Every mixture of refusals: 1 alone, 1 with 2, 2 alone, neither; of 3, 4 and 5 as many as meet; and 8 by what stands at the end."""
    met = {1: set(), 2: set()}
    for kind, p, end in itertools.product(met, [3, 131072, 21, 19], [b"", b"0", b"0000", b"G"]):
        many = degree(p) + 2 if kind == 2 else 6
        for coefficients in [[], [1], [0], [32], [0, 0, 0, 0, 32], [1] * many, [0] * many, [32] * many]:
            line = frame(kind, p, coefficients) + end
            found = refusals(line)
            met[kind].update((found[0], later) for later in found[1:])
            assert not found or answer(line)[2:] == f"{found[0]:02X}"
            yield line
    # All pairs meet but 4 and 5, since a coefficient that is too large is not 0; kind 02 never meets 5. 1 meets 2 from 131072 on, where,
    # as at m = 16, no coefficient of 2 bytes is too large; and 1 meets 4 below 4, where no divisor is tried.
    pairs = set(itertools.combinations([8, 1, 2, 3, 4], 2))
    assert met == {1: pairs | {(8, 5), (1, 5), (2, 5), (3, 5)}, 2: pairs}, "a pair of refusals that can meet is not among the lines"


def characters():
    """Every byte but the line feed in the first, a middle and the last place. Where it is a digit the line may stay a good one."""
    for byte, place in itertools.product([byte for byte in range(256) if byte != 10], [0, 13, 21]):
        yield EXAMPLE[:place] + bytes([byte]) + EXAMPLE[place + 1 :]


def misshapen():
    """Wrong in the number of digits, in the kind or in the count, or by characters that a reader of text may overlook; and no digits."""
    for line in (EXAMPLE, AFFINE):
        yield from [line[:n] for n in range(len(line))]
        yield from [line + line[:n] for n in (1, 2, 3, 4, 20, 22)]
        yield from [line[:8] + b"%02X" % count + line[10:] for count in (0, 1, 2, 4, 5, 6, 0x83, 255)]
        # 256 bytes more than the count says
        yield line + b"00" * 256
        yield from [line[:2] + b" " + line[2:], line + b" " + line, line + b"\r\r", line[:-2] + b"\r\r", line[:-1] + b"\r"]
    for extra in [b"\r", b" ", b"   ", b"\t", b"\0", b"\x0c", b"0x", b"0X", b"$", b"#", b"+", b"-", b"_", b"h", b"\\n", b";", b"\xff\xfe"]:
        yield from [extra + EXAMPLE, AFFINE + extra, EXAMPLE[:10] + extra + EXAMPLE[10:]]
    for extra in ["\ufeff", "\u00a0", "\u2028", "\uff10", "\uff10\uff11", "\u0661", "\u00e9", "\U0001d7d8"]:
        yield from [extra.encode() + AFFINE, EXAMPLE + extra.encode()]
    yield from [frame(kind, 19, [14, 8, 1]) for kind in [0, *range(3, 36), 0x7F, 0x80, 0x81, 0x82, 0xA1, 0xFE, 0xFF]]
    yield from [frame(3, p, coefficients) for p in (3, 131072, 21, 19) for coefficients in ([], [0], [1], [32], [1] * 6)]
    yield from [b"", b"", b"", EXAMPLE, b"", b" ", b"\r", b"", b"\r\r", b" " * 22, b"\0", b"\0" * 22, b"\t", b"FF08", b"0102", b"END"]


def long_lines():
    """About the longest length."""
    for kind, p in [(1, 19), (2, 19), (1, 3), (2, 21), (1, 69643), (2, 69643)]:
        full = frame(kind, p, [1] * 255)
        assert len(full) == LONGEST and answer(full) != "FF08"
        yield from [full, full.lower(), full + b"0", full + b"\r"]
    yield from [full[:-1], full[:-1] + b"G", full + b"00", full + b"0001", full[:-2], full[:-4], full + full, EXAMPLE * 46]
    for line in (EXAMPLE, AFFINE):
        yield from [b"0" * LONGEST + line, line + b"0" * LONGEST, b"0" * (LONGEST - 22) + line, b" " * (LONGEST - 22) + line]
    yield from [b"0" * LONGEST, b" " * LONGEST, EXAMPLE + b"0" * (PAGE - 22)]


def letter_case():
    lines = [frame(1, 285, [0xAB, 0xCD, 0xEF, 0, 0x1F]), frame(1, 8219, [0x1ABC, 0xDEF, 0x1FED, 0xCBA, 1]), frame(1, 11, [2, 0, 0, 1])]
    lines += [frame(2, 8219, [0x1ABC] + [0xDEF] * count) for count in range(9, 14)]
    lines += [frame(1, 69643, [0xABCD, 0xEF01, 0xFEDC]), frame(2, 69643, [0xABCD, 0xEFAB, 0xFEDC, 0xBA98]), frame(1, 0xABCDEF, [0xABCD])]
    for line in map(bytes.decode, lines):
        same = [line, line.lower()] + ["".join(map(draws.choice, zip(line, line.lower()))) for _ in range(3)]
        assert len({answer(one.encode()) for one in same}) == 1, "the letter case changes an answer"
        yield from [one.encode() for one in same]


def polynomials():
    """Accepted ones; products of two of the same or the next degree, squares among them; products with x and with x + 1; drawn ones."""
    for m in range(2, 17):
        halves = itertools.product(IRREDUCIBLE[m // 2], IRREDUCIBLE[m - m // 2])
        factored = sorted({carryless(a, b) for a, b in [*halves, *itertools.product([2, 3], IRREDUCIBLE[m - 1])]})
        assert all(map(has_factor, factored)) and not any(map(has_factor, IRREDUCIBLE[m]))
        assert m in (3, 5, 7, 13) or all(len(Field(p).powers_of(2)) < Field(p).size - 1 for p in IRREDUCIBLE[m][1:])
        yield from [frame(draws.choice([1, 2]), p, [1, element(p), element(p)]) for p in [*factored, *IRREDUCIBLE[m]]]
    for p in [draws.randrange(4, draws.choice([32, 512, 8192])) for _ in range(60)]:
        yield frame(draws.choice([1, 2]), p, [element(p) for _ in range(3)])


def repeated_roots():
    """Products of x + r in which roots are the same in every way, with zeros above or without. The answer is known beforehand."""
    ways = ["", "0", "01", "00", "012", "001", "000", "0123", "0012", "0011", "0001", "0000"]
    for p in [*HOUSE, *OTHER[: SLOW - 3]]:
        for places in ways + ["0123", "0123"] * (degree(p) < SLOW):
            elements = draws.sample(range(1 << degree(p)), 4)
            roots = [elements[int(place)] for place in places]
            line = frame(1, p, padded(built(p, roots, element(p, 1))))
            assert answer(line) == solved(sorted(Counter(roots).items())), "a product has other roots than it was built from"
            yield line


def special_equations():
    """Those of degree up to 4 that a method by formulas meets as cases of their own, and any."""
    for p in [*HOUSE[: SLOW - 2], *OTHER]:
        (a, b, c), (d, e) = [element(p) for _ in range(3)], [element(p, 1) for _ in range(2)]
        square = product(p, a, a)
        # affine quartics: a fourth power; a square; any
        quartics = [[b, 0, 0, 0, e], [c, 0, b, 0, e], [c, b, a, 0, e]]
        # with A not 0, and s, the square root of C/A, is the root a: double; triple; 0; s = 0 is no root; any
        first = product(p, d, square)
        quartics += [rooted(1, p, a, first, b, d, e), rooted(1, p, a, first, product(p, a, d), d, e), [0, 0, b, d, e], [d, 0, b, d, e]]
        quartics += [[c, b, a, d, e], [c, b, d, a, e]]
        # B = A^2 with any constant; with the root b; with the root A = a; any B with the root A; any; a cube
        first, second = product(p, e, square), product(p, e, a)
        cubics = [[b, first, second, e], rooted(1, p, b, first, second, e), rooted(1, p, a, first, second, e)]
        cubics += [rooted(1, p, a, b, second, e), [c, b, a, e], [b, 0, 0, e]]
        # x = dt makes t^2 + t + c of it, for a c of either trace; a double root
        quadratics = [[product(p, product(p, d, d), of_trace(p, t)), d, 1] for t in (0, 1)] + [[b, 0, e]]
        yield from [frame(1, p, padded(coefficients)) for coefficients in [*quartics, *cubics, *quadratics, [b, e], [e]]]


def small_fields():
    """At m = 2 every affine equation, and every monic quadratic, cubic and quartic without x^2; at m = 3 every monic quadratic."""
    for count in (1, 2, 3):
        yield from [frame(2, 7, coefficients) for coefficients in itertools.product(range(4), repeat=count)]
    for a, b in itertools.product(range(4), repeat=2):
        yield frame(1, 7, [a, b, 1])
        yield from [frame(1, 7, [a, b, *above, 1]) for c in range(4) for above in ([c], [0, c])]
    yield from [frame(1, 11, [a, b, 1]) for a, b in itertools.product(range(8), repeat=2)]


def all_zero():
    """Every element is a root, which kind 01 refuses."""
    for p in HOUSE:
        yield from [frame(2, p, [0] * count) for count in range(1, degree(p) + 2)]
        yield frame(1, p, [0] * draws.randint(1, 5))


def affine_equations():
    for p in [*HOUSE, *OTHER]:
        m = degree(p)
        # no root; x^2 + x = c; the trace is c; only the highest coefficient is not 0
        yield frame(2, p, [element(p, 1)] + [0] * draws.randint(0, m))
        yield from [frame(2, p, [of_trace(p, t), 1, 1]) for t in (0, 1)]
        yield from [frame(2, p, [c] + [1] * m) for c in (0, 1, 2)]
        yield frame(2, p, [element(p)] + [0] * (m - 1) + [element(p, 1)])
        # any; any with many zeros; many directions, but mostly no root
        yield frame(2, p, [element(p) for _ in range(m + 1)])
        yield frame(2, p, [element(p) * draws.randint(0, 1) for _ in range(draws.randint(1, m + 1))])
        yield frame(2, p, [element(p), *vanishing(p, draws.randrange(m // 2, m))])
        # every number of directions; many directions, so that the output too is longer than a chunk
        numbers = [*range(m)] * (m < SLOW or p in HOUSE) + [m - draws.randint(1, 3) for _ in range(48) if 11 <= m < SLOW]
        yield from [frame(2, p, rooted(2, p, element(p), *vanishing(p, k))) for k in numbers]


GROUPS = [document, boundaries, orders, characters, misshapen, letter_case, polynomials, repeated_roots, special_equations, small_fields]
GROUPS += [all_zero, affine_equations, long_lines]

# The files: the lines in this order, and among them some that begin at chosen offsets.


def placed():
    """Lines, and at which offset each begins. Pages: a good line is cut by their ends in every place, from after its first digit on to
    after its line feed; then what stands after the cut, or before it, would be a good line. Chunks: the second begins within a good
    line, the third and the fourth after a line feed and with a long line, and what the fifth begins with would be a good line; the
    sixth begins with the line feed of a good line."""
    cuts = [(EXAMPLE, cut) for cut in range(1, 24)] + [(b"0" * 18 + EXAMPLE, 18), (EXAMPLE + b"0" * 18, 22)]
    ends = [n * PAGE for n in range(1, 27) if n * PAGE != CHUNK]
    lines = [(end - cut, line) for end, (line, cut) in zip(ends, cuts, strict=True)]
    lines += [(CHUNK - 11, AFFINE), (2 * CHUNK - 23, EXAMPLE), (2 * CHUNK, b"0" * (CHUNK - 1))]
    # the next one begins and ends like the example and has as many digits as it, modulo 65536
    lines += [(3 * CHUNK, EXAMPLE + b"0" * (CHUNK - 22) + EXAMPLE), (5 * CHUNK - 22, EXAMPLE)]
    return sorted(lines)


def arranged(lines):
    """The lines with the placed ones among them. Before each of those a line of zeros, malformed, fills the gap."""
    result, offset = [], 0
    for start, fixed in placed():
        while lines and offset + len(lines[0]) + 1 <= start:
            result.append(lines.pop(0))
            offset += len(result[-1]) + 1
        result += [b"0" * (start - offset - 1)] * (offset < start) + [fixed]
        offset = start + len(fixed) + 1
    return result + lines


def files():
    """The two texts. The last line is a good one and has no line feed."""
    lines = arranged([line for group in GROUPS for line in group()]) + [frame(1, 69643, built(69643, [65535, 2, 2, 1], 54321))]
    said = [answer(line) for line in lines]
    stdin, stdout = b"\n".join(lines), "".join(f"{one}\n" for one in said).encode()
    assert stdin.split(b"\n") == lines and all(stdin[start:].startswith(line + b"\n") for start, line in placed())
    # refusals, and up to the count or k what is solved
    outcomes = Counter(one[: 6 if one.startswith("01") else 8] for one in said)
    searched = sum(one[2:4] == "00" and degree(int(line[2:8], 16)) >= SLOW for line, one in zip(lines, said))
    print(f"{len(lines)} lines, {len(stdin)} bytes; output: {len(stdout)} bytes; {searched} searched from m = {SLOW} on", file=sys.stderr)
    print(", ".join(f"{outcome}: {number}" for outcome, number in sorted(outcomes.items())), file=sys.stderr)
    # malformed; 1 to 5 and 0 to 4 roots; 1 to 4, no root and 0 to 16 directions
    assert len(outcomes) == 1 + 5 + 5 + 4 + 1 + 17, "an outcome is not among the lines"
    assert len(lines) <= 4000 and len(stdin) < 400000 and len(stdout) > CHUNK and searched <= 300
    return {"stdin": stdin, "stdout": stdout}


def load(m, n):
    p = HOUSE[m - 2]
    different = list(dict.fromkeys(frame(1, p, built(p, [element(p) for _ in range(4)], element(p, 1))) for _ in range(8192)))[:512]
    for written in range(0, n, CHUNK):
        sys.stdout.buffer.writelines(line + b"\n" for line in draws.choices(different, k=min(CHUNK, n - written)))


if sys.argv[1:2] == ["--load"]:
    sys.exit(load(*map(int, sys.argv[2:])))
for crate, (name, text) in itertools.product(["gfroots", "everyroot"], files().items()):
    path = os.path.join(CRATES, crate, name)
    if sys.argv[1:] != ["--check"]:
        os.makedirs(os.path.dirname(path), exist_ok=True)
        with open(path, "wb") as out:
            out.write(text)
    elif not os.path.exists(path) or open(path, "rb").read() != text:
        sys.exit(f"crates/{crate}/{name} is not what this program makes")
