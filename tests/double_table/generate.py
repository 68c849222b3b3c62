#!/usr/bin/env python3
"""Writes the table of edge cases that the program double_table runs the crates double_bits and outward_by_ranks on.

    generate.py              write the table to standard output
    generate.py --check F    exit 1 where the file F is not that table

A line is an operation's letter, two arguments and the right answer, each number as the 16 hexadecimal digits of a
double's bit pattern. An operation on one number has it twice. is_finite answers 1 or 0. Every NaN that is answered is
7FF8000000000000.

    a abs   f is_finite   u next_up   d next_down   M max   m min
    U sum_up   D sum_down   p product_bounds .down   P product_bounds .up

The answers are found by exact arithmetic on the patterns, with no arithmetic of the machine's doubles.
"""
import os
import random
import sys
from fractions import Fraction

# beside the tables' folders; no compiled copy of it is left there
sys.dont_write_bytecode = True
sys.path.insert(0, os.path.join(os.path.dirname(os.path.abspath(__file__)), '..'))
from table import INF, MAX, NAN, NORMAL, ONE, SIGN, both_signs, is_nan, main, minus, one, power  # noqa: E402


# ---- patterns and their values

def is_finite(b):
    return b & ~SIGN < INF


def magnitude(r):
    """The value of a pattern without a sign; that of the infinity's is 2^1024, the number that would come next."""
    field, digits = r >> 52, r & NORMAL - 1
    return Fraction(digits, 2 ** 1074) if field == 0 else Fraction(digits | NORMAL) * Fraction(2) ** (field - 1075)


def value(b):
    return -magnitude(b & ~SIGN) if b & SIGN else magnitude(b)


def below(v):
    """The pattern of the greatest double at most v, for v from 0 on: they go up with their values, so by halving."""
    low, high = 0, INF
    while high - low > 1:
        mid = (low + high) // 2
        if magnitude(mid) <= v:
            low = mid
        else:
            high = mid
    return low


def above(v):
    """The pattern of the least double at least v, for v from 0 on: the infinity's where v is past the greatest."""
    r = below(v)
    return r if magnitude(r) == v else r + 1


def near(text):
    """The pattern of the greatest double at most a number such as 0.1 or 1/3."""
    return below(Fraction(text))


def signed(r):
    """The pattern r, negated; the zero stays +0."""
    return minus(r) if r else 0


def round_down(v):
    return below(v) if v >= 0 else signed(above(-v))


def round_up(v):
    return above(v) if v >= 0 else signed(below(-v))


# ---- the operations

def next_up(a):
    """The least double at least half a smallest step above; a zero comes from below, so it is -0."""
    if is_nan(a) or a == INF:
        return one(a)
    return round_up(value(a) + Fraction(1, 2 ** 1075)) or SIGN


def next_down(a):
    return one(minus(next_up(minus(a))))


def choose(a, b, first):
    """a or b: the one that is no NaN, or a where first(a, b) or they are equal."""
    if is_nan(a) or is_nan(b):
        return one(b if is_nan(a) else a)
    if value(a) == value(b):
        return a
    return a if first(value(a), value(b)) else b


def total(a, b, rounded):
    if not is_finite(a):
        return one(a)
    return rounded(value(a) + value(b)) if is_finite(b) else one(b)


def product(a, b, rounded):
    if is_finite(a) and is_finite(b):
        return rounded(value(a) * value(b))
    if is_nan(a) or is_nan(b) or a & ~SIGN == 0 or b & ~SIGN == 0:
        return NAN
    return INF | (a ^ b) & SIGN


SINGLE = {
    'a': lambda a: one(a & ~SIGN),
    'f': lambda a: int(is_finite(a)),
    'u': next_up,
    'd': next_down,
}

PAIR = {
    'M': lambda a, b: choose(a, b, lambda x, y: x > y),
    'm': lambda a, b: choose(a, b, lambda x, y: x < y),
    'U': lambda a, b: total(a, b, round_up),
    'D': lambda a, b: total(a, b, round_down),
    'p': lambda a, b: product(a, b, round_down),
    'P': lambda a, b: product(a, b, round_up),
}


# ---- the arguments

def specials():
    """Values each of which meets each other one."""
    sizes = [
        0,  # zeros
        1, NORMAL - 1,  # the smallest and the largest subnormal
        NORMAL, NORMAL + 1,  # the smallest normal number and its neighbour
        power(-537), ONE - 1, ONE, ONE + 1,  # powers of two and neighbours; (2^-537)^2 is the smallest subnormal
        MAX - 1, MAX,
        INF,
    ]
    return [b for s in sizes for b in (s, minus(s))] + [NAN]


def singles():
    """Values for the operations on one number, beside the special ones."""
    powers = (-1074, -1073, -1072, -1050, -1024, -1023, -1021, -600, -53, -1, 1, 52, 53, 600, 1023)
    sizes = [power(k) + d for k in powers for d in (-1, 0, 1)]
    sizes += [near('0.1'), near('1.5'), near('1e300'), INF - 2, NORMAL - 2]
    return [b for s in sizes if s for b in (s, minus(s))]


def nans():
    """NaNs of either sign beside the one that is answered: next to the infinity, quiet, and the last pattern there is."""
    return [b for s in (INF + 1, NAN, SIGN - 1) for b in (s, minus(s)) if b != NAN]


def chosen():
    """Pairs of positive numbers that are hard to add or to multiply; see both_signs."""
    tie = power(-53)
    yield from [
        # sums half-way between two doubles, and just off it
        (ONE, tie), (ONE, tie + 1), (ONE, tie - 1), (ONE + 1, tie), (ONE + 2, tie), (power(52), power(-1)),
        (power(53), ONE), (power(53, 1), ONE), (power(53), ONE + 1), (power(53), ONE - 1), (2 * NORMAL, 1),
        (2 * NORMAL + 1, 1),
        # a carry through all the digits
        (ONE - 1, power(-54)), (power(1) - 1, tie), (power(1) - 1, power(-52)), (NORMAL - 1, 1), (2 * NORMAL - 1, 1),
        # sums that cancel, where the signs differ: exactly, almost, and to a subnormal
        (ONE, ONE - 1), (ONE, ONE - 2), (ONE + 1, ONE - 1), (power(1), power(1) - 1), (near('0.1'), near('0.1')),
        (near('0.1'), near('0.1') + 1), (NORMAL + 5, NORMAL + 3), (NORMAL, NORMAL - 1), (2 * NORMAL + 1, 2 * NORMAL),
        (MAX, MAX - 1), (near('1e16'), near('1e16') - 1), (power(60, 12345), power(60, 12344)),
        # products whose digits past the 53rd are exactly a half, and just off it
        (power(0, 1 << 51), ONE + 1), (power(0, 1 << 51), ONE + 3), (power(0, 1 << 26), power(0, 1 << 25)),
        (power(0, 1 << 26), power(0, 3 << 25)), (power(0, 1 << 26), power(0, 1 << 26)),
        (power(0, 1 << 26), power(0, 1 << 24)),
        # products that are exact, or one digit too long, or all ones
        (near('3'), near('7')), (power(26, 1), power(26)), (ONE - 1, ONE - 1), (ONE - 1, ONE + 1), (ONE + 1, ONE + 1),
        (power(1) - 1, power(1) - 1), (near('0.1'), near('0.1')), (near('0.1'), near('10')), (near('1/3'), near('3')),
        # sums at the greatest double and just past it: half a step of MAX is 2^970
        (MAX, power(970)), (MAX, power(970) - 1), (MAX, power(970) + 1), (MAX, power(971)), (MAX - 1, power(971)),
        (MAX - 1, power(971) - 1), (MAX - 1, power(971) + 1), (MAX, 1), (power(1023), power(1023)),
        (power(1023), power(1023) - 1), (power(1023), power(1022)), (power(1023), power(1023) - 2),
        (power(1023) + 1, power(1023) - 2), (power(1023) + 1, power(1023) - 1),
        # products at the greatest double and just past it
        (power(512), power(512)), (power(512), power(512) - 1), (power(512) - 1, power(512) - 1),
        (power(512) + 1, power(512) - 1), (power(512) + 1, power(512) - 2), (power(511), power(512)), (MAX, ONE + 1),
        (MAX, ONE - 1), (power(1023), power(1)), (power(1023), power(1) - 1), (MAX, power(-1)), (MAX, 1),
        (MAX, NORMAL), (MAX, power(1023)),
        # products about the smallest subnormal and half of it, and far below
        (power(-537), power(-537) - 1), (power(-537), power(-537) + 1), (power(-537), power(-538)),
        (power(-537), power(-538) + 1), (power(-537), power(-538) - 1), (power(-538), power(-538)), (1, power(-1)),
        (1, power(-1) - 1), (1, power(-1) + 1), (1, ONE + 1), (1, ONE - 1), (1, power(0, 1 << 51)), (1, 1),
        (1, NORMAL), (power(-600), power(-600)), (power(-600) + 1, power(-600)),
        # products that are exactly a subnormal or the smallest normal number, and just off it
        (power(-530), power(-530)), (power(-530, 1 << 50), power(-530)), (power(-1000), power(-30)),
        (power(-1000, 1 << 51), power(-50)), (power(-511), power(-511)), (power(-511) - 1, power(-511)),
        (power(-511) + 1, power(-511)), (NORMAL, ONE - 1), (NORMAL - 1, power(1)), (NORMAL - 1, ONE + 1),
        (NORMAL - 1, power(52)), (3, power(-1)), (5, power(-1)), (power(-1022), power(-52)),
    ]
    # sums whose digits are all ones, and just off it
    for far in (1, 11, 12, 32, 52):
        for b in (power(1) - 2, power(1) - 1, power(1)):
            yield power(far, NORMAL - (1 << 53 - far)), b
    # far operands: exponents that many apart
    for far in (52, 53, 54, 55, 56, 57, 60, 64, 128, 1000):
        for b in (power(-far), power(-far) + 1, power(-far) - 1, power(1 - far) - 1):
            yield ONE, b
        yield ONE + 1, power(-far)
        yield power(1) - 1, power(-far, 12345)
    for far in (53, 54, 55, 56, 2000):
        yield power(1000), power(1000 - far)
        yield power(far - 1074), 1  # against the smallest subnormal
        yield power(far - 1074) + 1, 3


def drawn():
    """Pairs drawn at random, and always the same."""
    draw = random.Random(20240229)
    for _ in range(50):  # any patterns
        yield draw.getrandbits(64), draw.getrandbits(64)
    for _ in range(50):  # moderate numbers, about as large
        yield tuple(draw.getrandbits(1) << 63 | power(draw.randint(-30, 30), draw.getrandbits(52)) for _ in range(2))
    for _ in range(30):  # the second cancels most of the first
        a = draw.getrandbits(1) << 63 | power(draw.randint(-1000, 1000), draw.getrandbits(52))
        yield a, minus(a + draw.randint(-9, 9))
    for _ in range(30):  # exponents 50 to 58 apart
        k = draw.randint(-900, 900)
        yield power(k, draw.getrandbits(52)), minus(power(k - draw.randint(50, 58), draw.getrandbits(52)))
    for _ in range(30):  # products about the smallest numbers
        k = draw.randint(-1022, 0)
        yield power(k, draw.getrandbits(52)), power(max(draw.randint(-1078, -1020) - k, -1022), draw.getrandbits(52))
    for _ in range(20):  # sums and products of subnormals
        yield draw.getrandbits(52), draw.getrandbits(1) << 63 | draw.getrandbits(draw.randint(1, 52))


# ---- the table

def lines():
    special = specials()
    common = [(a, b) for a in special for b in special] + list(drawn())
    hard = common + list(both_signs(chosen()))
    numbers = special + singles() + [a for a, b in drawn()]
    for letter, answer in SINGLE.items():
        for a in [*dict.fromkeys(map(one, numbers)), *nans()]:
            yield f'{letter} {a:016X} {a:016X} {answer(a):016X}\n'
    for letter, answer in PAIR.items():
        for a, b in dict.fromkeys((one(a), one(b)) for a, b in (common if letter in 'Mm' else hard)):
            yield f'{letter} {a:016X} {b:016X} {answer(a, b):016X}\n'


main(lines(), __doc__, sys.argv[1:])
