#!/usr/bin/env python3
"""Writes the table of cases that the program cdouble_table runs the crate cdouble on.

    generate.py              write the table to standard output
    generate.py --check F    exit 1 where the file F is not that table

A line is an operation's letter, five arguments and the two numbers of the right answer, each as 16 hexadecimal digits:
a double's bit pattern, or a count. Arguments and answers that an operation does not have are 0. Every NaN is
7FF8000000000000.

    S two_sum a b               H split a                    P two_product a b
    a add hi lo v               p add_product hi lo a b      s add_scaled hi lo c.hi c.lo b
    n neg hi lo                 N normalized hi lo           m abs_up hi lo
    v value hi lo               u rounded up hi lo           d rounded down hi lo
    A add_up a b                M mul_up a b                 D distance_up a b
    e compensated_error terms longest magnitude

The answers are those of the machine's doubles, operation for operation in the Rust's order, but for mul_up of finite
factors: there exact arithmetic's, as request 5 of document 02 asks. Where more is promised, as that a pair is exact or
an answer the least double not below, each is held to that by exact arithmetic; add and its kin and compensated_error,
of which no more is promised, to a bound on their error. No table is written where one fails.
"""
import math
import os
import random
import sys
from fractions import Fraction

# beside the tables' folders; no compiled copy of it is left there
sys.dont_write_bytecode = True
sys.path.insert(0, os.path.join(os.path.dirname(os.path.abspath(__file__)), '..'))
from double_double import add, add_product, add_scaled, bits, double, split, two_product, two_sum  # noqa: E402
from table import INF, MAX, NAN, NORMAL, ONE, SIGN, both_signs, main, minus, one, power  # noqa: E402


# ---- patterns and doubles

def next_up(x):
    """The pattern's neighbour, so that a zero from below is -0."""
    b = bits(x)
    if b in (NAN, INF):
        return x
    return double(1 if b & ~SIGN == 0 else b - 1 if b & SIGN else b + 1)


def next_down(x):
    return -next_up(-x)


# ---- the operations

def upper(x, error):
    return next_up(x) if error > 0.0 else x


def lower(x, error):
    return next_down(x) if error < 0.0 else x


def abs_up(hi, lo):
    return upper(*two_sum(-hi, -lo)) if hi + lo < 0.0 else upper(*two_sum(hi, lo))


def mul_up(a, b):
    """Of finite factors the least double not below the exact product, a zero +0; of others IEEE 754's product."""
    if not finite(a, b):
        return a * b
    v, largest = Fraction(a) * Fraction(b), double(MAX)
    if abs(v) > largest:
        return math.inf if v > 0 else -largest
    r = float(v)  # the nearest double, found in whole numbers
    return (next_up(r) if r < v else r) + 0.0  # which makes -0 +0


def compensated_error(terms, longest, magnitude):
    scale = max((float(longest) + 2.0) / 8.0, 1.0)
    return (float(terms) + 1.0) * scale * (16.0 * 4.930380657631324e-32) * magnitude


OPERATIONS = {
    'S': two_sum,
    'H': split,
    'P': two_product,
    'a': add,
    'p': add_product,
    's': add_scaled,
    'n': lambda hi, lo: (-hi, -lo),
    'N': two_sum,
    'm': lambda hi, lo: (abs_up(hi, lo),),
    'v': lambda hi, lo: (hi + lo,),
    'u': lambda hi, lo: (upper(*two_sum(hi, lo)),),
    'd': lambda hi, lo: (lower(*two_sum(hi, lo)),),
    'A': lambda a, b: (upper(*two_sum(a, b)),),
    'M': lambda a, b: (mul_up(a, b),),
    'D': lambda a, b: (abs_up(*two_sum(a, -b)),),
    'e': lambda *a: (compensated_error(*a),),
}


# ---- what is promised of the answers

def total(*xs):
    return sum(map(Fraction, xs))


def finite(*a):
    return all(map(math.isfinite, a))


def at_most(k, *xs):
    return all(abs(x) <= 2.0 ** k for x in xs)


def sum_range(*a):
    return at_most(1022, *a)


def product_range(a, b):
    return at_most(995, a, b) and (a == 0.0 or b == 0.0 or 2.0 ** -969 <= abs(a * b) <= 2.0 ** 1021)


def is_nearest(r, v):
    """No neighbour of r is nearer to v, and none as near where r's last digit is odd."""
    far = abs(v - Fraction(r))
    beside = min(abs(v - Fraction(n)) for n in (next_up(r), next_down(r)))
    return far < beside or far == beside and bits(r) % 2 == 0


def is_exact(r, v):
    return finite(*r) and total(*r) == v and is_nearest(r[0], v)


def is_up(r, v):
    """r is the least double not below v: past the greatest the infinity, and below the least finite one that one."""
    return next_down(r) < v <= r  # Python compares a fraction with a double exactly


def is_down(r, v):
    return is_up(-r, -v)


def is_half(x):
    """Whether x has at most 26 significant digits."""
    n = abs(Fraction(x).numerator)
    return n == 0 or (n // (n & -n)).bit_length() <= 26


def is_near(r, v, low, high):
    """What is lost of v is a little of the low parts that were added, and of what the high ones' roundings left out."""
    return abs(total(*r) - v) <= low / 2 ** 50 + high / 2 ** 102 + Fraction(1, 2 ** 1070)


def keeps_sum(r, hi, lo, v):
    return is_near(r, total(hi, lo, v), abs(Fraction(lo)), total(abs(hi), abs(v)))


def keeps_scaled(r, hi, lo, c, d, b):
    p, q = Fraction(c) * Fraction(b), Fraction(d) * Fraction(b)
    return is_near(r, total(hi, lo) + p + q, abs(Fraction(lo)) + abs(q), abs(Fraction(hi)) + abs(p))


def is_allowance(r, terms, longest, magnitude):
    v = (terms + 1) * max(Fraction(1), Fraction(longest + 2, 8)) / 2 ** 100 * Fraction(magnitude)
    return abs(v) >= 2 ** 1023 or abs(Fraction(r) - v) <= abs(v) / 2 ** 50 + Fraction(1, 2 ** 1073)


def added_range(hi, lo, a, b):
    return at_most(1022, hi, lo) and product_range(a, b)


def scaled_range(hi, lo, c, d, b):
    return finite(d) and at_most(1021, hi, lo, d * b) and product_range(c, b)


# for each letter, the arguments that a promise is about, and the promise
PROMISES = {
    'S': (sum_range, lambda r, *a: is_exact(r, total(*a))),
    'H': (lambda a: at_most(995, a), lambda r, a: total(*r) == Fraction(a) and all(map(is_half, r))),
    'P': (product_range, lambda r, a, b: is_exact(r, Fraction(a) * Fraction(b))),
    'a': (sum_range, keeps_sum),
    'p': (added_range, lambda r, hi, lo, a, b: keeps_scaled(r, hi, lo, a, 0.0, b)),
    's': (scaled_range, keeps_scaled),
    'n': (finite, lambda r, *a: [Fraction(x) for x in r] == [-Fraction(x) for x in a]),
    'N': (sum_range, lambda r, *a: is_exact(r, total(*a))),
    'm': (sum_range, lambda r, *a: is_up(*r, abs(total(*a)))),
    'v': (sum_range, lambda r, *a: is_nearest(*r, total(*a))),
    'u': (sum_range, lambda r, *a: is_up(*r, total(*a))),
    'd': (sum_range, lambda r, *a: is_down(*r, total(*a))),
    'A': (sum_range, lambda r, *a: is_up(*r, total(*a))),
    'M': (finite, lambda r, a, b: is_up(*r, Fraction(a) * Fraction(b)) and bits(*r) != minus(0)),
    'D': (sum_range, lambda r, a, b: is_up(*r, abs(total(a, -b)))),
    'e': (lambda terms, longest, magnitude: finite(magnitude), lambda r, *a: is_allowance(*r, *a)),
}


# ---- the arguments

# the sums checked by hand in document 01, the product as request 5 has it, and compensated_error with a scale of 1 and
# of 9/8
HAND = [
    ('S', (ONE, power(-53)), (ONE, power(-53))),
    ('A', (ONE, power(-53)), (ONE + 1,)),
    ('A', (ONE, minus(power(-54))), (ONE,)),
    ('A', (MAX, MAX), (INF,)),
    ('P', (ONE + 1, ONE + 1), (ONE + 2, power(-104))),
    ('M', (power(-600), power(-600)), (1,)),
    ('e', (5, 2, power(2)), (0x39F8 << 48,)),
    ('e', (1, 6, ONE), (power(-99),)),
    ('e', (1, 7, ONE), (power(-99, 1 << 49),)),
]

# the least number whose split overflows, so that the Rust has NaN for the error of a product with it
OVERSPLIT = 0x7E3FFFFFFC000000

# products worked out apart; the Rust has other bits for all but the fourth and the last
STEPS = [
    ('M', (1, power(-1)), (1,)),
    ('M', (1, ONE + 1), (2,)),
    ('M', (0x29261A9B14AF9BE1, 0x15DC3A8355F05374), (0x000000137FB2A377,)),
    ('M', (ONE + 1, power(996, 1 << 51) + 1), (power(996, 1 << 51) + 3,)),
    ('M', (minus(power(-600)), power(-600)), (0,)),
    ('M', (ONE + 1, power(997) + 1), (power(997) + 3,)),
    ('M', (power(512), power(512) - 1), (MAX,)),
    ('M', (INF, 0), (NAN,)),
]


def signs(sizes):
    return [b for s in sizes for b in (s, minus(s))]


def specials():
    """Values each of which meets each other one."""
    return signs([0, 1, NORMAL, ONE, ONE + 1, power(1022), MAX, INF]) + [NAN]


def singles(draw):
    """Values to split and to negate."""
    sizes = [0, 1, 2, 3, NORMAL - 1, NORMAL, NORMAL + 1, MAX - 1, MAX, INF]
    sizes += [power(k) + d for k in (-1050, -1021, -996, -969, -53, -1, 0, 1, 26, 27, 53, 900) for d in (-1, 0, 1)]
    # the edge of the range, and where the product with 2^27 + 1 overflows
    sizes += [power(k) + d for k in (995, 996, 997, 998) for d in (-1, 0, 1)]
    last = bits(double(MAX) / 134217729.0)
    sizes += [last + d for d in range(-3, 4)]
    # halves of all zeros and all ones, and a tie between them
    halves = (0, 1, 1 << 25, (1 << 25) - 1, (1 << 25) + 1, 1 << 26, (1 << 26) - 1, (1 << 26) + 1, (1 << 27) - 1)
    sizes += [power(k, m) for k in (0, 995) for m in halves]
    sizes += [power(0, NORMAL - m) for m in halves[1:]]
    yield from signs(sizes) + [NAN]
    for _ in range(70):
        yield draw.getrandbits(64)


def hard_sums():
    """Pairs of positive numbers that are hard to add; see both_signs."""
    tie = power(-53)
    yield from [
        # sums half-way between two doubles, and just off it
        (ONE, tie), (ONE, tie + 1), (ONE, tie - 1), (ONE + 1, tie), (power(53), ONE), (power(53, 1), ONE),
        (2 * NORMAL, 1), (2 * NORMAL + 1, 1), (ONE, power(-54)),
        # a carry through all the digits
        (ONE - 1, power(-54)), (power(1) - 1, tie), (power(1) - 1, power(-52)), (NORMAL - 1, 1),
        # sums that cancel, where the signs differ: exactly, almost, and to a subnormal
        (ONE, ONE - 1), (ONE + 1, ONE - 1), (power(1), power(1) - 1), (power(-4, 12345), power(-4, 12345)),
        (NORMAL + 5, NORMAL + 3), (NORMAL, NORMAL - 1), (MAX, MAX - 1), (power(60, 12345), power(60, 12344)),
        # the edge of the range of two_sum, and sums beyond it up to the greatest double
        (power(1022), power(1022) - 1), (power(1022), power(1022) + 1), (power(1022) + 1, power(1022) + 1),
        (power(1022), power(969)), (power(1022), power(968)), (power(1022), power(969) + 1), (power(1022), power(0, 7)),
        (power(1022) - 1, power(1022) - 1), (power(1023), power(1022)), (power(1023), power(1023)),
        (power(1023) - 1, power(1023) - 1), (MAX, power(970)), (MAX, power(970) - 1), (MAX, power(971)),
        (MAX - 1, power(971) - 1), (MAX, ONE),
        # sums where a step of two_sum overflows in one order of the operands and not in the other
        (MAX, power(971, 1 << 51)), (MAX, power(1022) - 2),
        # parts of very different size
        (ONE + 1, 1), (power(1022) - 1, 1), (power(600, 77), power(-600, 99)), (ONE, power(-105)),
        (ONE, power(-108, 3)),
        # subnormals
        (3, 5), (NORMAL + 1, NORMAL - 1), (2 * NORMAL - 1, 1), (power(-1000, 5), 7),
    ]
    for far in (52, 53, 54, 55):
        yield ONE, power(-far, 3)
        yield power(1) - 1, power(-far, 12345)


def hard_products():
    """Pairs of positive numbers that are hard to multiply; see both_signs."""
    yield from [
        # products of 53, 54 and 106 digits, and ties
        (ONE + 1, ONE + 1), (ONE - 1, ONE - 1), (ONE - 1, ONE + 1), (power(1) - 1, power(1) - 1),
        (power(26, 1), power(26)), (power(0, 1 << 51), ONE + 1), (power(0, 1 << 26), power(0, 1 << 25)),
        (power(0, 1 << 26), power(0, 3 << 25)), (power(0, 1 << 26), power(0, 1 << 26)),
        (power(0, (1 << 26) - 1), power(0, (1 << 26) + 1)),
        (power(-4, 0x999999999999A), power(-4, 0x999999999999A)), (power(-2, 0x5555555555555), power(1, 1 << 51)),
        # a factor at the edge of the range, the other a zero or small
        *[(power(995) + d, b) for d in (-1, 0, 1) for b in (0, 1, power(-900, 9), ONE + 1)],
        *[(power(996) + d, b) for d in (-1, 0, 1) for b in (0, ONE + 1)], (power(997), power(-20)), (MAX, 0),
        # products about 2^1021 and up to overflow
        *[(power(510) + d, power(511) + e) for d in (-1, 0, 1) for e in (-1, 0, 1)], (power(995), power(26)),
        (power(995), power(26) - 1), (power(995), power(26) + 1), (power(995) - 1, power(26) - 1),
        (power(511), power(511)), (power(511, 3), power(511, 5)), (power(512) - 1, power(512)),
        (power(512), power(512)), (power(995), power(995)), (MAX, power(1)), (MAX, ONE - 1), (power(1000), power(23)),
        # products about 2^-969
        *[(power(-484) + d, power(-485) + e) for d in (-1, 0, 1) for e in (-1, 0, 1)], (1, power(105)), (3, power(105)),
        (3, power(104) - 1), (1, power(105) - 1), (NORMAL, power(53)), (NORMAL + 1, power(53) + 1),
        (NORMAL - 1, power(53) + 1), (NORMAL - 1, power(54) + 1), (power(-974, 1), power(5) - 1),
        (power(-970, 1), power(1) - 1), (power(-970, 3), ONE + 1),
        # products whose error is lost, and products that are lost
        (power(-500) + 1, power(-500) + 1), (power(-511) + 1, power(-511)), (power(-530, 5), power(-530, 7)),
        (1, ONE + 1), (power(-537), power(-537)), (power(-537), power(-538)), (power(-600), power(-600)), (1, 1),
        (NORMAL, ONE - 1), (1, power(995)), (NORMAL - 1, power(995)),
    ]


def upward_products():
    """Pairs that are hard to multiply upward, where the Rust errs and just beside; see both_signs."""
    yield from [
        # products about 2^-969 and below, whose error is kept, is lost, or is above 0 in the Rust and below in truth
        (power(-484) - 1, power(-484) - 1), (power(-500) + 1, power(-500) - 1), (power(-500, 3), power(-500, 5)),
        (0x29261A9B14AF9BE1, 0x15DC3A8355F05374),
        # products just below the smallest normal number
        (NORMAL - 1, ONE + 1), (power(-511) - 1, power(-511)),
        # subnormals exact and inexact, and products about the smallest and half of it
        (power(-530), power(-530)), (5, power(-1)), (1, power(-1)), (power(-537) + 1, power(-537)),
        (power(-537) - 1, power(-537)),
        # a factor just below those whose split overflows, and such factors, the error above 0 for one of the signs
        (OVERSPLIT - 1, ONE - 1), (OVERSPLIT, ONE - 1), (OVERSPLIT, ONE + 1), (MAX, 3),
        # exactly the greatest double but one, and a quarter of a step and half a step past the greatest
        (power(512) - 2, power(512)), (power(511, 1 << 50), power(512, 0x9999999999999)),
        (power(1000, 1 << 50), power(23, 0x9999999999999)), (power(1000, 1 << 51), power(23, 0x5555555555555)),
        # a zero, and an infinity
        (OVERSPLIT, 0), (INF, power(-600)),
    ]


def signed(draw, k):
    """A double of exponent k, with any digits and either sign."""
    return draw.getrandbits(1) << 63 | power(k, draw.getrandbits(52))


def drawn_sums(draw):
    for _ in range(40):  # any patterns
        yield draw.getrandbits(64), draw.getrandbits(64)
    for _ in range(30):  # about as large
        k = draw.randint(-1000, 1000)
        yield signed(draw, k), signed(draw, k + draw.randint(-3, 3))
    for _ in range(20):  # the second cancels most of the first
        a = signed(draw, draw.randint(-1000, 1000))
        yield a, minus(a + draw.randint(-9, 9))
    for _ in range(30):  # a pair as two_sum leaves it, or nearly
        k = draw.randint(-900, 1021)
        yield signed(draw, k), signed(draw, k - draw.randint(50, 58))
    for _ in range(15):  # subnormals
        yield draw.getrandbits(52), draw.getrandbits(1) << 63 | draw.getrandbits(draw.randint(1, 52))


def drawn_products(draw):
    for _ in range(60):  # any patterns
        yield draw.getrandbits(64), draw.getrandbits(64)
    for low, high in ((-60, 60), (-974, -964), (1017, 1023), (-1080, -1020)):  # the exponent of the product
        for _ in range(45):
            total = draw.randint(low, high)
            k = draw.randint(max(-1022, total - 995), min(995, total + 1022))
            yield signed(draw, k), signed(draw, total - k)
    for _ in range(15):  # a subnormal factor
        yield draw.getrandbits(draw.randint(1, 52)), signed(draw, draw.randint(40, 995))


def mixed(draw, width, count):
    """Special values in every place."""
    values = specials()
    for _ in range(count):
        yield tuple(draw.choice(values) for _ in range(width))


def additions(draw):
    """A pair and what is added to it."""
    yield from mixed(draw, 3, 100)
    for a, b in hard_sums():
        for low in (0, minus(bits(double(a) * 2.0 ** -54)), power(-53, 1)):
            yield a, low, b
            yield a, low, minus(b)
    for _ in range(120):
        k = draw.randint(-900, 1000)
        yield signed(draw, k), signed(draw, k - draw.randint(45, 60)), signed(draw, k + draw.randint(-60, 20))


def product_additions(draw):
    """A pair and two factors; in some the pair cancels the product."""
    yield from mixed(draw, 4, 100)
    for a, b in list(hard_products()) + [(signed(draw, 3), signed(draw, -7)) for _ in range(40)]:
        x, e = two_product(double(a), double(b))
        for hi, lo in ((ONE, power(-54)), (bits(-x), 0), (bits(-x), bits(-e))):
            yield hi, lo, a, b
    for _ in range(120):
        k, j = draw.randint(-480, 480), draw.randint(-480, 480)
        yield signed(draw, k + j + draw.randint(-60, 60)), signed(draw, k + j - 60), signed(draw, k), signed(draw, j)


def scaled_additions(draw):
    """A pair, a pair to be scaled, and a factor."""
    yield from mixed(draw, 5, 150)
    for a, b in hard_products():
        yield ONE, power(-54), a, bits(double(a) * 2.0 ** -54), b
        yield bits(-double(a) * double(b)), 0, a, minus(bits(double(a) * 2.0 ** -55)), minus(b)
    for _ in range(200):
        k, j = draw.randint(-420, 480), draw.randint(-420, 480)
        far = k + j + draw.randint(-60, 60)
        c = signed(draw, k), signed(draw, k - draw.randint(50, 60))
        yield signed(draw, far), signed(draw, far - 54), *c, signed(draw, j)


def allowances(draw):
    """Counts and a magnitude."""
    counts = [0, 1, 5, 6, 7, 8, 2 ** 53 - 1, 2 ** 53, 2 ** 53 + 1, 2 ** 53 + 3, 2 ** 63 + 1024]
    counts += [2 ** 64 - 1025, 2 ** 64 - 1]
    sizes = [0, minus(0), 1, NORMAL, ONE, minus(ONE), power(2), power(73, 12345), MAX, INF, minus(INF), NAN]
    for n, count in enumerate(counts):
        for m, other in enumerate(counts):
            yield count, other, sizes[(n + m) % len(sizes)]
    for magnitude in sizes:
        yield 5, 2, magnitude
        yield 2 ** 64 - 1, 2 ** 64 - 1, magnitude
    for _ in range(80):
        yield draw.getrandbits(draw.randint(1, 64)), draw.getrandbits(draw.randint(1, 64)), draw.getrandbits(64)


# ---- the table

def cases():
    """Each letter with the arguments that it is run on."""
    draw = random.Random(20240229)
    special = [(a, b) for a in specials() for b in specials()]
    sums = special + list(both_signs(hard_sums())) + list(drawn_sums(draw))
    products = special + list(both_signs(hard_products())) + list(drawn_products(draw))
    upward = products + [a for _, a, _ in STEPS] + list(both_signs(upward_products()))
    lone = [(a,) for a in singles(draw)]
    arguments = {
        'H': lone, 'P': products, 'M': upward, 'a': additions(draw), 'p': product_additions(draw),
        's': scaled_additions(draw), 'n': [(*a, *b) for a, b in zip(lone, lone[1:])], 'e': allowances(draw),
    }
    yield from ((letter, a) for letter, a, _ in HAND)
    for letter in OPERATIONS:
        yield from ((letter, a) for a in arguments.get(letter, sums))


def apart(letter, patterns):
    """The arguments that are counts, and those that are doubles."""
    return (patterns[:2], patterns[2:]) if letter == 'e' else ((), patterns)


def line(letter, patterns):
    """A line of the table; no table where the answer is not what is promised."""
    counts, doubles = apart(letter, patterns)
    values = [*counts, *map(double, doubles)]
    answer = OPERATIONS[letter](*values)
    asked, promise = PROMISES[letter]
    if asked(*values) and not promise(answer, *values):
        sys.exit(f'{letter} {values} is {answer}, which is not as promised')
    numbers = [*counts, *map(one, doubles), *[0] * (5 - len(patterns)), *map(bits, answer), *[0] * (2 - len(answer))]
    return ' '.join([letter] + [f'{n:016X}' for n in numbers]) + '\n'


def lines():
    for letter, patterns, right in HAND + STEPS:
        found = line(letter, patterns).split()[6:]
        if [int(n, 16) for n in found] != [*right, *[0] * (2 - len(right))]:
            sys.exit(f'{letter} {patterns} is {found}, which is not the answer worked out apart')
    yield from dict.fromkeys(line(letter, patterns) for letter, patterns in cases())


main(lines(), __doc__, sys.argv[1:])
