#!/usr/bin/env python3
"""Writes the pairs of doubles that the program running_sums adds up, and works out what it answers.

    generate.py                write the lines to standard output
    generate.py --answer       write the program's answer to them
    generate.py --check F G    exit 1 where the file F is not those lines, or G not that answer

A line is two doubles a and b, each as the 16 hexadecimal digits of its bit pattern. The answer is the sum of all a and the
sum of all a b, each a pair hi, lo. Three lines have not that form: the program writes them as they are, and they add nothing.

Nearly every pair comes a second time, with the sign of a turned and some last digits changed, so that most of each sum
cancels, and what rounding leaves out on the way is as large as what remains. The answers are those of the machine's
doubles, operation for operation in the Rust's order. They are held to the exact sums: nothing is written unless each is
nearer to its exact sum than plain doubles come, by a factor of 2^40 at least, and has a low part.
"""
import os
import random
import sys
from fractions import Fraction

# beside the tables' folders; no compiled copy of it is left there
sys.dont_write_bytecode = True
sys.path.insert(0, os.path.join(os.path.dirname(os.path.abspath(__file__)), '..'))
from double_double import add, add_scaled, bits, double  # noqa: E402
from table import main, minus, power  # noqa: E402


# ---- the lines

def signed(draw, k):
    """A double of exponent k, with any digits and either sign."""
    return draw.getrandbits(1) << 63 | power(k, draw.getrandbits(52))


def pairs():
    """The patterns of all pairs, in order."""
    draw = random.Random(20240301)
    firsts = [(signed(draw, draw.randint(-40, 40)), signed(draw, draw.randint(-40, 40))) for _ in range(95)]
    seconds = [(minus(a + draw.randint(-9, 9)), b + draw.randint(-9, 9)) for a, b in firsts]
    draw.shuffle(seconds)
    # zeros of either sign, numbers too small to count, one of them subnormal
    rest = [(0, minus(0)), (minus(0), power(3)), (power(-1060), power(2)), (power(-300), minus(power(-300))),
            (power(0), power(-110)), (minus(power(-70)), power(70))]
    return firsts + rest + seconds


# lines of another form: small letters in the first number, no space between the numbers, no end behind them; and how many
# lines stand before them
OTHERS = ['3ff0000000000000 3FF0000000000000\n', '3FF0000000000000,3FF0000000000000\n', '3FF0000000000000 3FF0000000000000.']
PLACE = 100


def spelled(a, b):
    return f'{a:016X} {b:016X}\n'


def lines():
    written = [spelled(a, b) for a, b in pairs()]
    return written[:PLACE] + OTHERS + written[PLACE:]


# ---- the answer

def held(name, answer, plain, exact):
    """The answer, where it is near enough to the exact sum, and plain doubles are not."""
    hi, lo = answer
    error, other = abs(Fraction(hi) + Fraction(lo) - exact), abs(Fraction(plain) - exact)
    if lo == 0.0 or error * 2 ** 40 > other:
        sys.exit(f'{name} is {answer}, off by {float(error)}, and plain doubles are off by {float(other)}')
    return name + ' ' + spelled(bits(hi), bits(lo))


def answer():
    sum_pair, dot_pair, plain_sum, plain_dot, exact_sum, exact_dot = (0.0, 0.0), (0.0, 0.0), 0.0, 0.0, 0, 0
    for a, b in pairs():
        a, b = double(a), double(b)
        sum_pair, dot_pair = add(*sum_pair, a), add_scaled(*dot_pair, a, 0.0, b)
        plain_sum, plain_dot = plain_sum + a, plain_dot + a * b
        exact_sum, exact_dot = exact_sum + Fraction(a), exact_dot + Fraction(a) * Fraction(b)
    yield from ('not two doubles: ' + other for other in OTHERS)
    yield held('sum', sum_pair, plain_sum, exact_sum)
    yield held('dot', dot_pair, plain_dot, exact_dot)


words = sys.argv[1:]
if words == ['--answer']:
    main(answer(), __doc__, [])
elif len(words) == 3 and words[0] == '--check':
    main(lines(), __doc__, words[:2])
    main(answer(), __doc__, ['--check', words[2]])
elif not words:
    main(lines(), __doc__, [])
else:
    sys.exit(__doc__)
