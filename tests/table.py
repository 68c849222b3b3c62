"""What the generators of the tables share: the bit patterns of doubles, and how a table is written or compared."""
import sys

SIGN = 1 << 63
INF = 0x7FF << 52
NAN = 0x7FF8 << 48
MAX = INF - 1
NORMAL = 1 << 52  # the smallest normal number; NORMAL - 1 is the largest subnormal, 1 the smallest
ONE = 1023 << 52


def power(k, m=0):
    """The pattern of (1 + m / 2^52) 2^k, for k from -1022 on, and of 2^k, for k from -1074 on."""
    return 1 << k + 1074 if k < -1022 else k + 1023 << 52 | m


def minus(b):
    return b ^ SIGN


def is_nan(b):
    return b & ~SIGN > INF


def one(b):
    """The pattern, that of every NaN as one."""
    return NAN if is_nan(b) else b


def both_signs(pairs):
    """Each pair, with equal signs and with different ones, the larger number first and last."""
    for a, b in pairs:
        yield from ((a, b), (minus(b), minus(a)), (a, minus(b)), (b, minus(a)))


def main(lines, usage, words):
    """Writes the table to standard output, or, given --check F, ends the run where the file F is not the table."""
    table = ''.join(lines)
    if not words:
        sys.stdout.write(table)
    elif len(words) == 2 and words[0] == '--check':
        with open(words[1], newline='') as file:
            if file.read() != table:
                sys.exit(f'{words[1]} is not what its generator writes')
    else:
        sys.exit(usage)
