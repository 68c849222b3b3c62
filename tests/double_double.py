"""The operations on pairs of doubles, in the machine's doubles and in the Rust's order, which two generators share."""
import struct

from table import one


def double(b):
    return struct.unpack('>d', b.to_bytes(8, 'big'))[0]


def bits(x):
    return one(int.from_bytes(struct.pack('>d', x), 'big'))


def two_sum(a, b):
    x = a + b
    z = x - a
    return x, (a - (x - z)) + (b - z)


def split(a):
    c = 134217729.0 * a
    x = c - (c - a)
    return x, a - x


def two_product(a, b):
    x = a * b
    (a1, a2), (b1, b2) = split(a), split(b)
    return x, a2 * b2 - (((x - a1 * b1) - a2 * b1) - a1 * b2)


def add(hi, lo, v):
    s, c = two_sum(v, hi)
    return s, lo + c


def add_product(hi, lo, a, b):
    p, e = two_product(a, b)
    hi, lo = add(hi, lo, p)
    return hi, lo + e


def add_scaled(hi, lo, c_hi, c_lo, b):
    hi, lo = add_product(hi, lo, c_hi, b)
    return hi, lo + c_lo * b
