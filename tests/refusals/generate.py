#!/usr/bin/env python3
"""Writes the table of sheets that the program refusals puts to sheet_verdict.

    generate.py              write the table to standard output
    generate.py --check F    exit 1 where the file F is not that table

A case is a line that makes a sound sheet, lines that change it, and a line with the number of the refusal that it is to
get. A line is a letter and four numbers, each as 16 hexadecimal digits. Numbers that a letter does not have are 0.

    S rows structurals dense widened    makes a sound sheet of so many rows and structural variables; each row has an
                                        entry in the first `dense` columns and one for its slack; so many widened items
    P slice place value                 puts a value at a place of a slice: a number, a flag or a double's bit pattern
    E refusal case                      the refusal's number, 0 for none, and the case's

Slices are counted from 0 as SLICES has them. The last is not handed over: its places are NUMBERS, the lengths of the
others and of the outputs, the sizes, feasibility (a pattern), checked, the leaving row and leaving_up. To put a value
there changes nothing else, so that lengths and sizes may be wrong. A slice is cut to its length, at most its ROOM. The
widened list is lent as records, so its two slices have one length: that of the sides is put after that of the variables.

Each case is written down here with the number that it is to get, and the questions of document 01 are put to its sheet
as well. No table is written where the two differ.
"""
import functools
import itertools
import os
import random
import struct
import sys
from collections import namedtuple

# beside the tables' folders; no compiled copy of it is left there
sys.dont_write_bytecode = True
sys.path.insert(0, os.path.join(os.path.dirname(os.path.abspath(__file__)), '..'))
from table import INF, MAX, NAN, NORMAL, ONE, SIGN, is_nan, main, minus, power  # noqa: E402

LENT = ('starts', 'columns', 'entries', 'right sides', 'scales', 'integer', 'mins', 'maxs', 'low', 'high', 'basic',
        'places', 'values', 'widened variables', 'widened sides', 'rho hi', 'rho lo', 'second')
OUTPUTS = ('out high', 'out low', 'out magnitudes', 'out terms', 'out errors')
SIZES = ('row count', 'structural count', 'entry count')
NUMBERS = LENT + OUTPUTS + SIZES + ('feasibility', 'checked', 'leaving row', 'leaving up')
SLICES = LENT + ('numbers',)

# the slices that are the widened list, which may have any length
WIDENED = ('widened variables', 'widened sides')

# the slices that have a place for each row, and for each variable
MULTIPLIERS = ('rho hi', 'rho lo', 'second')
OF_ROW = ('right sides', 'scales') + MULTIPLIERS
OF_VARIABLE = ('mins', 'maxs', 'low', 'high', 'basic', 'places', 'values')

# how many places the program has for a slice
ROOM = {**dict.fromkeys(OF_ROW, 132), **dict.fromkeys(OF_VARIABLE, 388), 'starts': 132, 'columns': 4100,
        'entries': 4100, 'integer': 260, 'widened variables': 776, 'widened sides': 776}

HUGE = (2 ** 64 - 1, 2 ** 64 - 2, 2 ** 64 - 128, 2 ** 63, 2 ** 32)
MINUS_NAN = NAN | SIGN
SIGNALLING = INF + 1


def bits(x):
    return int.from_bytes(struct.pack('>d', x), 'big')


def double(b):
    return struct.unpack('>d', b.to_bytes(8, 'big'))[0]


# ---- a sound sheet, and what is lent after changes

class Shape(namedtuple('Shape', 'rows structurals dense widened')):
    @property
    def count(self):
        return self.structurals + self.rows

    @property
    def entries(self):
        return self.rows * (self.dense + 1)

    def first(self, row):
        """The place of a row's first entry."""
        return row * (self.dense + 1)

    def last(self, row):
        """The place of a row's slack entry."""
        return row * (self.dense + 1) + self.dense


def P(name, place, value):
    return name, place, value


def N(name, value):
    return 'numbers', NUMBERS.index(name), value


def sound_numbers(shape):
    rows, structurals, _, widened = shape
    numbers = {**dict.fromkeys(OF_ROW + ('row count',), rows), **dict.fromkeys(OF_VARIABLE + OUTPUTS, shape.count),
               **dict.fromkeys(('columns', 'entries', 'entry count'), shape.entries), 'starts': rows + 1,
               'integer': structurals, 'structural count': structurals, 'widened variables': widened,
               'widened sides': widened, 'feasibility': bits(1e-7), 'checked': 0, 'leaving row': 0, 'leaving up': 0}
    return [numbers[name] for name in NUMBERS]


@functools.cache
def sound(shape):
    """The slices of a sound sheet, each as long as there is room for it."""
    structurals, dense = shape.structurals, shape.dense
    width = dense + 1
    at = {
        'starts': lambda k: k * width,
        'columns': lambda k: k % width if k % width < dense else structurals + k // width,
        'entries': lambda k: bits(3.0) if k % width < dense else ONE,
        'right sides': lambda k: bits(3.0),
        'scales': lambda k: ONE,
        'maxs': lambda k: ONE if k < structurals else INF,
        'low': lambda k: bits(1e-6),
        'high': lambda k: bits(1e-6),
        'basic': lambda k: int(k >= structurals),
        'places': lambda k: max(0, k - structurals),
        'values': lambda k: bits(0.5),
        'widened variables': lambda k: k // 2,
        'widened sides': lambda k: k % 2,
    }
    slices = {name: list(map(at.get(name, lambda k: 0), range(ROOM[name]))) for name in LENT}
    return {**slices, 'numbers': sound_numbers(shape)}


def lent(shape, changes):
    """The slices as they are lent after the changes, and the numbers by name."""
    slices = {name: list(slice) for name, slice in sound(shape).items()}
    for name, place, value in changes:
        slices[name][place] = value
    numbers = dict(zip(NUMBERS, slices['numbers']))
    if len({numbers[name] for name in WIDENED}) != 1:
        sys.exit(f'{shape} {changes}: widened lists of unlike length')
    return {name: slices[name][:numbers[name]] for name in LENT}, numbers


# ---- document 01's questions, each of the slices s and the numbers n of a sheet to which the earlier ones say yes

def finite(b):
    return b & ~SIGN < INF


def plain(b):
    return finite(b) and b < SIGN


def q2(s, n):
    return 1 <= n['row count'] <= 128 and n['structural count'] <= 256 and n['entry count'] <= 4096


def q3(s, n):
    rows, structurals, entries = (n[name] for name in SIZES)
    need = {**dict.fromkeys(OF_ROW, rows), **dict.fromkeys(OF_VARIABLE, structurals + rows), 'starts': rows + 1,
            'columns': entries, 'entries': entries, 'integer': structurals}
    return all(len(s[name]) == need[name] for name in need) and all(n[name] >= structurals + rows for name in OUTPUTS)


def q4(s, n):
    starts = s['starts']
    return starts[0] == 0 and starts == sorted(starts) and starts[-1] == n['entry count']


def rows_of(s, name):
    """The part of a slice that is each row's."""
    return [s[name][start:end] for start, end in zip(s['starts'], s['starts'][1:])]


def q5(s, n):
    structurals = n['structural count']
    for row, columns in enumerate(rows_of(s, 'columns')):
        if columns[-1:] != [structurals + row]:
            return False
        if not all(column < structurals for column in columns[:-1]) or columns != sorted(set(columns)):
            return False
    return True


def q6(s, n):
    return all(map(finite, s['entries'] + s['right sides'])) and all(double(r[-1]) == 1 for r in rows_of(s, 'entries'))


def q7(s, n):
    for low, high in zip(s['mins'], s['maxs']):
        if is_nan(low) or is_nan(high) or low == INF or high == minus(INF) or double(low) > double(high):
            return False
    return True


def q8(s, n):
    f = n['feasibility']
    if not all(map(plain, s['low'] + s['high'] + [f] + s['scales'])):
        return False
    return all(finite(bits(double(f) * double(scale))) for scale in s['scales'])


def q9(s, n):
    held = [place for basic, place in zip(s['basic'], s['places']) if basic != 0]
    return sorted(held) == list(range(n['row count']))


def q10(s, n):
    return all(map(finite, s['values']))


def q11(s, n):
    items = [(v, side != 0) for v, side in zip(s['widened variables'], s['widened sides'])]
    return all(v < n['structural count'] + n['row count'] for v, _ in items) and len(set(items)) == len(items)


def q12(s, n):
    return n['leaving row'] < n['row count']


QUESTIONS = {2: q2, 3: q3, 4: q4, 5: q5, 6: q6, 7: q7, 8: q8, 9: q9, 10: q10, 11: q11, 12: q12}


def refusal(shape, changes):
    sheet = lent(shape, changes)
    return next((number for number, question in QUESTIONS.items() if not question(*sheet)), 0)


# ---- shapes

SMALL = Shape(3, 4, 2, 3)
LIMIT = Shape(128, 256, 31, 768)
SHAPES = (
    SMALL, LIMIT, Shape(1, 0, 0, 0), Shape(1, 0, 0, 2), Shape(1, 1, 0, 0), Shape(1, 1, 1, 4), Shape(2, 3, 3, 10),
    Shape(5, 8, 8, 26), Shape(1, 256, 256, 514), Shape(16, 256, 255, 544), Shape(128, 0, 0, 0), Shape(128, 0, 0, 256),
    Shape(128, 31, 31, 0), Shape(127, 255, 31, 1),
)


def ends(n):
    """The first, a middle and the last of n places."""
    return sorted({0, n // 2, n - 1}) if n else []


def some(shape, values):
    """All values for a small sheet, and two for one at the limits."""
    return values[:2] if shape == LIMIT else values


# ---- for each question, the ways to make it the first that says no: lists of changes

def fail2(shape):
    own = (shape.rows, shape.structurals, shape.entries)
    for name, size, limit in zip(SIZES, own, (128, 256, 4096)):
        for other in some(shape, (limit + 1, 2 ** 32 + size, *HUGE, limit + 2, 2 ** 64 - limit)):
            yield [N(name, other)]
    yield [N('row count', 0)]
    # sums that come out right where they wrap
    yield [N('row count', 2 ** 64 - 1), N('starts', 0)]
    yield [N('row count', 2 ** 64 - 1), N('structural count', shape.count + 1)]
    yield [N('structural count', 2 ** 64 - 1), N('row count', shape.count + 1)]
    yield [N('structural count', 2 ** 64 - shape.rows), *(N(name, 0) for name in OF_VARIABLE + OUTPUTS)]
    yield [N('row count', 2 ** 63), N('structural count', 2 ** 63)]
    yield [N(name, 2 ** 64 - 1) for name in SIZES]


def fail3(shape):
    number = dict(zip(NUMBERS, sound_numbers(shape)))
    for name in LENT + OUTPUTS:
        if name in WIDENED:
            continue
        length = number[name]
        yield [N(name, length - 1)]
        if name in LENT:
            yield [N(name, length + 1)]
        if shape != LIMIT:
            yield [N(name, 0)]
            yield [N('checked', 1), N(name, length - 1)]
    # one is short by what another has too many
    for one, other in (('rho hi', 'rho lo'), ('columns', 'entries'), ('mins', 'maxs'), ('out errors', 'out terms')):
        yield [N(one, number[one] - 1), N(other, number[other] + 1)]
    yield [N('second', 0), N('out errors', 0)]
    for name in SIZES:
        yield [N(name, number[name] - 1)]
        if shape != LIMIT:
            yield [N(name, number[name] + 1)]
    yield [N('row count', shape.rows - 1), N('structural count', shape.structurals + (shape != LIMIT))]
    yield [N('structural count', shape.structurals - 1), N('row count', shape.rows + (shape != LIMIT))]


def fail4(shape):
    for value in some(shape, (1, 2 ** 64 - 1, shape.dense + 2)):
        yield [P('starts', 0, value)]
    for row in sorted({1, shape.rows // 2, shape.rows - 1}):
        yield [P('starts', row, shape.first(row + 1) + 1)]
        yield [P('starts', row, 2 ** 64 - 1)]
    for row in sorted({2, shape.rows // 2 + 1, shape.rows}):
        yield [P('starts', row, shape.first(row - 1) - 1)]
    for value in some(shape, (shape.entries - 1, shape.entries + 1, 0, 2 ** 64 - 1, 2 ** 32 + shape.entries)):
        yield [P('starts', shape.rows, value)]
    if shape != LIMIT:
        yield [P('starts', row, shape.first(row) + 1) for row in range(shape.rows + 1)]


def no_entries():
    return [N(name, 0) for name in ('columns', 'entries', 'entry count')]


def fail5(shape):
    rows, structurals, dense, _ = shape
    for row in ends(rows):
        first, last = shape.first(row), shape.last(row)
        own = structurals + row
        # in the slack's place a structural column, another slack, none
        others = {structurals + (row + 1) % rows, structurals + (row - 1) % rows}
        beyond = (structurals + rows, 2 ** 64 - 1, 2 ** 32 + own)
        for column in some(shape, (structurals - 1, *sorted(others), 0, *beyond)):
            yield [P('columns', last, column)]
        for k in ends(dense):
            for column in some(shape, (structurals, own, structurals + rows, 2 ** 64 - 1, 2 ** 32 + k)):
                yield [P('columns', first + k, column)]
        for k in ends(dense - 1):
            yield [P('columns', first + k, k + 1)]
            yield [P('columns', first + k, k + 1), P('columns', first + k + 1, k)]
        yield [P('columns', first + dense - 1, structurals - 1), P('columns', last, structurals - 1)]
        yield [P('columns', first, own), P('columns', last, 0)]
        # the row is empty, lacks its slack, has the next row's first entry too
        if row + 1 < rows:
            yield [P('starts', row + 1, first)]
            yield [P('starts', row + 1, last)]
            yield [P('starts', row + 1, last + 2)]
        else:
            yield [P('starts', row, shape.entries)]
            yield [P('starts', row, first - 1)]
    if shape != LIMIT:
        yield [P('starts', row, shape.entries) for row in range(1, rows)]
        yield no_entries() + [P('starts', row, 0) for row in range(rows + 1)]


NOT_FINITE = (NAN, INF, minus(INF), MINUS_NAN, SIGNALLING)


def fail6(shape):
    for row in ends(shape.rows):
        for value in some(shape, NOT_FINITE):
            yield [P('right sides', row, value)]
            yield [P('entries', shape.last(row), value)]
            for k in ends(shape.dense):
                yield [P('entries', shape.first(row) + k, value)]
        for value in some(shape, (ONE + 1, ONE - 1, bits(2.0), minus(ONE), 0, minus(0), 1, MAX)):
            yield [P('entries', shape.last(row), value)]


def fail7(shape):
    tiny = 1
    pairs = ((NAN, ONE), (0, NAN), (ONE + 1, ONE), (INF, INF), (minus(INF), minus(INF)), (NAN, NAN), (MINUS_NAN, ONE),
             (0, MINUS_NAN), (SIGNALLING, INF), (minus(INF), SIGNALLING), (INF, ONE), (INF, minus(INF)),
             (0, minus(INF)), (ONE, ONE - 1), (tiny, 0), (tiny, minus(0)), (0, minus(tiny)), (minus(0), minus(tiny)),
             (minus(ONE), minus(ONE + 1)), (MAX, MAX - 1), (INF, MAX), (minus(MAX), minus(INF)), (ONE, minus(ONE)))
    for v in ends(shape.count):
        for low, high in (pairs[:5] if shape == LIMIT else pairs):
            yield [P('mins', v, low), P('maxs', v, high)]


def fail8(shape):
    values = (minus(0), NAN, INF, minus(1), minus(ONE), minus(INF), MINUS_NAN, SIGNALLING)
    for value in values:
        yield [N('feasibility', value)]
    for value in some(shape, values):
        yield from ([P(name, v, value)] for name in ('low', 'high') for v in ends(shape.count))
        yield from ([P('scales', row, value)] for row in ends(shape.rows))
    for f, scale in some(shape, ((power(600), power(424)), (MAX, ONE + 1), (ONE + 1, MAX), (power(1023), power(1)),
                                 (MAX, MAX), (power(512), power(512)), (power(512) - 1, power(512) + 1), (0, INF),
                                 (INF, 0), (0, NAN))):
        for row in ends(shape.rows):
            # the other scales are 0, so that no other product is infinite
            others = [P('scales', r, 0) for r in range(shape.rows) if r != row] if shape != LIMIT else []
            yield [N('feasibility', f), *others, P('scales', row, scale)]


def fail9(shape):
    rows, structurals = shape.rows, shape.structurals
    for row in ends(rows):
        slack = structurals + row
        for place in some(shape, (rows, (row + 1) % rows, *HUGE, 2 ** 32 + row)):
            yield [P('places', slack, place)]
        yield [P('basic', slack, 0)]
        for v in ends(structurals):
            yield [P('basic', v, 1), P('places', v, row)]
        for flag in some(shape, (2, 255, 128)):
            yield [P('basic', structurals - 1, flag), P('places', structurals - 1, row)]
        # its place is held by another too, or by none, though as many are basic as there are rows
        yield [P('basic', slack, 0), P('basic', 0, 1), P('places', 0, (row + 1) % rows)]
        yield [P('basic', slack, 0), P('basic', 0, 255), P('places', 0, rows)]
        # each row's place is held once, and another place too
        for place in some(shape, (rows, *HUGE)):
            yield [P('places', slack, place), P('basic', 0, 1), P('places', 0, row)]
    for place in some(shape, (rows, 2 ** 64 - 1)):
        yield from ([P('basic', v, 1), P('places', v, place)] for v in ends(structurals))
    if shape != LIMIT:
        yield [P('basic', v, 0) for v in range(shape.count)]
        yield [P('basic', v, 1) for v in range(shape.count)]


def fail10(shape):
    yield from ([P('values', v, value)] for v in ends(shape.count) for value in some(shape, NOT_FINITE))


def item(k, v, side):
    return [P('widened variables', k, v), P('widened sides', k, side)]


def fail11(shape):
    count, widened = shape.count, shape.widened
    for k in ends(widened):
        yield from ([P('widened variables', k, v)] for v in some(shape, (count, count + 1, *HUGE)))
    yield item(0, count, 255)
    # a pair that is the same at the front, at the end, and as far apart as can be
    for k, other in ((1, 0), (widened - 1, widened - 2), (0, widened - 1), (widened - 1, 0), (widened // 2, 0)):
        for up, flag in some(shape, ((0, 0), (1, 255), (1, 1), (2, 1), (255, 255))):
            yield item(other, 0, up) + item(k, 0, flag)
            yield item(other, count - 1, up) + item(k, count - 1, flag)
    # an item more, which is there already
    if shape == LIMIT:
        longer = [N('widened variables', widened + 1), N('widened sides', widened + 1)]
        yield longer
        yield longer + item(widened, count - 1, 128)
        yield longer + item(widened, count, 0)


def fail12(shape):
    for row in (shape.rows, shape.rows + 1, *HUGE):
        yield [N('leaving row', row)]


FAILS = {2: fail2, 3: fail3, 4: fail4, 5: fail5, 6: fail6, 7: fail7, 8: fail8, 9: fail9, 10: fail10, 11: fail11,
         12: fail12}


# ---- changes that leave a sheet sound

def passing(shape):
    rows, structurals, dense, widened = shape
    count = shape.count
    for name in OUTPUTS:
        for length in some(shape, (count + 1, 2 ** 64 - 1, 2 ** 32)):
            yield [N(name, length)]
    for name in ('checked', 'leaving up'):
        yield from ([N(name, flag)] for flag in (1, 2, 255))
    yield from ([N('leaving row', row)] for row in ends(rows))
    for v in ends(structurals):
        yield [P('integer', v, 1)]
        yield [P('integer', v, 255)]
    usual = (MAX, minus(0), minus(MAX), 1, minus(1), NORMAL - 1)
    for value in some(shape, usual):
        yield from ([P('entries', shape.first(row), value)] for row in ends(rows) if dense)
        yield from ([P('right sides', row, value)] for row in ends(rows))
        yield from ([P('values', v, value)] for v in ends(count))
    for v in ends(count):
        for low, high in some(shape, ((ONE, ONE), (minus(INF), INF), (0, minus(0)), (minus(0), 0), (0, 0), (1, 1),
                                      (ONE, ONE + 1), (minus(INF), minus(MAX)), (MAX, INF), (MAX, MAX), (minus(1), 1))):
            yield [P('mins', v, low), P('maxs', v, high)]
        for value in some(shape, (0, 1, MAX, NORMAL - 1)):
            yield [P('low', v, value)]
            yield [P('high', v, value)]
    for row in ends(rows):
        yield from ([P('scales', row, value)] for value in some(shape, (0, MAX, 1)))
    for f in (0, 1, NORMAL - 1, MAX):
        yield [N('feasibility', f)]
    if rows and shape != LIMIT:
        rest = [P('scales', row, 0) for row in range(1, rows)]
        for f, scale in ((power(600), power(423)), (power(512), power(512) - 1), (0, MAX), (1, MAX), (MAX, ONE - 1)):
            yield [N('feasibility', f), P('scales', 0, scale), *rest]
    yield from passing_basis(shape)
    if widened:
        for k in ends(widened):
            yield [P('widened sides', k, 255)] if k % 2 else item(k, k // 2, 0)
        yield [N('widened variables', widened - 1), N('widened sides', widened - 1)]
        yield [N('widened variables', 1), N('widened sides', 1), *item(0, count - 1, 255)]
        yield [N('widened variables', 2), N('widened sides', 2), *item(0, count - 1, 2), *item(1, count - 1, 0)]
    else:
        yield [N('widened variables', 1), N('widened sides', 1), *item(0, count - 1, 1)]
    # columns with gaps, up to the last structural one
    if 0 < dense < structurals:
        yield [P('columns', shape.last(row) - 1, structurals - 1) for row in ends(rows)]
    if shape == SMALL:
        yield [P('columns', 0, 1), P('columns', 1, 3), P('columns', 3, 2), P('columns', 4, 3), P('columns', 6, 0)]
        # rows of 1, 5 and 3 entries
        yield [P('starts', 1, 1), P('starts', 2, 6), P('columns', 0, 4), P('columns', 5, 5), P('entries', 0, ONE),
               *(P('columns', 1 + k, k) for k in range(4)), P('entries', 5, ONE)]


def passing_basis(shape):
    rows, structurals = shape.rows, shape.structurals
    for row in ends(rows):
        slack = structurals + row
        yield from ([P('basic', slack, flag)] for flag in some(shape, (2, 255, 128)))
        if row:
            yield [P('places', slack, row - 1), P('places', slack - 1, row)]
        for v in ends(structurals):
            yield [P('basic', slack, 0), P('basic', v, 255), P('places', v, row)]
            yield [P('places', v, row)]
    for v in ends(structurals):
        yield from ([P('places', v, place)] for place in some(shape, (rows, *HUGE)))


def any_bits(shape, draw):
    """Multipliers may be any bits."""
    patterns = (NAN, MINUS_NAN, SIGNALLING, INF, minus(INF), MAX, minus(0), 1)
    for name in MULTIPLIERS:
        for row in ends(shape.rows):
            for pattern in some(shape, patterns):
                yield [P(name, row, pattern)]
    for _ in range(5):
        yield [P(name, row, draw.getrandbits(64)) for name in MULTIPLIERS for row in ends(shape.rows)]


# ---- cases

def sizes():
    """Sheets that are whole, and of a size within the limits or beyond."""
    yield from ((0, shape, []) for shape in SHAPES)
    for shape in ((129, 0, 0, 0), (129, 256, 30, 0), (129, 1, 1, 3), (0, 0, 0, 0), (0, 4, 0, 0), (0, 256, 0, 1),
                  (1, 257, 0, 0), (128, 257, 31, 0), (3, 257, 257, 0), (17, 256, 240, 0), (129, 257, 30, 772)):
        yield 2, Shape(*shape), []


def small_shapes():
    """Failures that the smallest sheets have."""
    lone = Shape(1, 0, 0, 0)
    yield 5, lone, no_entries() + [P('starts', 1, 0)]
    yield 4, lone, no_entries()
    yield 4, lone, [P('starts', 0, 1)]
    yield 4, lone, [P('starts', 1, 0)]
    yield from ((5, lone, [P('columns', 0, column)]) for column in (1, 2, 2 ** 64 - 1))
    yield 5, Shape(2, 0, 0, 0), [P('columns', 0, 1), P('columns', 1, 0)]
    yield 6, lone, [P('entries', 0, NAN)]
    yield 6, lone, [P('entries', 0, bits(0.5))]
    yield 6, lone, [P('right sides', 0, INF)]
    yield 7, lone, [P('mins', 0, INF)]
    yield 7, lone, [P('mins', 0, bits(2.0)), P('maxs', 0, ONE)]
    yield 8, lone, [P('scales', 0, minus(0))]
    yield 8, lone, [P('low', 0, NAN)]
    yield 9, lone, [P('basic', 0, 0)]
    yield 9, lone, [P('places', 0, 1)]
    yield 10, lone, [P('values', 0, INF)]
    pair = Shape(1, 0, 0, 2)
    yield 11, pair, [P('widened variables', 0, 1)]
    yield 11, pair, [P('widened sides', 0, 9)]
    yield 11, pair, [P('widened sides', 1, 0)]
    yield 12, lone, [N('leaving row', 1)]


def touched(changes):
    return {change[:2] for change in changes}


def together(shape, numbers, pick):
    """A way to fail each of the questions. No way touches what another does; alone, each is a case of its own."""
    found = []
    for number in numbers:
        ways = [way for way in FAILS[number](shape) if not touched(way) & touched(found)]
        found += ways[pick * (len(ways) - 1) // 4]
    return min(numbers), shape, found


def several():
    """Sheets that fail several questions at once: every two, and all from one on."""
    for numbers in itertools.combinations(QUESTIONS, 2):
        yield from (together(SMALL, numbers, pick) for pick in (0, 2, 4))
        yield together(LIMIT, numbers, 1)
    for number in QUESTIONS:
        for shape in (SMALL, LIMIT):
            yield from (together(shape, range(number, 13), pick) for pick in (0, 4))


def cases():
    draw = random.Random(20240229)
    yield from sizes()
    yield from small_shapes()
    for shape in (SMALL, LIMIT):
        yield from ((0, shape, changes) for changes in passing(shape))
        yield from ((0, shape, changes) for changes in any_bits(shape, draw))
        for number in QUESTIONS:
            yield from ((number, shape, changes) for changes in FAILS[number](shape))
    yield from several()


# ---- the table

def line(letter, *numbers):
    return ' '.join([letter] + [f'{n:016X}' for n in (*numbers, *[0] * (4 - len(numbers)))]) + '\n'


def lines():
    met = {}
    seen = set()
    for number, shape, changes in cases():
        if (shape, *changes) in seen:
            continue
        seen.add((shape, *changes))
        found = refusal(shape, changes)
        if found != number:
            sys.exit(f'{shape} {changes}: {found} by the questions, and written down as {number}')
        met.setdefault(number, []).append(shape)
        yield line('S', *shape)
        yield from (line('P', SLICES.index(name), place, value) for name, place, value in changes)
        yield line('E', number, len(seen))
    for number in (0, *QUESTIONS):
        at_limit = met[number].count(LIMIT)
        if at_limit < 3 or len(met[number]) - at_limit < 3:
            sys.exit(f'{number} is not met three ways, at the limits and below')


main(lines(), __doc__, sys.argv[1:])
