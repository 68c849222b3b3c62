#!/usr/bin/env python3
"""Adds to sheets that have their answers the outward gap and the exact gap, from document 01, in exact fractions.

    gaps.py < SHEETS    writes the sheets again, each with one line more, and a summary to standard error

The sheets are those that tests/differential writes: lines of a letter and eight numbers of 16 digits. A line S makes a
sheet, lines D fill it, a line G has the Rust's answer, or that of the Rust with the promised products where the line S
says so, lines L what its outputs are to be. No product of the Rust's enters the gaps. After the line G comes

    O refusal outward exact 0 0 0 0 0    the refusal of the line G, the outward gap, and the exact gap rounded down, or
                                         a NaN where there is none; both 0 where the sheet is refused

Which rows are kept and where the ranges end follows from operations on doubles in a given order; python's floats are
doubles. The five steps and the exact gap are worked out in fractions, which are rounded here. A finite outward gap
that is above the exact gap, or without one, ends the run.
"""
import math
import os
import struct
import sys
from fractions import Fraction

# beside the tables' folders; no compiled copy of it is left there
sys.dont_write_bytecode = True
sys.path.insert(0, os.path.join(os.path.dirname(os.path.abspath(__file__)), '..'))
from table import NAN  # noqa: E402

INFINITY = math.inf
LARGEST = sys.float_info.max

UNIT_ROUNDOFF = 2.0 ** -53
ROUNDOFF_FLOOR = 1e-14

# the slices as a line D counts them; the last has the sheet's numbers, of which a sheet's sizes are not needed here
SLICES = ('starts', 'columns', 'entries', 'right_sides', 'scales', 'integer', 'mins', 'maxs', 'low_tolerances',
          'high_tolerances', 'basic', 'places', 'values', 'widened_vars', 'widened_ups', 'rho_hi', 'rho_lo', 'second',
          'numbers')
DOUBLES = ('entries', 'right_sides', 'scales', 'mins', 'maxs', 'low_tolerances', 'high_tolerances', 'values', 'rho_hi',
           'rho_lo', 'second')
OF_ROW = ('right_sides', 'scales', 'rho_hi', 'rho_lo', 'second')
FEASIBILITY, CHECKED, LEAVING_ROW, LEAVING_UP = range(4)


def bits(x):
    return int.from_bytes(struct.pack('>d', x), 'big')


def double(b):
    return struct.unpack('>d', b.to_bytes(8, 'big'))[0]


# ---- rounding

def rounded(x, up):
    """The least double not below a fraction, or the greatest not above. A zero is +0."""
    if x == 0:
        return 0.0
    # the last power of two that is not above |x|, and from it the step between doubles
    top = abs(x.numerator).bit_length() - x.denominator.bit_length()
    if Fraction(2) ** top > abs(x):
        top -= 1
    step = Fraction(2) ** max(top - 52, -1074)
    steps = math.ceil(x / step) if up else math.floor(x / step)
    if abs(steps * step) <= LARGEST:
        return float(steps * step)
    if steps > 0:
        return INFINITY if up else LARGEST
    return -LARGEST if up else -INFINITY


def plus(a, b, up):
    """A sum. An infinite running sum stays infinite; an infinite term, which has the same sign, makes it so."""
    if math.isinf(a):
        return a
    return b if math.isinf(b) else rounded(Fraction(a) + Fraction(b), up)


def times(a, b, up):
    return rounded(Fraction(a) * Fraction(b), up)


# ---- functions on doubles, as the Rust has them

def maximum(a, b):
    """With one NaN, the other."""
    return b if math.isnan(a) or b > a else a


def minimum(a, b):
    return b if math.isnan(a) or b < a else a


def two_sum(a, b):
    x = a + b
    z = x - a
    return x, (a - (x - z)) + (b - z)


def finite_max_norm(values):
    norm = 0.0
    for value in values:
        if not math.isfinite(value):
            return None
        norm = maximum(norm, abs(value))
    return norm


def refinement_error(rho, second):
    norm = finite_max_norm(hi + lo for hi, lo in rho)
    second_norm = finite_max_norm(second)
    if norm is None or second_norm is None or not second_norm <= UNIT_ROUNDOFF * norm:
        return None
    return [abs(x) for x in second]


def band_edge(bound, tolerance, up):
    edge = bound + tolerance if up else bound - tolerance
    while abs(edge - bound) > tolerance:
        edge = math.nextafter(edge, -INFINITY if up else INFINITY)
    return edge


def row_tolerance(tolerance, magnitude):
    return maximum(tolerance, ROUNDOFF_FLOOR * magnitude)


def slack_margin(tolerance, magnitude, terms):
    return minimum((terms + 2.0) * UNIT_ROUNDOFF * magnitude, 0.5 * row_tolerance(tolerance, magnitude))


def slack_tol(tolerance, magnitude, terms):
    return row_tolerance(tolerance, magnitude) - slack_margin(tolerance, magnitude, terms)


# ---- sheets

class Sheet:
    """Its slices, 0 everywhere at first."""

    def __init__(self, rows, structurals, entries, widened):
        self.rows, self.structurals = rows, structurals
        lengths = {**dict.fromkeys(OF_ROW, rows), 'starts': rows + 1, 'columns': entries, 'entries': entries,
                   'integer': structurals, 'widened_vars': widened, 'widened_ups': widened, 'numbers': 7}
        for name in SLICES:
            zero = 0.0 if name in DOUBLES else 0
            setattr(self, name, [zero] * lengths.get(name, rows + structurals))

    def fill(self, name, place, values):
        if name in DOUBLES:
            values = [double(b) for b in values]
        getattr(self, name)[place:place + len(values)] = values

    def row(self, r):
        """Its columns and entries."""
        part = slice(self.starts[r], self.starts[r + 1])
        return list(zip(self.columns[part], self.entries[part]))

    def kept(self):
        """The kept rows, ascending, each with its multiplier."""
        rho = list(zip(self.rho_hi, self.rho_lo))
        errors = refinement_error(rho, self.second) if self.numbers[CHECKED] else None
        found = []
        for r, (hi, lo) in enumerate(rho):
            y = two_sum(-hi, -lo) if self.numbers[LEAVING_UP] else two_sum(hi, lo)
            value = y[0] + y[1]
            if errors is not None and abs(value) <= errors[r]:
                continue
            slack = self.structurals + r
            side = self.maxs[slack] if value > 0 else self.mins[slack]
            if value != 0 and math.isfinite(side):
                found.append((r, y))
        return found

    def leaving(self):
        held = zip(self.basic, self.places)
        return next(v for v, (basic, place) in enumerate(held) if basic and place == self.numbers[LEAVING_ROW])

    def slack_room(self, r):
        magnitude = abs(self.right_sides[r])
        for v, entry in self.row(r):
            if v < self.structurals:
                magnitude += abs(entry * self.values[v])
        row = double(self.numbers[FEASIBILITY]) * self.scales[r], magnitude, len(self.row(r)) - 1
        return maximum(slack_tol(*row) - slack_margin(*row), 0.0)

    def tolerance(self, v, up):
        return self.high_tolerances[v] if up else self.low_tolerances[v]

    def widening_room(self, v, up):
        if (v, up) in ((var, flag != 0) for var, flag in zip(self.widened_vars, self.widened_ups)):
            return 0.0
        return self.tolerance(v, up) if v < self.structurals else self.slack_room(v - self.structurals)

    def holds_on_bounds(self, v):
        return v < self.structurals and (self.integer[v] != 0 or self.mins[v] == self.maxs[v])

    def edge(self, v, up):
        bound = self.maxs[v] if up else self.mins[v]
        if math.isinf(bound):
            return bound
        if v == self.leaving():
            return band_edge(bound, self.tolerance(v, up), up)
        if self.holds_on_bounds(v):
            return bound
        return band_edge(bound, self.widening_room(v, up), up)


# ---- gaps

class Gaps:
    """What they are reckoned from: of each kept row its multiplier, its entries by column and its right side; of each
    variable its range."""

    def __init__(self, sheet):
        self.rows = [(y, dict(sheet.row(r)), sheet.right_sides[r]) for r, y in sheet.kept()]
        self.ranges = [(sheet.edge(v, False), sheet.edge(v, True)) for v in range(sheet.rows + sheet.structurals)]
        self.finite = all(math.isfinite(part) for y, _, _ in self.rows for part in y)

    def coefficient(self, v, up):
        """Step 2: cu of a variable, or cl."""
        c = 0.0
        for y, entries, _ in self.rows:
            if v in entries:
                for part in y:
                    c = plus(c, times(part, entries[v], up), up)
        return c

    def outward(self):
        if not self.finite:
            return -INFINITY
        most = 0.0
        for v, (low, high) in enumerate(self.ranges):
            cl, cu = self.coefficient(v, False), self.coefficient(v, True)
            if math.isinf(cl) or math.isinf(cu):
                return -INFINITY
            if cl == 0 and cu == 0:
                continue
            if cu > 0 and high == INFINITY or cl < 0 and low == -INFINITY:
                return -INFINITY
            edges = [edge for edge in (low, high) if math.isfinite(edge)]
            most = plus(most, max(times(c, edge, True) for c in (cl, cu) for edge in edges), True)
        right = 0.0
        for y, _, side in self.rows:
            for part in y:
                right = plus(right, times(part, side, False), False)
        if right == -INFINITY or most == INFINITY:
            return -INFINITY
        return plus(right, -most, False)

    def exact(self):
        """The exact gap, None where there is none."""
        if not self.finite:
            return None
        rows = [(Fraction(hi) + Fraction(lo), entries, side) for (hi, lo), entries, side in self.rows]
        gap = sum(y * Fraction(side) for y, _, side in rows)
        for v, (low, high) in enumerate(self.ranges):
            c = sum(y * Fraction(entries[v]) for y, entries, _ in rows if v in entries)
            if c != 0:
                edge = high if c > 0 else low
                if math.isinf(edge):
                    return None
                gap -= c * Fraction(edge)
        return gap


# ---- lines

def note(counts, holds, outward, exact):
    finite, above, there = math.isfinite(outward), outward > 0, exact is not None
    shown = {
        'accepted': True,
        'with an exact gap': there,
        'without': not there,
        'outward gap finite': finite,
        'outward gap -infinity': not finite,
        'outward gap -infinity, exact gap there': not finite and there,
        'outward gap above 0': above,
        'outward gap 0': outward == 0,
        'outward gap finite, below 0': finite and outward < 0,
        'outward gap equal to the exact gap': finite and exact == Fraction(outward),
        'outward gap finite, below the exact gap': finite and exact > Fraction(outward),
        'exact gap above 0, outward gap not': there and exact > 0 and not above,
        'exact gap past the largest double': there and abs(exact) > LARGEST,
        'holds': holds,
        'holds, outward gap above 0': holds and above,
        'holds, outward gap not above 0': holds and not above,
        'holds, outward gap finite, not above 0': holds and finite and not above,
        'holds, exact gap not above 0': holds and there and exact <= 0,
        'holds, no exact gap': holds and not there,
        'holds not, outward gap above 0': not holds and above,
    }
    for what, happened in shown.items():
        counts[what] = counts.get(what, 0) + happened


def patterns(sheet, holds, counts):
    """Those of the outward and of the exact gap."""
    gaps = Gaps(sheet)
    outward, exact = gaps.outward(), gaps.exact()
    if math.isfinite(outward) and (exact is None or Fraction(outward) > exact):
        sys.exit(f'sheet {counts["sheets"]}: outward gap {outward!r}, exact gap {exact}')
    note(counts, holds, outward, exact)
    return bits(outward), NAN if exact is None else bits(rounded(exact, False))


def main():
    counts = {'sheets': 0, 'refused': 0}
    sheet = None
    for line in sys.stdin:
        sys.stdout.write(line)
        letter, *numbers = line.split()
        a = [int(number, 16) for number in numbers]
        if letter == 'S':
            sheet = Sheet(*a[:4])
        elif letter == 'D':
            sheet.fill(SLICES[a[0]], a[1], a[3:3 + a[2]])
        elif letter == 'G':
            refusal, holds = a[0], a[1] == 1
            counts['sheets'] += 1
            counts['refused'] += refusal != 0
            found = patterns(sheet, holds, counts) if refusal == 0 else (0, 0)
            print('O', *(f'{n:016X}' for n in (refusal, *found, 0, 0, 0, 0, 0)))
    for what, count in counts.items():
        print(f'{count:>10} {what}', file=sys.stderr)


main()
