#!/usr/bin/env python3
"""Draws what the benchmark prints: time against entries, both on logarithmic scales.

    plot.py < OUTPUT > PICTURE.svg
"""
import math
import sys

WIDTH, HEIGHT = 720, 440
LEFT, RIGHT, TOP, BOTTOM = 76, 176, 40, 56
# side, state, how it is called, colour, dashes
LINES = [
    ('verdict', 'unchecked', 'full verdict', '#1f5fa8', ''),
    ('verdict', 'checked', 'full verdict, checked', '#1f5fa8', '5 4'),
    ('there', 'unchecked', 'Rust and C', '#b5532a', ''),
    ('there', 'checked', 'Rust and C, checked', '#b5532a', '5 4'),
]


def read(lines):
    """Times by side, state and entries."""
    found = {}
    for line in lines:
        words = line.split()
        if len(words) == 7 and words[1] in ('checked', 'unchecked'):
            entries, state = int(words[0]), words[1]
            verdict, rust, c = (float(word) for word in words[2:5])
            found.setdefault(('verdict', state), {})[entries] = verdict
            found.setdefault(('there', state), {})[entries] = rust + c
    return found


def main():
    found = read(sys.stdin)
    sizes = sorted(found['verdict', 'unchecked'])
    times = [time for line in found.values() for time in line.values()]
    low, high = math.floor(math.log10(min(times))), math.ceil(math.log10(max(times)))

    def x(entries):
        return LEFT + (WIDTH - LEFT - RIGHT) * math.log(entries / sizes[0]) / math.log(sizes[-1] / sizes[0])

    def y(time):
        return HEIGHT - BOTTOM - (HEIGHT - TOP - BOTTOM) * (math.log10(time) - low) / (high - low)

    out = [f'<svg xmlns="http://www.w3.org/2000/svg" width="{WIDTH}" height="{HEIGHT}" viewBox="0 0 {WIDTH} {HEIGHT}" '
           'font-family="sans-serif" font-size="12">',
           f'<rect width="{WIDTH}" height="{HEIGHT}" fill="white"/>',
           f'<text x="{LEFT}" y="22" font-size="14">Time for a sheet against its entries</text>']
    for entries in sizes:
        out.append(f'<line x1="{x(entries):.1f}" y1="{TOP}" x2="{x(entries):.1f}" y2="{HEIGHT - BOTTOM}" stroke="#e4e4e4"/>')
        out.append(f'<text x="{x(entries):.1f}" y="{HEIGHT - BOTTOM + 18}" text-anchor="middle">{entries}</text>')
    for power in range(low, high + 1):
        at = y(10 ** power)
        label = {0: '1 ns', 1: '10 ns', 2: '100 ns', 3: '1 µs', 4: '10 µs', 5: '100 µs', 6: '1 ms'}[power]
        out.append(f'<line x1="{LEFT}" y1="{at:.1f}" x2="{WIDTH - RIGHT}" y2="{at:.1f}" stroke="#e4e4e4"/>')
        out.append(f'<text x="{LEFT - 8}" y="{at + 4:.1f}" text-anchor="end">{label}</text>')
    out.append(f'<text x="{(LEFT + WIDTH - RIGHT) / 2}" y="{HEIGHT - 14}" text-anchor="middle">entries</text>')
    for at, (side, state, name, colour, dashes) in enumerate(LINES):
        style = f'stroke="{colour}" stroke-width="2" fill="none" stroke-dasharray="{dashes}"'
        points = ' '.join(f'{x(n):.1f},{y(time):.1f}' for n, time in sorted(found[side, state].items()))
        out.append(f'<polyline points="{points}" {style}/>')
        row = TOP + 12 + 20 * at
        out.append(f'<line x1="{WIDTH - RIGHT + 14}" y1="{row}" x2="{WIDTH - RIGHT + 38}" y2="{row}" {style}/>')
        out.append(f'<text x="{WIDTH - RIGHT + 44}" y="{row + 4}">{name}</text>')
    out.append('</svg>')
    print('\n'.join(out))


main()
