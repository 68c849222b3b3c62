#!/usr/bin/env python3
"""Runs a program on stored texts and compares what it prints.

    replay.py PROGRAM CASES

CASES is what tests/texts writes with --store: a line `(case TEXT ANSWER)` with two lengths, then so many bytes of a text
and of the answer to it. Ends with 1 if anything differs, or there is no case.
"""
import re
import subprocess
import sys


def cases(stored):
    at = 0
    while at < len(stored):
        head = re.compile(rb'\(case (\d{5}) (\d{5})\)\n').match(stored, at)
        if head is None:
            sys.exit(f'replay: no case at byte {at}')
        text_end = head.end() + int(head[1])
        at = text_end + int(head[2])
        yield stored[head.end():text_end], stored[text_end:at]


def main():
    if len(sys.argv) != 3:
        sys.exit('replay: replay.py PROGRAM CASES')
    program, path = sys.argv[1:]
    with open(path, 'rb') as file:
        stored = file.read()
    count = differing = 0
    for text, answer in cases(stored):
        count += 1
        printed = subprocess.run([program], input=text, stdout=subprocess.PIPE, check=False).stdout
        if printed != answer:
            differing += 1
            print(f'case {count}: {printed!r}, expected {answer!r}')
    print(f'{count} stored texts, {differing} differ')
    sys.exit(differing != 0 or count == 0)


main()
