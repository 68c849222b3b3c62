#!/usr/bin/env python3
"""Cuts the Rust that is followed here out of its documents, unchanged.

    cut.py DOCUMENTS FOLDER

Writes three files that Rust of the tests includes: FOLDER/sums.rs has the double-double sums, FOLDER/mul_up.rs has
`mul_up` alone, so that it can stand in a module of its own, and FOLDER/judgement.rs has all else, which calls the others.
Nothing of it is kept in this repository. An item that a document does not have just once, whole, ends the run.
"""
import os
import sys

PROOF, TOLERANCES, SOLVER = (f'src--src--solver--{name}.rs.txt' for name in ('proof', 'tolerances', 'mod'))

# The first words of each item. RESIDUAL_PRODUCT_MIN is here since a method of CDouble that nothing runs names it.
SUMS = [
    (PROOF, 'pub(crate) struct CDouble {'),
    (PROOF, 'impl CDouble {'),
    (PROOF, 'impl From<f64> for CDouble {'),
    (PROOF, 'pub(super) fn add_up('),
    (PROOF, 'const RESIDUAL_PRODUCT_MIN:'),
    (PROOF, 'fn distance_up('),
    (PROOF, 'const COMPENSATED_ERROR:'),
    (PROOF, 'pub(super) fn compensated_error('),
]

JUDGEMENT = [
    (TOLERANCES, 'pub(crate) const ROUNDOFF_FLOOR:'),
    (TOLERANCES, 'pub(crate) const UNIT_ROUNDOFF:'),
    (TOLERANCES, 'pub(crate) struct BoundTols {'),
    (TOLERANCES, 'impl BoundTols {'),
    (TOLERANCES, 'pub(crate) fn row_tolerance('),
    (TOLERANCES, 'pub(crate) fn slack_margin('),
    (TOLERANCES, 'pub(crate) fn slack_tol('),
    (TOLERANCES, 'pub(crate) fn implied_slack_error('),
    (TOLERANCES, 'pub(crate) fn band_edge('),
    (PROOF, 'const REFINEMENT_CONVERGED:'),
    (PROOF, 'pub(super) fn refinement_error('),
    (PROOF, 'fn finite_max_norm('),
    (PROOF, 'pub(super) struct Proof {'),
    (PROOF, 'pub(super) struct RefinedRow {'),
    (PROOF, 'struct Certificate {'),
    (PROOF, 'impl Certificate {'),
    (SOLVER, 'enum VarState {'),
    (SOLVER, 'struct WidenedBound {'),
]

# The product whose promise is another than the Rust's (document 02, request 5).
MUL_UP = (PROOF, 'fn mul_up(')

# Methods of Solver, put into one impl.
METHODS = [
    (SOLVER, 'pub(crate) fn num_constraints('),
    (SOLVER, 'fn num_total_vars('),
    (SOLVER, 'fn is_integer('),
    (SOLVER, 'fn holds_on_bounds('),
    (SOLVER, 'fn internal_value('),
    (SOLVER, 'fn row_activity('),
    (SOLVER, 'fn row_terms('),
    (PROOF, 'fn certificate('),
    (PROOF, 'pub(super) fn proof_of('),
    (PROOF, 'fn judge('),
    (PROOF, 'fn leaving_slack_cut('),
]


def fail(message):
    sys.exit(f'cut: {message}')


def end_of(text, at):
    """Where the item at a place ends: its braces close, or a semicolon outside of any bracket. Comments and strings do
    not count. A quote that opens no character is a lifetime's."""
    depth = 0
    while at < len(text):
        c = text[at]
        if text.startswith('//', at):
            at = text.index('\n', at)
        elif c == '"':
            at += 1
            while text[at] != '"':
                at += 2 if text[at] == '\\' else 1
        elif c == "'" and (text[at + 1] == '\\' or text[at + 2] == "'"):
            at = text.index("'", at + 2)
        elif c in '([{':
            depth += 1
        elif c in ')]}':
            depth -= 1
            if depth == 0 and c == '}':
                return at + 1
        elif c == ';' and depth == 0:
            return at + 1
        at += 1
    return None


def item(documents, name, start, indent):
    """The text of an item, with the attributes right above it."""
    text = documents[name]
    lead = '\n' + indent + start
    if text.count(lead) != 1:
        fail(f'{name} has {text.count(lead)} times: {start}')
    at = text.index(lead) + 1
    end = end_of(text, at)
    if end is None:
        fail(f'{name} does not end: {start}')
    while True:
        above = text.rfind('\n', 0, at - 1) + 1
        if not text.startswith(indent + '#[', above):
            return text[at:end] + '\n'
        at = above


def main():
    if len(sys.argv) != 3:
        fail('cut.py DOCUMENTS FOLDER')
    documents = {}
    for name in (PROOF, TOLERANCES, SOLVER):
        path = os.path.join(sys.argv[1], name)
        if not os.path.isfile(path):
            fail(f'there is no {path}')
        with open(path) as file:
            documents[name] = '\n' + file.read()
    methods = ['impl Solver {\n', *(item(documents, name, start, '    ') for name, start in METHODS), '}\n']
    for file, items, more in (('sums', SUMS, []), ('mul_up', [MUL_UP], []), ('judgement', JUDGEMENT, methods)):
        parts = [item(documents, name, start, '') for name, start in items]
        with open(os.path.join(sys.argv[2], f'{file}.rs'), 'w') as out:
            out.write('\n'.join(parts + more))


main()
