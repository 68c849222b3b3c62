//! The widened list as records, whatever stands behind their flags: the same answer, and the same lists left behind, by bits.
#![cfg(feature = "alloc")]
mod common;
use common::{changed, parts};
use std::slice;
use ushnazar::*;

const FILL: f64 = 5.5e55;
const FILL_TERMS: u32 = 0x5A5A_5A5A;
/// Bytes that set a side or not, and what the bytes behind them may hold.
const UPS: [u8; 4] = [0, 1, 2, 255];
const BEHIND: [u64; 3] = [0, 0x5A, u64::MAX];

/// The items as records, every byte behind a flag set from `behind`.
fn records(items: &[(usize, u8)], behind: u64) -> Vec<[u64; 2]> {
    items.iter().map(|&(v, up)| [v as u64, behind << 8 | u64::from(up)]).collect()
}

fn as_widened(records: &[[u64; 2]]) -> &[Widened] {
    // SAFETY: two words hold a record of 16 bytes: a size, and a byte at the front of the second
    unsafe { slice::from_raw_parts(records.as_ptr().cast(), records.len()) }
}

/// What a call answers and leaves behind.
#[derive(Debug, PartialEq)]
struct Outcome {
    answer: Result<[u64; 9], Refusal>,
    has_errors: bool,
    doubles: [[u64; 5]; 4],
    terms: [u32; 5],
}

fn outcome(
    weigh: impl for<'a> FnOnce(Lists<'a>) -> Result<Verdict<CertificateRef<'a>>, Refusal>,
    errors_length: usize,
) -> Outcome {
    let [mut high, mut low, mut magnitudes, mut errors] = [[FILL; 5]; 4];
    let mut terms = [FILL_TERMS; 5];
    let verdict = weigh(Lists {
        high: &mut high,
        low: &mut low,
        magnitudes: &mut magnitudes,
        terms: &mut terms,
        errors: &mut errors[..errors_length],
    });
    let has_errors = verdict.as_ref().is_ok_and(|verdict| verdict.certificate.errors.is_some());
    let answer = verdict.map(|verdict| {
        [
            u64::from(verdict.proof.holds),
            verdict.proof.gap.to_bits(),
            verdict.proof.allowance.to_bits(),
            verdict.proof.cut.to_bits(),
            verdict.proof.zero_within_error as u64,
            verdict.proof.multipliers_zeroed as u64,
            verdict.proof.rows as u64,
            verdict.outward.to_bits(),
            u64::from(verdict.declined),
        ]
    });
    Outcome { answer, has_errors, doubles: [high, low, magnitudes, errors].map(|list| list.map(f64::to_bits)), terms }
}

/// Weighs with each of the bytes behind the flags, and answers what came of it.
fn weighed_with(slices: &Slices<'_>, items: &[(usize, u8)], errors_length: usize) -> Outcome {
    let [right, others @ ..] = BEHIND.map(|behind| {
        let lent = records(items, behind);
        let sheet = Slices { widened: as_widened(&lent), ..*slices };
        let outcome = outcome(|lists| weigh_into(&sheet, lists), errors_length);
        assert_eq!(lent, records(items, behind));
        outcome
    });
    for other in others {
        assert_eq!(other, right, "{items:?}");
    }
    right
}

fn weighed(slices: &Slices<'_>, items: &[(usize, u8)]) -> Outcome {
    weighed_with(slices, items, 5)
}

fn untouched(outcome: &Outcome) -> bool {
    outcome.doubles == [[FILL.to_bits(); 5]; 4] && outcome.terms == [FILL_TERMS; 5]
}

/// 01's sheet with a real variable, on whose ranges widening tells, and multipliers with errors.
fn real() -> Sheet {
    changed(|parts| {
        parts.feasibility = 1e-9;
        parts.domain = Domain::Real;
        (parts.cake.low_tolerance, parts.cake.high_tolerance) = (1e-6, 1e-6);
        parts.slack.high_tolerance = 1e-6;
        parts.multipliers = Multipliers::Checked { rho: vec![Pair::from(1.0)], second: vec![2f64.powi(-60)] };
    })
}

#[test]
fn the_example() {
    let sheet = parts().sheet();
    let outcome = weighed(&sheet.slices(), &[]);
    assert_eq!(outcome.answer.unwrap()[7], 2f64.to_bits());
    assert_eq!(outcome.terms[..3], [1, 1, FILL_TERMS]);
}

#[test]
fn any_byte_but_0_is_up() {
    let sheet = real();
    let outward = |items: &[(usize, u8)]| weighed(&sheet.slices(), items).answer.unwrap()[7];
    assert_ne!(outward(&[(0, 0)]), outward(&[(0, 1)]));
    for up in UPS {
        assert_eq!(outward(&[(0, up)]), outward(&[(0, u8::from(up != 0))]));
        for other in UPS {
            for (variable, another) in [(0, 0), (0, 1), (1, 0), (1, 1)] {
                let outcome = weighed(&sheet.slices(), &[(variable, up), (another, other)]);
                let twice = variable == another && (up != 0) == (other != 0);
                assert_eq!(outcome.answer.is_err(), twice, "{variable} {up}, {another} {other}");
                assert_eq!(outcome.has_errors, !twice);
                assert_eq!(untouched(&outcome), twice);
            }
        }
    }
}

#[test]
fn each_refusal() {
    type Change = fn(&mut Slices<'_>);
    const CHANGES: [(Refusal, Change); 14] = [
        (Refusal::Sizes, |slices| slices.rows = 129),
        (Refusal::Sizes, |slices| slices.rows = usize::MAX),
        (Refusal::Sizes, |slices| slices.structurals = usize::MAX - 1),
        (Refusal::Lengths, |slices| slices.structurals = 2),
        (Refusal::Lengths, |slices| slices.second = &[]),
        (Refusal::RowStarts, |slices| slices.starts = &[0, 1]),
        (Refusal::Columns, |slices| slices.columns = &[1, 1]),
        (Refusal::Entries, |slices| slices.right_sides = &[f64::NAN]),
        (Refusal::Bounds, |slices| slices.mins = &[2.0, 0.0]),
        (Refusal::Tolerances, |slices| slices.feasibility = -0.0),
        (Refusal::Basis, |slices| slices.basic = &[0, 0]),
        (Refusal::Values, |slices| slices.values = &[f64::INFINITY, 2.0]),
        (Refusal::LeavingRow, |slices| slices.leaving_row = 1),
        (Refusal::LeavingRow, |slices| slices.leaving_row = usize::MAX),
    ];
    let sheet = real();
    for up in UPS {
        let fine = [(0, up), (1, 0), (1, 1)];
        // no variable of this number, and one that comes twice
        let amiss: [&[(usize, u8)]; 3] = [&[(2, up)], &[(usize::MAX, up)], &[(0, up), (1, 7), (0, up)]];
        for (refusal, change) in CHANGES {
            let mut slices = sheet.slices();
            change(&mut slices);
            let outcome = weighed(&slices, &fine);
            assert_eq!(outcome.answer, Err(refusal));
            assert!(untouched(&outcome));
            // the first "no" is the answer, before and behind the widened list's question
            for items in amiss {
                let outcome = weighed(&slices, items);
                assert_eq!(outcome.answer, Err(refusal.min(Refusal::Widened)));
                assert!(untouched(&outcome));
            }
        }
        for items in amiss {
            let outcome = weighed(&sheet.slices(), items);
            assert_eq!(outcome.answer, Err(Refusal::Widened));
            assert!(untouched(&outcome));
        }
        let short = weighed_with(&sheet.slices(), &fine, 1);
        assert_eq!(short.answer, Err(Refusal::Lengths));
        assert!(untouched(&short));
    }
}

#[test]
fn lists_as_long_as_they_can_be_and_longer() {
    let sheet = common::sized(128, 256);
    let mut items: Vec<(usize, u8)> = (0..MOST_VARIABLES).flat_map(|v| [(v, 0), (v, 0x80)]).collect();
    assert_eq!(items.len(), MOST_WIDENED);
    let refusal = |items: &[(usize, u8)]| {
        let lent = records(items, u64::MAX);
        let mut buffers = Buffers::new();
        weigh_into(&Slices { widened: as_widened(&lent), ..sheet.slices() }, buffers.lists()).err()
    };
    assert_eq!(refusal(&items), None);
    items.push((0, 0));
    assert_eq!(refusal(&items), Some(Refusal::Widened));
    items.resize(100_000, (usize::MAX, 255));
    assert_eq!(refusal(&items), Some(Refusal::Widened));
}
