//! Document 01's sheet, in each of the ways to weigh it.
#![cfg(feature = "alloc")]
mod common;
use common::{changed, parts, TEXT};
use ushnazar::*;

fn has_the_papers_numbers<C>(verdict: &Verdict<C>) {
    assert!(verdict.proof.holds);
    assert_eq!(verdict.proof.gap.to_bits(), 0x4000000000000000);
    assert_eq!(verdict.proof.allowance.to_bits(), 0x39F8000000000000);
    assert_eq!(verdict.proof.cut.to_bits(), 0x3CB0000000000324);
    assert_eq!(verdict.proof.zero_within_error, 0);
    assert_eq!(verdict.proof.multipliers_zeroed, 0);
    assert_eq!(verdict.proof.rows, 1);
    assert_eq!(verdict.outward.to_bits(), 0x4000000000000000);
    assert!(verdict.declined);
}

#[test]
fn weighed_with_lists_of_its_own() {
    let verdict = weigh(&parts().sheet()).unwrap();
    has_the_papers_numbers(&verdict);
    let certificate = verdict.certificate;
    assert_eq!(certificate.high, [1.0, 1.0]);
    assert_eq!(certificate.low, [0.0, 0.0]);
    assert_eq!(certificate.magnitudes, [1.0, 1.0]);
    assert_eq!(certificate.terms, [1, 1]);
    assert_eq!(certificate.errors, None);
}

#[test]
fn weighed_into_buffers() {
    let sheet = parts().sheet();
    let mut buffers = Buffers::new();
    let verdict = weigh_into(&sheet.slices(), buffers.lists()).unwrap();
    has_the_papers_numbers(&verdict);
    assert_eq!(verdict.certificate.high, [1.0, 1.0]);
    assert_eq!(verdict.certificate.terms, [1, 1]);
    assert_eq!(verdict.certificate.errors, None);
}

#[test]
fn the_builder_adds_the_slack() {
    let mut book = SheetBuilder::new(0.0);
    book.structural(Domain::Integer, parts().cake);
    book.row_and_slack([(0, 1.0)], 3.0, 1.0, parts().slack);
    let sheet = book.build(parts().multipliers, 0, Direction::Down);
    assert_eq!(sheet.to_text(), parts().sheet().to_text());
    has_the_papers_numbers(&weigh(&sheet).unwrap());
}

#[test]
fn weighed_as_text() {
    assert_eq!(parts().sheet().to_text(), TEXT);
    let answer = weigh_text(TEXT.as_bytes());
    assert_eq!(
        answer.as_str(),
        "(holds yes)\n(gap 4000000000000000)\n(allowance 39F8000000000000)\n(cut 3CB0000000000324)\n\
         (zero-within-error 0)\n(multipliers-zeroed 0)\n(rows 1)\n(outward 4000000000000000)\n(declined yes)\n"
    );
    has_the_papers_numbers(&answer.verdict().unwrap());
}

#[test]
fn checked_multipliers_bring_errors() {
    let second = 2f64.powi(-60);
    let sheet =
        changed(|parts| parts.multipliers = Multipliers::Checked { rho: vec![Pair::from(1.0)], second: vec![second] });
    let verdict = weigh(&sheet).unwrap();
    // only the variable in the basis, here the slack, takes its share
    assert_eq!(verdict.certificate.errors, Some(vec![0.0, second]));
    assert_eq!(weigh_text(sheet.to_text().as_bytes()).verdict().unwrap(), verdict.with(()));
}

#[test]
fn a_refinement_that_did_not_converge_brings_none() {
    let sheet =
        changed(|parts| parts.multipliers = Multipliers::Checked { rho: vec![Pair::from(1.0)], second: vec![0.5] });
    assert_eq!(weigh(&sheet).unwrap().certificate.errors, None);
}

#[test]
fn multipliers_may_be_any_bits() {
    for hi in [f64::NAN, f64::INFINITY, f64::NEG_INFINITY, f64::MAX, -0.0, 5e-324] {
        for lo in [0.0, f64::NAN, f64::INFINITY, f64::MAX] {
            let sheet = changed(|parts| parts.multipliers = Multipliers::Unchecked { rho: vec![Pair { hi, lo }] });
            let verdict = weigh(&sheet).unwrap();
            let finite = hi.is_finite() && lo.is_finite() && (hi + lo).is_finite();
            assert!(finite || !verdict.declined, "{hi} {lo}");
        }
    }
}

#[test]
fn many_threads_at_once() {
    let answers: Vec<_> = std::thread::scope(|scope| {
        let threads: Vec<_> = (0..8).map(|_| scope.spawn(|| weigh(&common::sized(128, 128)).unwrap())).collect();
        threads.into_iter().map(|thread| thread.join().unwrap()).collect()
    });
    assert!(answers.windows(2).all(|pair| pair[0] == pair[1]));
}
