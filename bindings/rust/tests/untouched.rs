//! What a call leaves as it was.
#![cfg(feature = "alloc")]
mod common;
use common::{changed, parts};
use ushnazar::*;

const FILL: f64 = 5.5e55;
const FILL_TERMS: u32 = 0x5A5A_5A5A;

/// Lists of four places for a sheet of two variables.
struct Filled {
    doubles: [[f64; 4]; 4],
    terms: [u32; 4],
}

impl Filled {
    fn new() -> Self {
        Filled { doubles: [[FILL; 4]; 4], terms: [FILL_TERMS; 4] }
    }

    fn lists(&mut self) -> Lists<'_> {
        let [high, low, magnitudes, errors] = &mut self.doubles;
        Lists { high, low, magnitudes, terms: &mut self.terms, errors }
    }

    fn places_from(&self, first: usize) -> bool {
        self.doubles.iter().all(|list| list[first..].iter().all(|x| *x == FILL))
            && self.terms[first..].iter().all(|x| *x == FILL_TERMS)
    }
}

#[test]
fn places_beyond_stay() {
    let mut filled = Filled::new();
    let sheet = parts().sheet();
    let verdict = weigh_into(&sheet.slices(), filled.lists()).unwrap();
    assert_eq!(verdict.certificate.high, [1.0, 1.0]);
    assert!(filled.places_from(2));
    // without error bounds all of this list stays
    assert_eq!(filled.doubles[3], [FILL; 4]);
}

#[test]
fn places_beyond_stay_with_errors() {
    let mut filled = Filled::new();
    let sheet =
        changed(|parts| parts.multipliers = Multipliers::Checked { rho: vec![Pair::from(1.0)], second: vec![0.0] });
    let verdict = weigh_into(&sheet.slices(), filled.lists()).unwrap();
    assert_eq!(verdict.certificate.errors, Some(&[0.0, 0.0][..]));
    assert_eq!(filled.doubles[3], [0.0, 0.0, FILL, FILL]);
    assert!(filled.places_from(2));
}

#[test]
fn a_refusal_changes_nothing() {
    let sheets = [
        changed(|parts| parts.cake.min = 2.0),
        changed(|parts| parts.slack.value = f64::NAN),
        changed(|parts| parts.leaving_row = 7),
        changed(|parts| parts.multipliers = Multipliers::Checked { rho: vec![], second: vec![] }),
    ];
    for sheet in sheets {
        let mut filled = Filled::new();
        assert!(weigh_into(&sheet.slices(), filled.lists()).is_err());
        assert!(filled.places_from(0));
    }
}

#[test]
fn what_the_lists_held_does_not_matter() {
    let sheet = parts().sheet();
    for fill in [0.0, FILL, f64::NAN, f64::INFINITY, -1.0] {
        let mut filled = Filled::new();
        filled.doubles = [[fill; 4]; 4];
        let verdict = weigh_into(&sheet.slices(), filled.lists()).unwrap();
        assert_eq!(verdict.with(()), weigh(&sheet).unwrap().with(()));
        assert_eq!(filled.doubles[3].map(f64::to_bits), [fill.to_bits(); 4]);
    }
}
