//! Every refusal, from the builder where it can make such a sheet, else from raw slices or text.
#![cfg(feature = "alloc")]
mod common;
use common::{changed, parts, refusal, sized, TEXT};
use ushnazar::*;

/// The refusal of a sheet's slices with one thing changed.
fn of_slices(change: impl FnOnce(&mut Slices<'_>)) -> Option<Refusal> {
    let sheet = parts().sheet();
    let mut slices = sheet.slices();
    change(&mut slices);
    weigh_into(&slices, Buffers::new().lists()).err()
}

fn of_text(text: impl AsRef<[u8]>) -> Option<Refusal> {
    weigh_text(text.as_ref()).verdict().err()
}

#[test]
fn form_1() {
    assert_eq!(of_text(TEXT), None);
    assert_eq!(of_text(""), Some(Refusal::Form));
    assert_eq!(of_text(TEXT.trim_end()), Some(Refusal::Form));
    assert_eq!(of_text(format!("{TEXT}\n")), Some(Refusal::Form));
    assert_eq!(of_text(TEXT.replace("3FF0", "3ff0")), Some(Refusal::Form));
    assert_eq!(of_text(TEXT.replace("(sheet 1 1)", "(sheet 2 1)")), Some(Refusal::Form));
    assert_eq!(of_text([0xFF; 100]), Some(Refusal::Form));
    assert_eq!(weigh_text(b"").as_str(), "(refused 1)\n");
    // one row with as many pairs as 65,536 bytes and one more can hold
    let padded = |length: usize| {
        let (before, after) = TEXT.split_at(TEXT.find(" (0 3FF0").unwrap());
        let room = length - TEXT.len();
        let mut text = before.to_string();
        text.push_str(&" (0 00)".repeat(room / 7 - 2));
        let rest = room - 7 * (room / 7 - 2);
        text.push_str(&format!(" (0 {})", "0".repeat(rest - 5)));
        text + after
    };
    assert_eq!(padded(65_536).len(), 65_536);
    assert_eq!(of_text(padded(65_536)), Some(Refusal::Sizes));
    assert_eq!(of_text(padded(65_537)), Some(Refusal::Form));
}

#[test]
fn sizes_2() {
    assert_eq!(refusal(&sized(1, 0)), None);
    assert_eq!(refusal(&sized(128, 256)), None);
    assert_eq!(refusal(&sized(0, 1)), Some(Refusal::Sizes));
    assert_eq!(refusal(&sized(1, 257)), Some(Refusal::Sizes));
    let entries = |rows: usize, more: usize| {
        let mut book = SheetBuilder::new(0.0);
        for _ in 0..256 {
            book.structural(Domain::Real, Variable::default());
        }
        for place in 0..rows {
            let slack = Variable { state: State::Basic { place }, ..Variable::default() };
            let own = 255 + usize::from(place < more);
            book.row_and_slack((0..own).map(|column| (column, 1.0)), 0.0, 1.0, slack);
        }
        book.build(Multipliers::Unchecked { rho: vec![Pair::default(); rows] }, 0, Direction::Down)
    };
    assert_eq!(weigh(&entries(16, 0)).err(), None);
    assert_eq!(weigh(&entries(16, 1)).err(), Some(Refusal::Sizes));
    assert_eq!(of_slices(|slices| slices.rows = usize::MAX), Some(Refusal::Sizes));
}

#[test]
fn lengths_3() {
    let none = Multipliers::Unchecked { rho: vec![] };
    assert_eq!(refusal(&changed(|parts| parts.multipliers = none)), Some(Refusal::Lengths));
    let no_second = Multipliers::Checked { rho: vec![Pair::from(1.0)], second: vec![] };
    assert_eq!(refusal(&changed(|parts| parts.multipliers = no_second)), Some(Refusal::Lengths));
    assert_eq!(of_slices(|slices| slices.second = &[]), Some(Refusal::Lengths));
    let sheet = parts().sheet();
    let mut buffers = Buffers::new();
    let mut lists = buffers.lists();
    lists.errors = &mut [];
    assert_eq!(weigh_into(&sheet.slices(), lists).err(), Some(Refusal::Lengths));
}

#[test]
fn row_starts_4() {
    assert_eq!(of_slices(|slices| slices.starts = &[1, 2]), Some(Refusal::RowStarts));
    assert_eq!(of_slices(|slices| slices.starts = &[0, 1]), Some(Refusal::RowStarts));
    assert_eq!(of_slices(|slices| slices.starts = &[0, usize::MAX]), Some(Refusal::RowStarts));
}

#[test]
fn columns_5() {
    let columns = |entries: &[(usize, f64)]| refusal(&changed(|parts| parts.entries = entries.to_vec()));
    assert_eq!(columns(&[(1, 1.0)]), None);
    assert_eq!(columns(&[]), Some(Refusal::Columns));
    assert_eq!(columns(&[(0, 1.0)]), Some(Refusal::Columns));
    assert_eq!(columns(&[(0, 1.0), (0, 1.0), (1, 1.0)]), Some(Refusal::Columns));
    assert_eq!(columns(&[(0, 1.0), (2, 1.0)]), Some(Refusal::Columns));
}

#[test]
fn entries_6() {
    assert_eq!(refusal(&changed(|parts| parts.entries[0].1 = f64::NAN)), Some(Refusal::Entries));
    assert_eq!(refusal(&changed(|parts| parts.entries[1].1 = 2.0)), Some(Refusal::Entries));
    assert_eq!(refusal(&changed(|parts| parts.right_side = f64::INFINITY)), Some(Refusal::Entries));
}

#[test]
fn bounds_7() {
    assert_eq!(refusal(&changed(|parts| parts.cake.min = 2.0)), Some(Refusal::Bounds));
    assert_eq!(refusal(&changed(|parts| parts.cake.max = f64::NAN)), Some(Refusal::Bounds));
    assert_eq!(refusal(&changed(|parts| parts.slack.max = f64::NEG_INFINITY)), Some(Refusal::Bounds));
    assert_eq!(refusal(&changed(|parts| parts.slack.min = f64::NEG_INFINITY)), None);
}

#[test]
fn tolerances_8() {
    assert_eq!(refusal(&changed(|parts| parts.feasibility = -0.0)), Some(Refusal::Tolerances));
    assert_eq!(refusal(&changed(|parts| parts.cake.low_tolerance = -1.0)), Some(Refusal::Tolerances));
    assert_eq!(refusal(&changed(|parts| parts.slack.high_tolerance = f64::NAN)), Some(Refusal::Tolerances));
    assert_eq!(refusal(&changed(|parts| parts.scale = f64::INFINITY)), Some(Refusal::Tolerances));
    let product = changed(|parts| (parts.feasibility, parts.scale) = (f64::MAX, 2.0));
    assert_eq!(refusal(&product), Some(Refusal::Tolerances));
}

#[test]
fn basis_9() {
    assert_eq!(refusal(&changed(|parts| parts.slack.state = State::NonBasic)), Some(Refusal::Basis));
    assert_eq!(refusal(&changed(|parts| parts.cake.state = State::Basic { place: 0 })), Some(Refusal::Basis));
    assert_eq!(refusal(&changed(|parts| parts.slack.state = State::Basic { place: 1 })), Some(Refusal::Basis));
}

#[test]
fn values_10() {
    assert_eq!(refusal(&changed(|parts| parts.slack.value = f64::NAN)), Some(Refusal::Values));
    assert_eq!(refusal(&changed(|parts| parts.cake.value = f64::INFINITY)), Some(Refusal::Values));
}

#[test]
fn widened_11() {
    assert_eq!(refusal(&changed(|parts| parts.widened = vec![(1, Side::Up), (1, Side::Down)])), None);
    assert_eq!(refusal(&changed(|parts| parts.widened = vec![(2, Side::Up)])), Some(Refusal::Widened));
    let twice = changed(|parts| parts.widened = vec![(1, Side::Up), (0, Side::Up), (1, Side::Up)]);
    assert_eq!(refusal(&twice), Some(Refusal::Widened));
}

#[test]
fn leaving_row_12() {
    assert_eq!(refusal(&changed(|parts| parts.leaving_row = 1)), Some(Refusal::LeavingRow));
    assert_eq!(of_slices(|slices| slices.leaving_row = usize::MAX), Some(Refusal::LeavingRow));
}

#[test]
fn the_first_no_is_the_answer() {
    let sheet = changed(|parts| {
        parts.cake.min = 2.0;
        parts.slack.value = f64::NAN;
        parts.leaving_row = 1;
    });
    assert_eq!(refusal(&sheet), Some(Refusal::Bounds));
}

#[test]
fn numbers_and_words() {
    for (at, refusal) in Refusal::ALL.into_iter().enumerate() {
        assert_eq!(refusal.number() as usize, at + 1);
        assert_eq!(Refusal::from_number(refusal.number()), Some(refusal));
        assert!(refusal.question().ends_with('?'));
    }
    assert_eq!(Refusal::from_number(0), None);
    assert_eq!(Refusal::from_number(13), None);
    assert_eq!(Refusal::Values.to_string(), "refused 10: Are all values finite? No.");
}
