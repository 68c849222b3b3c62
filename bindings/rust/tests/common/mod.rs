//! Document 01's sheet, with the parts that the tests change.
#![allow(dead_code)]
use ushnazar::*;

pub const TEXT: &str = "\
(sheet 1 1)
(feasibility 0)
(var i 0 3FF0000000000000 0 0 (nonbasic 3FF0000000000000))
(slack 0 0 0 0 (basic 0 4000000000000000))
(row 4008000000000000 3FF0000000000000 (0 3FF0000000000000) (1 3FF0000000000000))
(multipliers unchecked)
(rho 3FF0000000000000 0)
(leave 0 down)
";

/// What stands in 01's sheet; each test changes one thing of it.
pub struct Parts {
    pub feasibility: f64,
    pub domain: Domain,
    pub cake: Variable,
    pub slack: Variable,
    pub entries: Vec<(usize, f64)>,
    pub right_side: f64,
    pub scale: f64,
    pub widened: Vec<(usize, Side)>,
    pub multipliers: Multipliers,
    pub leaving_row: usize,
    pub direction: Direction,
}

pub fn parts() -> Parts {
    Parts {
        feasibility: 0.0,
        domain: Domain::Integer,
        cake: Variable { max: 1.0, value: 1.0, ..Variable::default() },
        slack: Variable { state: State::Basic { place: 0 }, value: 2.0, ..Variable::default() },
        entries: vec![(0, 1.0), (1, 1.0)],
        right_side: 3.0,
        scale: 1.0,
        widened: vec![],
        multipliers: Multipliers::Unchecked { rho: vec![Pair::from(1.0)] },
        leaving_row: 0,
        direction: Direction::Down,
    }
}

impl Parts {
    pub fn sheet(self) -> Sheet {
        let mut book = SheetBuilder::new(self.feasibility);
        book.structural(self.domain, self.cake);
        book.row(self.entries, self.right_side, self.scale, self.slack);
        for (variable, side) in self.widened {
            book.widened(variable, side);
        }
        book.build(self.multipliers, self.leaving_row, self.direction)
    }
}

/// 01's sheet with one thing changed.
pub fn changed(change: impl FnOnce(&mut Parts)) -> Sheet {
    let mut parts = parts();
    change(&mut parts);
    parts.sheet()
}

/// Weighed in slices and as text, which agree.
pub fn both(sheet: &Sheet) -> Verdict<()> {
    let verdict = weigh(sheet).unwrap().with(());
    assert_eq!(weigh_text(sheet.to_text().as_bytes()).verdict().unwrap(), verdict);
    verdict
}

/// The refusal of a sheet, which text and slices agree on. Lengths are asked of slices only.
pub fn refusal(sheet: &Sheet) -> Option<Refusal> {
    let refusal = weigh(sheet).err();
    if refusal != Some(Refusal::Lengths) {
        assert_eq!(weigh_text(sheet.to_text().as_bytes()).verdict().err(), refusal, "{sheet}");
    }
    refusal
}

/// So many rows and variables, each row `variable of the row's number + slack = 1`, the slacks in the basis.
pub fn sized(rows: usize, structurals: usize) -> Sheet {
    let mut book = SheetBuilder::new(0.0);
    for _ in 0..structurals {
        book.structural(Domain::Real, Variable { max: 1.0, ..Variable::default() });
    }
    for place in 0..rows {
        let slack = Variable { state: State::Basic { place }, value: 1.0, ..Variable::default() };
        let entries = (structurals > 0).then(|| (place % structurals, 1.0));
        book.row_and_slack(entries, 1.0, 1.0, slack);
    }
    book.build(Multipliers::Unchecked { rho: vec![Pair::from(1.0); rows] }, 0, Direction::Down)
}
