//! The text of a sheet. Its numbers may have zeros in front, up to the digits that the form allows, so that one sheet has
//! texts of many lengths.
use crate::generate::Rng;
use crate::sheet::Sheet;

enum Piece {
    Words(String),
    /// Without zeros in front, and how many there may be.
    Number(String, usize),
}

#[derive(Default)]
pub struct Draft(Vec<Piece>);

impl Draft {
    fn words(&mut self, words: &str) {
        match self.0.last_mut() {
            Some(Piece::Words(before)) => before.push_str(words),
            _ => self.0.push(Piece::Words(words.to_string())),
        }
    }

    fn double(&mut self, x: f64) {
        let digits = format!("{:X}", x.to_bits());
        let room = 16 - digits.len();
        self.0.push(Piece::Number(digits, room));
    }

    /// What five digits cannot say becomes the most that they can: no sheet of the form has so many of anything.
    fn count(&mut self, n: usize) {
        let digits = n.min(99_999).to_string();
        let room = 5 - digits.len();
        self.0.push(Piece::Number(digits, room));
    }

    fn variable(&mut self, sheet: &Sheet, var: usize) {
        let lists = [&sheet.mins, &sheet.maxs, &sheet.low_tolerances, &sheet.high_tolerances];
        for list in lists {
            self.words(" ");
            self.double(list[var]);
        }
        if sheet.basic[var] != 0 {
            self.words(" (basic ");
            self.count(sheet.places[var]);
            self.words(" ");
        } else {
            self.words(" (nonbasic ");
        }
        self.double(sheet.values[var]);
        self.words("))\n");
    }

    fn row(&mut self, sheet: &Sheet, r: usize) {
        self.words("(row ");
        self.double(sheet.right_sides[r]);
        self.words(" ");
        self.double(sheet.scales[r]);
        for at in sheet.part(r) {
            self.words(" (");
            self.count(sheet.columns[at]);
            self.words(" ");
            self.double(sheet.entries[at]);
            self.words(")");
        }
        self.words(")\n");
    }

    /// Of a sheet whose slices fit together.
    pub fn of(sheet: &Sheet) -> Self {
        let mut draft = Draft::default();
        draft.words("(sheet ");
        draft.count(sheet.rows);
        draft.words(" ");
        draft.count(sheet.structurals);
        draft.words(")\n(feasibility ");
        draft.double(sheet.feasibility);
        draft.words(")\n");
        for var in 0..sheet.structurals {
            draft.words(if sheet.integer[var] != 0 { "(var i" } else { "(var r" });
            draft.variable(sheet, var);
        }
        for r in 0..sheet.rows {
            draft.words("(slack");
            draft.variable(sheet, sheet.structurals + r);
        }
        for r in 0..sheet.rows {
            draft.row(sheet, r);
        }
        for (variable, up) in sheet.sides() {
            draft.words("(widened ");
            draft.count(variable);
            draft.words(if up { " up)\n" } else { " down)\n" });
        }
        let checked = sheet.checked != 0;
        draft.words(if checked { "(multipliers checked)\n" } else { "(multipliers unchecked)\n" });
        for r in 0..sheet.rows {
            draft.words("(rho ");
            draft.double(sheet.rho_hi[r]);
            draft.words(" ");
            draft.double(sheet.rho_lo[r]);
            if checked {
                draft.words(" ");
                draft.double(sheet.second[r]);
            }
            draft.words(")\n");
        }
        draft.words("(leave ");
        draft.count(sheet.leaving_row);
        draft.words(if sheet.leaving_up != 0 { " up)\n" } else { " down)\n" });
        draft
    }

    /// The text, with as many zeros before each number as `zeros` says for its room.
    fn written(&self, mut zeros: impl FnMut(usize) -> usize) -> Vec<u8> {
        let mut text = Vec::new();
        for piece in &self.0 {
            match piece {
                Piece::Words(words) => text.extend_from_slice(words.as_bytes()),
                Piece::Number(digits, room) => {
                    text.resize(text.len() + zeros(*room), b'0');
                    text.extend_from_slice(digits.as_bytes());
                }
            }
        }
        text
    }

    /// In one of the ways in which people write numbers, or in all of them.
    pub fn text(&self, rng: &mut Rng) -> Vec<u8> {
        match rng.below(4) {
            0 | 1 => self.written(|_| 0),
            2 => self.written(|room| room),
            _ => self.written(|room| if rng.percent(70) { 0 } else { rng.below(room + 1) }),
        }
    }

    pub fn shortest(&self) -> Vec<u8> {
        self.written(|_| 0)
    }

    /// The text of just this length; none if it cannot be.
    pub fn of_length(&self, rng: &mut Rng, length: usize) -> Option<Vec<u8>> {
        let room = |piece: &Piece| if let Piece::Number(_, room) = piece { *room } else { 0 };
        let mut left: usize = self.0.iter().map(room).sum();
        let mut missing = length.checked_sub(self.shortest().len())?;
        if missing > left {
            return None;
        }
        // by chance, but never fewer than the rest cannot take
        Some(self.written(|room| {
            left -= room;
            let least = missing.saturating_sub(left);
            let most = room.min(missing);
            let zeros = least + rng.below(most - least + 1);
            missing -= zeros;
            zeros
        }))
    }
}
