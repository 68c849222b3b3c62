//! The questions put to a sheet.
use core::fmt;

/// The question that a sheet fails. They are asked in this order, and the first "no" is the answer. `Display` says the
/// question.
#[derive(Clone, Copy, Debug, PartialEq, Eq, PartialOrd, Ord, Hash)]
#[repr(u8)]
pub enum Refusal {
    /// Does the file follow the sheet form, in at most 65,536 bytes? Asked of a text only.
    Form = 1,
    /// Are there 1 to 128 rows, 0 to 256 structural variables, at most 4,096 entries?
    Sizes = 2,
    /// Does each slice have the length these need, outputs at least (second corrections and errors also when
    /// unchecked)? Asked of slices only.
    Lengths = 3,
    /// Do row starts begin at 0, never fall, end at the entry count?
    RowStarts = 4,
    /// Are each row's columns strictly ascending, structural but for the last, which must be there and is its own slack
    /// (structural count + row)?
    Columns = 5,
    /// Are entries and right sides finite, slack entries 1?
    Entries = 6,
    /// Is no bound NaN, min ≤ max, min not +infinity, max not −infinity?
    Bounds = 7,
    /// Are tolerances, feasibility and scales finite with the sign bit clear (so no −0), and each feasibility times
    /// scale finite?
    Tolerances = 8,
    /// Is each basis place 0 to rows − 1 held by just one variable, and no other place by any?
    Basis = 9,
    /// Are all values finite?
    Values = 10,
    /// Does each widened item name a variable, no (variable, side) twice?
    Widened = 11,
    /// Is the leaving row below the row count?
    LeavingRow = 12,
}

impl Refusal {
    /// All of them, in the order in which they are asked.
    pub const ALL: [Refusal; 12] = [
        Refusal::Form,
        Refusal::Sizes,
        Refusal::Lengths,
        Refusal::RowStarts,
        Refusal::Columns,
        Refusal::Entries,
        Refusal::Bounds,
        Refusal::Tolerances,
        Refusal::Basis,
        Refusal::Values,
        Refusal::Widened,
        Refusal::LeavingRow,
    ];

    /// The question's number, 1 to 12.
    pub const fn number(self) -> u32 {
        self as u32
    }

    /// The question of this number, if there is one.
    pub fn from_number(number: u32) -> Option<Refusal> {
        Refusal::ALL.into_iter().find(|refusal| refusal.number() == number)
    }

    /// The question.
    pub const fn question(self) -> &'static str {
        match self {
            Refusal::Form => "Does the file follow the sheet form, in at most 65,536 bytes?",
            Refusal::Sizes => "Are there 1 to 128 rows, 0 to 256 structural variables, at most 4,096 entries?",
            Refusal::Lengths => {
                "Does each slice have the length these need, outputs at least (second corrections and errors also \
                 when unchecked)?"
            }
            Refusal::RowStarts => "Do row starts begin at 0, never fall, end at the entry count?",
            Refusal::Columns => {
                "Are each row's columns strictly ascending, structural but for the last, which must be there and is \
                 its own slack (structural count + row)?"
            }
            Refusal::Entries => "Are entries and right sides finite, slack entries 1?",
            Refusal::Bounds => "Is no bound NaN, min ≤ max, min not +infinity, max not −infinity?",
            Refusal::Tolerances => {
                "Are tolerances, feasibility and scales finite with the sign bit clear (so no −0), and each \
                 feasibility times scale finite?"
            }
            Refusal::Basis => "Is each basis place 0 to rows − 1 held by just one variable, and no other place by any?",
            Refusal::Values => "Are all values finite?",
            Refusal::Widened => "Does each widened item name a variable, no (variable, side) twice?",
            Refusal::LeavingRow => "Is the leaving row below the row count?",
        }
    }
}

impl fmt::Display for Refusal {
    fn fmt(&self, f: &mut fmt::Formatter<'_>) -> fmt::Result {
        write!(f, "refused {}: {} No.", self.number(), self.question())
    }
}

impl core::error::Error for Refusal {}
