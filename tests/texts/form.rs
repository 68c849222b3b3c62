//! Question 1: whether a text has the form of a sheet, and what it says. Written from document 01, "The sheet", byte by
//! byte from the front.
use crate::sheet::{Sheet, Widened};

pub const MOST_BYTES: usize = 65_536;

/// Where a text has been read to. Every step answers none where the text has not what the form asks for.
struct Reader<'a> {
    text: &'a [u8],
    at: usize,
}

impl Reader<'_> {
    /// Goes on past these bytes if they stand here.
    fn stands(&mut self, bytes: &str) -> bool {
        let here = self.text[self.at..].starts_with(bytes.as_bytes());
        self.at += if here { bytes.len() } else { 0 };
        here
    }

    fn word(&mut self, bytes: &str) -> Option<()> {
        self.stands(bytes).then_some(())
    }

    /// All digits that stand here, at least one and at most so many.
    fn digits(&mut self, base: u32, most: usize) -> Option<u64> {
        let rest = &self.text[self.at..];
        let is_digit = |byte: &u8| byte.is_ascii_digit() || base == 16 && (b'A'..=b'F').contains(byte);
        let length = rest.iter().take_while(|byte| is_digit(byte)).count();
        if length == 0 || length > most {
            return None;
        }
        self.at += length;
        u64::from_str_radix(std::str::from_utf8(&rest[..length]).ok()?, base).ok()
    }

    /// "Doubles are 1 to 16 hexadecimal digits 0-9A-F of their bits"
    fn double(&mut self) -> Option<f64> {
        Some(f64::from_bits(self.digits(16, 16)?))
    }

    /// "counts are decimal, 1 to 5 digits"
    fn count(&mut self) -> Option<usize> {
        Some(self.digits(10, 5)? as usize)
    }

    /// One of two words.
    fn either(&mut self, set: &str, clear: &str) -> Option<u8> {
        if self.stands(set) {
            return Some(1);
        }
        self.word(clear)?;
        Some(0)
    }

    /// "min, max, tolerances low and high, state (`nonbasic` with value, or `basic` with place and value)", to the line's
    /// end
    fn variable(&mut self, sheet: &mut Sheet) -> Option<()> {
        let lists = [&mut sheet.mins, &mut sheet.maxs, &mut sheet.low_tolerances, &mut sheet.high_tolerances];
        for list in lists {
            list.push(self.double()?);
            self.word(" ")?;
        }
        let basic = self.either("(basic ", "(nonbasic ")?;
        let mut place = 0;
        if basic == 1 {
            place = self.count()?;
            self.word(" ")?;
        }
        sheet.basic.push(basic);
        sheet.places.push(place);
        sheet.values.push(self.double()?);
        self.word("))\n")
    }

    /// "right side, scale, none or more pairs of column and entry"
    fn row(&mut self, sheet: &mut Sheet) -> Option<()> {
        self.word("(row ")?;
        sheet.right_sides.push(self.double()?);
        self.word(" ")?;
        sheet.scales.push(self.double()?);
        while self.stands(" (") {
            sheet.columns.push(self.count()?);
            self.word(" ")?;
            sheet.entries.push(self.double()?);
            self.word(")")?;
        }
        sheet.starts.push(sheet.columns.len());
        self.word(")\n")
    }

    /// "rho: hi, lo"; "When `(multipliers checked)`, each rho gains its second correction."
    fn rho(&mut self, sheet: &mut Sheet) -> Option<()> {
        self.word("(rho ")?;
        sheet.rho_hi.push(self.double()?);
        self.word(" ")?;
        sheet.rho_lo.push(self.double()?);
        let mut second = 0.0;
        if sheet.checked == 1 {
            self.word(" ")?;
            second = self.double()?;
        }
        sheet.second.push(second);
        self.word(")\n")
    }

    fn sheet(&mut self) -> Option<Sheet> {
        let mut sheet = Sheet { starts: vec![0], ..Sheet::default() };
        self.word("(sheet ")?;
        sheet.rows = self.count()?;
        self.word(" ")?;
        sheet.structurals = self.count()?;
        self.word(")\n(feasibility ")?;
        sheet.feasibility = self.double()?;
        self.word(")\n")?;
        for _ in 0..sheet.structurals {
            self.word("(var ")?;
            sheet.integer.push(self.either("i", "r")?);
            self.word(" ")?;
            self.variable(&mut sheet)?;
        }
        for _ in 0..sheet.rows {
            self.word("(slack ")?;
            self.variable(&mut sheet)?;
        }
        for _ in 0..sheet.rows {
            self.row(&mut sheet)?;
        }
        while self.stands("(widened ") {
            let variable = self.count()?;
            self.word(" ")?;
            sheet.widened.push(Widened::of(variable, self.either("up", "down")?));
            self.word(")\n")?;
        }
        self.word("(multipliers ")?;
        sheet.checked = self.either("checked", "unchecked")?;
        self.word(")\n")?;
        for _ in 0..sheet.rows {
            self.rho(&mut sheet)?;
        }
        self.word("(leave ")?;
        sheet.leaving_row = self.count()?;
        self.word(" ")?;
        sheet.leaving_up = self.either("up", "down")?;
        self.word(")\n")?;
        Some(sheet)
    }
}

/// The sheet that a text says, none where question 1 refuses the text.
pub fn read(text: &[u8]) -> Option<Sheet> {
    if text.len() > MOST_BYTES {
        return None;
    }
    let mut reader = Reader { text, at: 0 };
    let mut sheet = reader.sheet()?;
    if reader.at != text.len() {
        return None;
    }
    sheet.entry_count = sheet.entries.len();
    // as long as is needed: the third question is put to slices alone
    sheet.outputs = [sheet.rows + sheet.structurals; 5];
    Some(sheet)
}
