//! The keep sheet: the names whose payloads a scrub keeps.

use crate::labels::{is_utility, Filter, Label, MAX_LABELS};
use crate::numbers::{be16, MAX_TAG};
use crate::{Reason, Refusal};

/// Counts and offsets before the first label.
const HEADER: usize = 8;

/// Tag numbers on a sheet (house cap).
const MAX_NUMBERS: usize = 32;

/// The one sheet that keeps all: a header with 65,535 in both counts and 8 in both offsets.
const KEEP_ALL: [u8; HEADER] = [0xFF, 0xFF, 0, 8, 0xFF, 0xFF, 0, 8];

/// A well-formed keep sheet.
#[derive(Clone, Copy, Debug)]
pub enum Sheet<'a> {
    /// The one that has 65,535 in both counts.
    All,
    /// Any other: only what it names, which is nothing for the sheet of 0 bytes.
    Only(Names<'a>),
}

/// The entries of a sheet.
#[derive(Clone, Copy, Debug)]
pub struct Names<'a> {
    labels: &'a [Label],
    numbers: &'a [[u8; 4]],
    filter: Filter,
    /// Bit n stands for number n: most tags have one byte.
    one_byte: u128,
}

/// Judges a sheet alone. Returns how many labels and numbers stand on it.
pub fn sheet_check(sheet: &[u8]) -> Result<usize, Refusal> {
    match Sheet::read(sheet)? {
        Sheet::All => Ok(0),
        Sheet::Only(names) => Ok(names.labels.len() + names.numbers.len()),
    }
}

impl<'a> Sheet<'a> {
    /// Reads a sheet; whatever is wrong with it is SHEET at 0.
    pub fn read(sheet: &'a [u8]) -> Result<Self, Refusal> {
        if *sheet == KEEP_ALL {
            return Ok(Self::All);
        }
        if sheet.is_empty() {
            return Ok(Self::Only(Names::NONE));
        }
        let names = Names::read(sheet).ok_or(Reason::Sheet.at(0))?;
        Ok(Self::Only(names))
    }

    /// Whether payloads with this label are kept.
    #[inline]
    pub fn keeps_label(&self, label: &Label) -> bool {
        match self {
            Self::All => true,
            Self::Only(names) => names.has_label(label),
        }
    }

    /// Whether payloads known by this number are kept.
    #[inline]
    pub fn keeps_number(&self, number: u32) -> bool {
        match self {
            Self::All => true,
            Self::Only(names) => names.has_number(number),
        }
    }
}

impl<'a> Names<'a> {
    const NONE: Self = Self {
        labels: &[],
        numbers: &[],
        filter: Filter::EMPTY,
        one_byte: 0,
    };

    /// The entries, if header, size and every entry are as they must be.
    fn read(sheet: &'a [u8]) -> Option<Self> {
        if sheet.len() < HEADER {
            return None;
        }
        let label_count = usize::from(be16(sheet, 0));
        let number_count = usize::from(be16(sheet, 4));
        if label_count > MAX_LABELS || number_count > MAX_NUMBERS {
            return None;
        }
        let numbers_start = HEADER + 16 * label_count;
        if usize::from(be16(sheet, 2)) != HEADER
            || usize::from(be16(sheet, 6)) != numbers_start
            || sheet.len() != numbers_start + 4 * number_count
        {
            return None;
        }
        let mut names = Self::NONE;
        names.take_labels(sheet[HEADER..numbers_start].as_chunks().0)?;
        names.take_numbers(sheet[numbers_start..].as_chunks().0)?;
        Some(names)
    }

    /// No repeats, and none of the three utility labels.
    fn take_labels(&mut self, labels: &'a [Label]) -> Option<()> {
        for (index, label) in labels.iter().enumerate() {
            if is_utility(label) || self.has_label(label) {
                return None;
            }
            self.filter.insert(label);
            self.labels = &labels[..=index];
        }
        Some(())
    }

    /// No repeats, and none of the fixed tags or beyond the greatest tag.
    fn take_numbers(&mut self, numbers: &'a [[u8; 4]]) -> Option<()> {
        for (index, &bytes) in numbers.iter().enumerate() {
            let number = u32::from_be_bytes(bytes);
            if !(4..=MAX_TAG).contains(&number) || self.has_number(number) {
                return None;
            }
            if number < 128 {
                self.one_byte |= 1 << number;
            }
            self.numbers = &numbers[..=index];
        }
        Some(())
    }

    /// The labels in the order they stand.
    pub fn labels(&self) -> &'a [Label] {
        self.labels
    }

    /// The tag numbers in the order they stand.
    pub fn numbers(&self) -> impl Iterator<Item = u32> + 'a {
        self.numbers.iter().map(|&bytes| u32::from_be_bytes(bytes))
    }

    #[inline]
    fn has_label(&self, label: &Label) -> bool {
        self.filter.may_hold(label) && self.labels.contains(label)
    }

    #[inline]
    fn has_number(&self, number: u32) -> bool {
        if number < 128 {
            self.one_byte >> number & 1 == 1
        } else {
            self.numbers.contains(&number.to_be_bytes())
        }
    }
}
