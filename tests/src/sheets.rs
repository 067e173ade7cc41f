//! Keep sheets, good and bad.

use crate::packs::{any_label, any_tag, listed_label, Label, Said, TAG_MAX};
use crate::random::Random;

/// The sheet that keeps all: 65,535 in both counts, 8 in both offsets.
pub const KEEP_ALL: [u8; 8] = [0xFF, 0xFF, 0, 8, 0xFF, 0xFF, 0, 8];

/// What a sheet names; no names at all still is a sheet, which keeps nothing.
#[derive(Clone, Debug, Default)]
pub struct Sheet {
    pub labels: Vec<Label>,
    pub numbers: Vec<u32>,
}

impl Sheet {
    pub fn bytes(&self) -> Vec<u8> {
        let counts = [self.labels.len(), 8, self.numbers.len(), 8 + 16 * self.labels.len()];
        let counts = counts.iter().flat_map(|count| (*count as u16).to_be_bytes());
        let numbers = self.numbers.iter().flat_map(|number| number.to_be_bytes());
        counts.chain(self.labels.concat()).chain(numbers).collect()
    }

    fn add_label(&mut self, label: Label) {
        if self.labels.len() < 32 && !self.labels.contains(&label) {
            self.labels.push(label);
        }
    }

    fn add_number(&mut self, number: u32) {
        if self.numbers.len() < 32 && !self.numbers.contains(&number) {
            self.numbers.push(number);
        }
    }
}

/// A good sheet that names some of what the pack holds, and some that it does not.
pub fn any_sheet(random: &mut Random, said: &Said) -> Sheet {
    let mut sheet = Sheet::default();
    let share = random.pick(&[0, 20, 50, 80, 100]);
    for label in said.labels() {
        if random.percent(share) {
            sheet.add_label(label);
        }
    }
    for number in said.numbers() {
        if random.percent(share) {
            sheet.add_number(number);
        }
    }
    let more = if random.percent(5) { 32 } else { random.below(3) };
    for _ in 0..more {
        sheet.add_label(any_label(random));
        sheet.add_number(any_tag(random));
    }
    random.shuffle(&mut sheet.labels);
    random.shuffle(&mut sheet.numbers);
    sheet
}

/// The bytes of a good sheet, the one that keeps all and the one of 0 bytes, which keeps none, included.
pub fn any_sheet_bytes(random: &mut Random, said: &Said) -> Vec<u8> {
    match random.below(20) {
        0..=2 => KEEP_ALL.to_vec(),
        3 => vec![],
        _ => any_sheet(random, said).bytes(),
    }
}

/// A sheet with a fault, or hurt at random; a few of these are good after all.
pub fn bad_sheet(random: &mut Random, said: &Said) -> Vec<u8> {
    let mut sheet = any_sheet(random, said);
    match random.below(8) {
        0 => sheet.labels.push(listed_label(random.between(1, 3) as u8)),
        1 => sheet.numbers.push(random.below(4) as u32),
        2 => sheet.numbers.push(random.pick(&[TAG_MAX + 1, u32::MAX, 1 << 31])),
        3 => sheet.labels.resize(33, any_label(random)),
        4 => (0..33).for_each(|number| sheet.numbers.push(1000 + number)),
        5 if !sheet.labels.is_empty() => sheet.labels.push(random.pick(&sheet.labels)),
        6 if !sheet.numbers.is_empty() => sheet.numbers.push(random.pick(&sheet.numbers)),
        _ => {}
    }
    let mut bytes = if random.percent(10) { KEEP_ALL.to_vec() } else { sheet.bytes() };
    if random.percent(50) {
        hurt(random, &mut bytes);
    }
    bytes
}

fn hurt(random: &mut Random, bytes: &mut Vec<u8>) {
    match random.below(7) {
        0 => bytes.truncate(random.below(bytes.len())),
        1 => bytes.push(0),
        2 => bytes.extend([0, 0, 0, 200]),
        3 => bytes[random.below(8)] ^= 1 << random.below(8),
        4 => bytes[5] = bytes[5].wrapping_add(1),
        5 => bytes[random.pick(&[0, 4])..][..2].copy_from_slice(&[0xFF, 0xFF]),
        _ => {
            let at = random.below(bytes.len());
            bytes[at] = random.byte();
        }
    }
}
