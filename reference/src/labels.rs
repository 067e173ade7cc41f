//! Universal labels, the three of the fixed tags, and a quick way to tell one from many.

/// A 16-byte universal label.
pub type Label = [u8; 16];

/// Mappings in a Config, and labels on a keep sheet (both house caps).
pub const MAX_LABELS: usize = 32;

/// The labels of Config, Sync and CRC, which no mapping and no keep sheet may name.
pub const UTILITY_LABELS: [Label; 3] = [utility(1), utility(2), utility(3)];

const fn utility(nn: u8) -> Label {
    [
        0x06, 0x0E, 0x2B, 0x34, 0x04, 0x01, 0x01, 0x0D, 0x04, 0x04, 0x02, nn, 0, 0, 0, 0,
    ]
}

/// Whether `label` is one of the three.
#[inline]
pub fn is_utility(label: &Label) -> bool {
    UTILITY_LABELS.contains(label)
}

/// The label at `at`, if all of it is inside the part.
#[inline]
pub fn label_at(part: &[u8], at: usize) -> Option<&Label> {
    part.get(at..)?.first_chunk()
}

/// A filter of 1,024 bits, one for each label put in: most labels that are not in a list are
/// told apart from all of it by one bit.
#[derive(Clone, Copy, Debug)]
pub struct Filter([u64; 16]);

impl Filter {
    pub const EMPTY: Self = Self([0; 16]);

    #[inline]
    pub fn insert(&mut self, label: &Label) {
        let (word, bit) = place(label);
        self.0[word] |= bit;
    }

    /// False only if `label` was not put in.
    #[inline]
    pub fn may_hold(&self, label: &Label) -> bool {
        let (word, bit) = place(label);
        self.0[word] & bit != 0
    }
}

/// The bit of a label: its halves put together and mixed into ten bits by a multiplication.
#[inline]
fn place(label: &Label) -> (usize, u64) {
    let number = u128::from_ne_bytes(*label);
    let halves = number as u64 ^ (number >> 64) as u64;
    let top = halves.wrapping_mul(0x9E37_79B9_7F4A_7C15) >> 54;
    ((top >> 6) as usize, 1 << (top & 63))
}
