//! Bit fields in bytes, most significant bit first.

/// The field of `width` bits, at most 25, at bit `at`, out of the four bytes from there on; all of
/// it lies within `bytes`.
#[inline(always)]
pub fn fetch(bytes: &[u8], at: usize, width: u32) -> u32 {
    let rest = &bytes[at / 8..];
    let window = match rest.first_chunk() {
        Some(&four) => u32::from_be_bytes(four),
        None => (0..4).fold(0, |window, index| {
            window << 8 | u32::from(*rest.get(index).unwrap_or(&0))
        }),
    };
    (u64::from(window << (at % 8)) >> (32 - width)) as u32
}

/// Writes fields onto bytes from the front.
pub struct Pen<'a> {
    out: &'a mut [u8],
    at: usize,
    /// Its last `held` bits, fewer than eight between fields, are not written yet.
    bits: u64,
    held: u32,
}

impl<'a> Pen<'a> {
    pub fn new(out: &'a mut [u8]) -> Self {
        Self {
            out,
            at: 0,
            bits: 0,
            held: 0,
        }
    }

    /// Writes `number` as a field of `width` bits, which it fits.
    #[inline(always)]
    pub fn put(&mut self, number: u32, width: u32) {
        self.bits = self.bits << width | u64::from(number);
        self.held += width;
        while self.held >= 8 {
            self.held -= 8;
            self.out[self.at] = (self.bits >> self.held) as u8;
            self.at += 1;
        }
    }

    /// Fills the last byte with zeros.
    pub fn finish(mut self) {
        if self.held > 0 {
            self.put(0, 8 - self.held);
        }
    }
}
