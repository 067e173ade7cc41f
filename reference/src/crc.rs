//! CRC-32 of ETSI EN 300 468 Annex B: polynomial 04C11DB7, start all ones, most significant bit
//! first, no reflection, no final inversion.

const POLYNOMIAL: u32 = 0x04C1_1DB7;

/// Bytes taken in one step of the main loop.
const STRIDE: usize = 16;

/// `TABLES[k][b]` is the remainder of byte `b` followed by `k` zero bytes.
static TABLES: [[u32; 256]; STRIDE] = tables();

const fn tables() -> [[u32; 256]; STRIDE] {
    let mut tables = [[0; 256]; STRIDE];
    let mut byte = 0;
    while byte < 256 {
        let mut crc = (byte as u32) << 24;
        let mut bit = 0;
        while bit < 8 {
            let carry = if crc >> 31 == 1 { POLYNOMIAL } else { 0 };
            crc = crc << 1 ^ carry;
            bit += 1;
        }
        tables[0][byte] = crc;
        byte += 1;
    }
    let mut k = 1;
    while k < STRIDE {
        let mut byte = 0;
        while byte < 256 {
            let shorter = tables[k - 1][byte];
            tables[k][byte] = shorter << 8 ^ tables[0][(shorter >> 24) as usize];
            byte += 1;
        }
        k += 1;
    }
    tables
}

/// The CRC of `bytes`.
pub fn crc(bytes: &[u8]) -> u32 {
    let (chunks, tail) = bytes.as_chunks::<STRIDE>();
    last_step(chunks.iter().fold(u32::MAX, step), tail)
}

/// Slicing: the remainders of 16 bytes, each shifted to its place, are independent lookups. Only
/// the first four wait for the step before, so they are added last.
#[inline(always)]
fn step(crc: u32, chunk: &[u8; STRIDE]) -> u32 {
    let [a, b, c, d, fresh @ ..] = chunk;
    let mut next = 0;
    for (place, &byte) in fresh.iter().rev().enumerate() {
        next ^= TABLES[place][usize::from(byte)];
    }
    let [a, b, c, d] = (u32::from_be_bytes([*a, *b, *c, *d]) ^ crc).to_be_bytes();
    let first = TABLES[15][usize::from(a)] ^ TABLES[14][usize::from(b)];
    let second = TABLES[13][usize::from(c)] ^ TABLES[12][usize::from(d)];
    next ^ (first ^ second)
}

/// The same for fewer than 16 bytes: what they don't use up of the state is left as it is.
#[inline(always)]
fn last_step(mut crc: u32, tail: &[u8]) -> u32 {
    let mut next = 0;
    for (table, &byte) in TABLES[..tail.len()].iter().rev().zip(tail) {
        next ^= table[(crc >> 24) as usize ^ usize::from(byte)];
        crc <<= 8;
    }
    next ^ crc
}
