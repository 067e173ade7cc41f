//! Tags, BER lengths and big-endian numbers of the pack.

/// The greatest tag: four groups of seven bits (house cap).
pub const MAX_TAG: u32 = 0x0FFF_FFFF;

/// Why a tag or a length could not be read.
#[derive(Clone, Copy, Debug, PartialEq, Eq)]
pub enum Fault {
    /// A byte of it lies past the end of the part.
    Cut,
    /// A byte that is there is forbidden; bytes are judged left to right, so this wins over
    /// [`Fault::Cut`] whenever the bad byte comes first.
    Bad,
}

/// Reads the tag at `at`: its number and the place after it.
#[inline]
pub fn read_tag(part: &[u8], at: usize) -> Result<(u32, usize), Fault> {
    match part.get(at) {
        None => Err(Fault::Cut),
        Some(0x00 | 0x80) => Err(Fault::Bad),
        Some(&first @ 0x01..=0x7F) => Ok((u32::from(first), at + 1)),
        Some(&first) => read_long_tag(part, at + 1, u32::from(first & 0x7F)),
    }
}

/// The second to fourth byte of a tag whose first group is `tag`.
fn read_long_tag(part: &[u8], from: usize, mut tag: u32) -> Result<(u32, usize), Fault> {
    for at in from..from + 3 {
        let byte = *part.get(at).ok_or(Fault::Cut)?;
        tag = tag << 7 | u32::from(byte & 0x7F);
        if byte < 0x80 {
            return Ok((tag, at + 1));
        }
    }
    Err(Fault::Bad)
}

/// Reads the length at `at`, in any form: its number and the place after it.
#[inline]
pub fn read_length(part: &[u8], at: usize) -> Result<(u32, usize), Fault> {
    match part.get(at) {
        None => Err(Fault::Cut),
        Some(&short @ 0x00..=0x7F) => Ok((u32::from(short), at + 1)),
        Some(&form @ 0x81..=0x84) => {
            let end = at + 1 + usize::from(form & 0x7F);
            let bytes = part.get(at + 1..end).ok_or(Fault::Cut)?;
            let number = bytes.iter().fold(0, |n, &byte| n << 8 | u32::from(byte));
            Ok((number, end))
        }
        Some(_) => Err(Fault::Bad),
    }
}

/// How many bytes `tag` takes, 1 to 4.
#[inline]
pub const fn tag_size(tag: u32) -> usize {
    // Rounds the significant bits up to groups of seven; tag 0 doesn't occur.
    ((38 - tag.leading_zeros()) / 7) as usize
}

/// How many bytes the shortest form of `length` takes.
#[inline]
pub const fn length_size(length: u32) -> usize {
    if length < 0x80 {
        1
    } else {
        1 + long_bytes(length)
    }
}

/// How many length bytes follow the first in the long form: those the significant bits need.
#[inline]
const fn long_bytes(length: u32) -> usize {
    ((39 - length.leading_zeros()) / 8) as usize
}

/// Writes `tag` at the front of `out` and returns its size.
#[inline]
pub fn write_tag(out: &mut [u8], tag: u32) -> usize {
    if tag < 0x80 {
        out[0] = tag as u8;
        return 1;
    }
    let size = tag_size(tag);
    for (place, byte) in out[..size].iter_mut().rev().enumerate() {
        let more = if place == 0 { 0x00 } else { 0x80 };
        *byte = (tag >> (7 * place)) as u8 & 0x7F | more;
    }
    size
}

/// Writes the shortest form of `length` at the front of `out` and returns its size.
#[inline]
pub fn write_length(out: &mut [u8], length: u32) -> usize {
    if length < 0x80 {
        out[0] = length as u8;
        return 1;
    }
    let bytes = long_bytes(length);
    out[0] = 0x80 | bytes as u8;
    out[1..=bytes].copy_from_slice(&length.to_be_bytes()[4 - bytes..]);
    1 + bytes
}

/// The unsigned 16-bit number at `at`.
#[inline]
pub fn be16(bytes: &[u8], at: usize) -> u16 {
    u16::from_be_bytes([bytes[at], bytes[at + 1]])
}
