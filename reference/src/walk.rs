//! The walk over a pack in byte order. It judges everything, once for the check and once for the
//! reading, which differ only in what they do with what is found.

use crate::crc::crc;
use crate::labels::Label;
use crate::numbers::{be16, read_length, read_tag, Fault};
use crate::pack::{CONFIG, CRC, KEY, MAX_ITEMS, MAX_PACK, SYNC};
use crate::{Reason, Refusal};

/// Takes what the walk finds. Slots number items and inner payloads in byte order.
pub trait Sink {
    /// A Config, whose value ends with `part`; its content is judged here.
    fn config(&mut self, part: &[u8], at: usize, frame: Frame) -> Result<(), Refusal>;

    /// An audio payload, and the sample_offset of the Sync that it is inside, if it is in one.
    #[inline(always)]
    fn payload(&mut self, _slot: usize, _at: usize, _frame: Frame, _sync: Option<i16>) {}

    /// A Sync, after the payloads inside it.
    #[inline(always)]
    fn sync(&mut self, _slot: usize, _at: usize, _frame: Frame, _inside: usize) {}

    /// A right CRC.
    #[inline(always)]
    fn crc(&mut self) {}
}

/// The tag of a payload, where its value begins and where it ends.
#[derive(Clone, Copy)]
pub struct Frame {
    pub tag: u32,
    pub value: usize,
    pub end: usize,
}

/// Reads tag and length at `at` and finds the value's end, in this order.
#[inline(always)]
fn frame(part: &[u8], at: usize) -> Result<Frame, Refusal> {
    let (tag, value, length) = match part.get(at..at + 4) {
        // The commonest payloads: a tag of one byte, a length of at most two bytes after its first.
        Some(&[tag @ 0x01..=0x7F, length @ 0x00..=0x7F, _, _]) => {
            (tag.into(), at + 2, length.into())
        }
        Some(&[tag @ 0x01..=0x7F, 0x81, length, _]) => (tag.into(), at + 3, length.into()),
        Some(&[tag @ 0x01..=0x7F, 0x82, high, low]) => {
            (tag.into(), at + 4, u16::from_be_bytes([high, low]).into())
        }
        _ => long_header(part, at)?,
    };
    if length > part.len() - value {
        return Err(Reason::Cut.at(at));
    }
    let end = value + length;
    Ok(Frame { tag, value, end })
}

/// Tag, place of the value, and length of any payload.
#[cold]
fn long_header(part: &[u8], at: usize) -> Result<(u32, usize, usize), Refusal> {
    let (tag, after) = read_tag(part, at).map_err(|fault| match fault {
        Fault::Cut => Reason::Cut.at(at),
        Fault::Bad => Reason::Tag.at(at),
    })?;
    let (length, value) = read_length(part, after).map_err(|fault| match fault {
        Fault::Cut => Reason::Cut.at(at),
        Fault::Bad => Reason::Length.at(at),
    })?;
    Ok((tag, value, length as usize))
}

/// Key and length of the pack; the place of its first payload.
#[inline]
fn opening(pack: &[u8]) -> Result<usize, Refusal> {
    if pack.len() > MAX_PACK {
        return Err(Reason::Big.at(0));
    }
    let key: &Label = pack.first_chunk().ok_or(Reason::Short.at(0))?;
    if *key != KEY {
        return Err(Reason::Key.at(0));
    }
    let (length, first) = read_length(pack, KEY.len()).map_err(|fault| match fault {
        Fault::Cut => Reason::Short.at(0),
        Fault::Bad => Reason::Length.at(KEY.len()),
    })?;
    let present = pack.len() - first;
    if length as usize > present {
        return Err(Reason::Short.at(0));
    }
    if (length as usize) < present {
        return Err(Reason::Trail.at(0));
    }
    Ok(first)
}

/// Judges the whole pack in byte order, hands what it finds to `sink`, and counts items and
/// inner payloads.
#[inline(always)]
pub fn walk<S: Sink>(pack: &[u8], sink: &mut S) -> Result<usize, Refusal> {
    let first = opening(pack)?;
    let mut count = 0;
    let mut at = first;
    while at < pack.len() {
        let found = frame(pack, at)?;
        if found.tag > CRC {
            let slot = take_slot(&mut count, at)?;
            sink.payload(slot, at, found, None);
        } else {
            count = walk_utility(pack, first, at, found, count, sink)?;
        }
        at = found.end;
    }
    Ok(count)
}

/// Judges a payload with one of the fixed tags; the new count.
// Not inlined: that keeps the loop over plain audio payloads small.
#[inline(never)]
fn walk_utility<S: Sink>(
    pack: &[u8],
    first: usize,
    at: usize,
    found: Frame,
    count: usize,
    sink: &mut S,
) -> Result<usize, Refusal> {
    match found.tag {
        CONFIG if at != first => Err(Reason::Place.at(at)),
        CONFIG => sink.config(&pack[..found.end], at, found).and(Ok(count)),
        SYNC => walk_sync(&pack[..found.end], at, found, count, sink),
        _ => {
            judge_crc(pack, at, found)?;
            sink.crc();
            Ok(count)
        }
    }
}

/// Judges a Sync, whose value ends with `part`, and the payloads inside; the new count.
#[inline(always)]
fn walk_sync<S: Sink>(
    part: &[u8],
    start: usize,
    sync: Frame,
    mut count: usize,
    sink: &mut S,
) -> Result<usize, Refusal> {
    let slot = take_slot(&mut count, start)?;
    // Four bytes are the two numbers; at least one payload must follow them.
    if sync.end - sync.value <= 4 {
        return Err(Reason::Sync.at(start));
    }
    let offset = be16(part, sync.value) as i16;
    let mut at = sync.value + 4;
    while at < part.len() {
        let found = frame(part, at)?;
        if found.tag <= CRC {
            return Err(Reason::Place.at(at));
        }
        let slot = take_slot(&mut count, at)?;
        sink.payload(slot, at, found, Some(offset));
        at = found.end;
    }
    sink.sync(slot, start, sync, count - slot - 1);
    Ok(count)
}

/// Counts one more item or inner payload.
#[inline(always)]
fn take_slot(count: &mut usize, at: usize) -> Result<usize, Refusal> {
    let slot = *count;
    if slot == MAX_ITEMS {
        return Err(Reason::Count.at(at));
    }
    *count += 1;
    Ok(slot)
}

/// A CRC must end the pack, have four bytes, and be that of all bytes before them.
fn judge_crc(pack: &[u8], at: usize, found: Frame) -> Result<(), Refusal> {
    if found.end != pack.len() {
        return Err(Reason::Place.at(at));
    }
    let (before, value) = pack.split_at(found.value);
    if value != crc(before).to_be_bytes() {
        return Err(Reason::Crc.at(at));
    }
    Ok(())
}
