//! The reading of a pack as rows of eight numbers, the form in which a C caller gets it.

use crate::pack::{Item, Name, Payload, Reading};
use crate::{Reason, Refusal};

/// Numbers in a row.
pub const ROW: usize = 8;

/// Reads `pack` into `rows`: first the pack's own row, then one for each item and inner payload.
/// Returns how many numbers were written; those after them don't change.
pub fn rows(pack: &[u8], rows: &mut [u32]) -> Result<usize, Refusal> {
    let mut reading = Reading::blank(pack);
    reading.fill()?;
    let items = reading.items();
    let size = ROW * (1 + items.len());
    let used = rows.get_mut(..size).ok_or(Reason::NoRoom.at(0))?;
    let (used, _) = used.as_chunks_mut::<ROW>();
    let crc = u32::from(reading.has_crc());
    used[0] = [
        signed(reading.offset().into()),
        crc,
        items.len() as u32,
        0,
        0,
        0,
        0,
        0,
    ];
    for (row, item) in used[1..].iter_mut().zip(items) {
        *row = match item {
            Item::Payload(payload) => {
                payload_row(&reading, if payload.inner { 2 } else { 0 }, payload)
            }
            Item::Sync(sync) => [
                1,
                sync.start.into(),
                2,
                sync.inside.into(),
                sync.value_start.into(),
                sync.value_len.into(),
                signed(sync.sample_offset.into()),
                sync.duration.into(),
            ],
        };
    }
    Ok(size)
}

fn payload_row(reading: &Reading, form: u32, payload: &Payload) -> [u32; ROW] {
    let (kind, name) = match payload.name {
        Name::Number(tag) => (0, tag),
        Name::Label(mapping) => (1, reading.label_start(mapping) as u32),
    };
    let (start, value_start) = (payload.start.into(), payload.value_start.into());
    let (value_len, total) = (payload.value_len.into(), signed(payload.total));
    [form, start, kind, name, value_start, value_len, total, 0]
}

/// Two's complement in 32 bits.
fn signed(number: i32) -> u32 {
    number as u32
}
