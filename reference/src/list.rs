//! The listing of a pack as text.

use std::fmt::{self, Write};

use crate::pack::{read, Item, Name, Payload, Reading};

/// The listing of `pack` as a string.
pub fn listing(pack: &[u8]) -> String {
    let mut text = String::new();
    list(pack, &mut text).expect("a string takes any text");
    text
}

/// Writes the listing of `pack`: a line for the pack and one for each item and inner payload,
/// or one line with the refusal.
pub fn list(pack: &[u8], out: &mut impl Write) -> fmt::Result {
    let reading = match read(pack) {
        Ok(reading) => reading,
        Err(refusal) => return writeln!(out, "refused {} {}", refusal.number, refusal.place),
    };
    let crc = if reading.has_crc() { "good" } else { "none" };
    let count = reading.items().len();
    writeln!(out, "pack {} {count} {crc}", reading.offset())?;
    for item in reading.items() {
        match item {
            Item::Payload(payload) => list_payload(&reading, payload, out)?,
            Item::Sync(s) => {
                let (start, offset) = (s.start, s.sample_offset);
                writeln!(out, "sync {start} {offset} {} {}", s.duration, s.inside)?;
            }
        }
    }
    Ok(())
}

fn list_payload(reading: &Reading, payload: &Payload, out: &mut impl Write) -> fmt::Result {
    match payload.name {
        Name::Number(tag) => write!(out, "number {} {tag}", payload.start)?,
        Name::Label(mapping) => {
            write!(out, "label {} ", payload.start)?;
            for byte in reading.label(mapping) {
                write!(out, "{byte:02X}")?;
            }
        }
    }
    writeln!(out, " {} {}", payload.value_len, payload.total)
}
