//! What a scrub must write, by a layout of its own, and what rows of `bw_read` say, as they stand and as a listing.

use crate::archive::hex;
use crate::packs::{tag_bytes, Item, Label, Length, Name, Pack, Part, Payload, Said, Value, KEY};

/// The pack that a scrub writes if it keeps exactly this.
pub fn scrubbed(kept: &Said) -> Vec<u8> {
    let mappings = tags_from_64(kept);
    let mut parts = Vec::new();
    if kept.offset != 0 || !mappings.is_empty() {
        let head = kept.offset.to_be_bytes().to_vec();
        let mappings = mappings.iter().map(|(tag, label)| (tag_bytes(*tag), label.to_vec())).collect();
        parts.push(shortest(1, Value::Config { head, mappings }));
    }
    for item in &kept.items {
        parts.push(match item {
            Item::Single(payload) => written(payload, &mappings),
            Item::Sync { offset, duration, inside } => {
                let head = [offset.to_be_bytes(), duration.to_be_bytes()].concat();
                let inside = inside.iter().map(|payload| written(payload, &mappings)).collect();
                shortest(2, Value::Sync { head, inside })
            }
        });
    }
    parts.push(shortest(3, Value::Crc(0)));
    Pack { key: KEY, length: Length::Form(0), parts, tail: vec![] }.bytes()
}

/// Labels in order of first appearance, each with the smallest tag from 64 up that is no kept number and not given yet.
fn tags_from_64(kept: &Said) -> Vec<(u32, Label)> {
    let numbers = kept.numbers();
    let free = (64..).filter(|tag| !numbers.contains(tag));
    free.zip(kept.labels()).collect()
}

fn shortest(tag: u32, value: Value) -> Part {
    Part::new(tag, Length::Form(0), value)
}

fn written(payload: &Payload, mappings: &[(u32, Label)]) -> Part {
    let tag = match payload.name {
        Name::Number(tag) => tag,
        Name::Label(label) => mappings.iter().find(|mapping| mapping.1 == label).expect("each label has a tag").0,
    };
    shortest(tag, Value::Plain(payload.value.clone()))
}

/// What the rows of a pack's reading say.
pub fn said_by(pack: &[u8], rows: &[u32]) -> Said {
    let mut said = Said { offset: rows[0] as u16, items: Vec::new() };
    for row in rows.chunks(8).skip(1) {
        let [form, _, kind, name, start, size, offset, duration] = *row else { panic!("a row has eight numbers") };
        if form == 1 {
            said.items.push(Item::Sync { offset: offset as u16, duration: duration as u16, inside: vec![] });
            continue;
        }
        let name = if kind == 1 { Name::Label(label_at(pack, name)) } else { Name::Number(name) };
        let payload = Payload { name, value: pack[start as usize..][..size as usize].to_vec() };
        match said.items.last_mut() {
            Some(Item::Sync { inside, .. }) if form == 2 => inside.push(payload),
            _ => said.items.push(Item::Single(payload)),
        }
    }
    said
}

/// The total offsets of the payloads in the rows of a reading.
pub fn totals_by(rows: &[u32]) -> Vec<i64> {
    rows.chunks(8).skip(1).filter(|row| row[0] != 1).map(|row| (row[6] as i32).into()).collect()
}

/// The lines of the listing that the rows of a pack's reading stand for.
pub fn lines_by(pack: &[u8], rows: &[u32]) -> Vec<String> {
    let crc = if rows[1] == 1 { "good" } else { "none" };
    let first = format!("pack {} {} {crc}", rows[0] as i32, rows[2]);
    std::iter::once(first).chain(rows.chunks(8).skip(1).map(|row| line_by(pack, row))).collect()
}

fn line_by(pack: &[u8], row: &[u32]) -> String {
    let (start, name, size, offset) = (row[1], row[3], row[5], row[6] as i32);
    match row[2] {
        0 => format!("number {start} {name} {size} {offset}"),
        1 => format!("label {start} {} {size} {offset}", hex(&label_at(pack, name))),
        _ => format!("sync {start} {offset} {} {name}", row[7]),
    }
}

fn label_at(pack: &[u8], at: u32) -> Label {
    pack[at as usize..][..16].try_into().expect("16 bytes")
}
