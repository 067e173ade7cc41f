//! Faults: of the pack's parts before it is laid out, and of its bytes afterwards. Several may meet in one pack, so
//! that their order is tried too.

use crate::packs::{listed_label, tag_bytes, Length, Pack, Part, Value, ITEMS_MAX, KEY, MAPPINGS_MAX, PACK_MAX};
use crate::random::Random;

/// Bytes that mean something somewhere in a pack.
const TELLING: [u8; 14] = [0x00, 0x01, 0x02, 0x03, 0x04, 0x7F, 0x80, 0x81, 0x82, 0x83, 0x84, 0x85, 0x8F, 0xFF];

/// One to three faults, then the bytes, then perhaps damage to those.
pub fn damaged(random: &mut Random, pack: &mut Pack) -> Vec<u8> {
    let faults = random.pick(&[0, 1, 1, 1, 2, 2, 3]);
    for _ in 0..faults {
        put_fault(random, pack);
    }
    let mut bytes = pack.bytes();
    for _ in 0..if faults == 0 { random.between(1, 2) } else { random.below(5) / 4 } {
        hurt_bytes(random, &mut bytes);
    }
    bytes
}

fn put_fault(random: &mut Random, pack: &mut Pack) {
    match random.below(12) {
        0 => pack.key[random.below(KEY.len())] ^= 1 << random.below(8),
        1 => pack.length = bad_length(random),
        2 => {
            pack.tail = {
                let count = random.between(1, 4);
                random.bytes(count)
            }
        }
        3 => with_part(random, pack, |random, part| part.tag = bad_tag(random)),
        4 => with_part(random, pack, |random, part| part.length = bad_length(random)),
        5 => misplace(random, pack),
        6 => crowd(random, pack),
        7 | 8 => spoil_config(random, pack),
        9 => spoil_sync(random, pack),
        10 => spoil_crc(random, pack),
        _ => end_early(random, pack),
    }
}

/// Works on a part of the pack, or on one inside a Sync.
fn with_part(random: &mut Random, pack: &mut Pack, work: impl Fn(&mut Random, &mut Part)) {
    if pack.parts.is_empty() {
        return;
    }
    let at = random.below(pack.parts.len());
    let part = &mut pack.parts[at];
    match &mut part.value {
        Value::Sync { inside, .. } if !inside.is_empty() && random.percent(70) => {
            let at = random.below(inside.len());
            work(random, &mut inside[at]);
        }
        _ => work(random, part),
    }
}

fn bad_tag(random: &mut Random) -> Vec<u8> {
    match random.below(6) {
        0 => vec![0x00],
        1 => vec![0x80],
        2 => vec![0x80, random.byte()],
        3 => vec![0x81, 0x80 | random.byte(), 0x80, 0x80],
        4 => vec![0xFF, 0xFF, 0xFF, 0xFF, 0x7F],
        _ => vec![random.between(1, 3) as u8],
    }
}

fn bad_length(random: &mut Random) -> Length {
    match random.below(8) {
        0 => Length::Bytes(vec![0x80]),
        1 => Length::Bytes(vec![random.between(0x85, 0xFF) as u8]),
        2 => Length::Bytes(vec![0x84, 0xFF, 0xFF, 0xFF, 0xFF]),
        3 => Length::Bytes(vec![0x84, random.byte(), 0, 0, random.byte()]),
        4 => Length::Bytes(vec![0x82, 0x7F]),
        5 => Length::Lie(-(random.between(1, 3) as i64)),
        _ => Length::Lie(random.between(1, 300) as i64),
    }
}

/// The parts of the pack, or those inside its first Sync.
fn some_list<'a>(random: &mut Random, pack: &'a mut Pack) -> &'a mut Vec<Part> {
    let sync = pack.parts.iter().position(|part| matches!(part.value, Value::Sync { .. }));
    let Some(at) = sync.filter(|_| random.percent(50)) else { return &mut pack.parts };
    match &mut pack.parts[at].value {
        Value::Sync { inside, .. } => inside,
        _ => unreachable!("it was just found to be a Sync"),
    }
}

/// Puts a utility payload, or any, where one may not be; many of them are right otherwise.
fn misplace(random: &mut Random, pack: &mut Pack) {
    let stray = match random.below(4) {
        0 => Part::new(1, Length::Form(0), Value::Config { head: vec![0, 0], mappings: vec![] }),
        1 => Part::new(2, Length::Form(0), Value::Plain(vec![0, 0, 0, 0, 5, 0])),
        2 => Part::new(3, Length::Form(0), Value::Crc(0)),
        _ => Part::new(3, Length::Form(0), Value::Plain(vec![])),
    };
    let parts = some_list(random, pack);
    parts.insert(random.below(parts.len() + 1), stray);
}

/// Adds payloads until there are about as many as may be, or more.
fn crowd(random: &mut Random, pack: &mut Pack) {
    let more = random.between(ITEMS_MAX - 6, ITEMS_MAX + 2);
    let parts = some_list(random, pack);
    let at = random.below(parts.len() + 1);
    for _ in 0..more {
        parts.insert(at, Part::new(random.between(4, 90) as u32, Length::Form(0), Value::Plain(vec![])));
    }
}

fn spoil_config(random: &mut Random, pack: &mut Pack) {
    if !matches!(pack.parts.first(), Some(Part { value: Value::Config { .. }, .. })) {
        let config = Value::Config { head: vec![0, 7], mappings: vec![] };
        pack.parts.insert(0, Part::new(1, Length::Form(0), config));
    }
    let Value::Config { head, mappings } = &mut pack.parts[0].value else { return };
    let label = random.bytes(16);
    let tag = random.between(100, 127) as u32;
    match random.below(11) {
        0 => head.truncate(random.below(2)),
        1 => mappings.push((tag_bytes(random.between(1, 3) as u32), label)),
        2 => mappings.push((tag_bytes(tag), listed_label(random.between(1, 3) as u8).to_vec())),
        3 if !mappings.is_empty() => mappings.push((random_of(random, mappings).0, label)),
        4 if !mappings.is_empty() => mappings.push((tag_bytes(tag), random_of(random, mappings).1)),
        5 => mappings.push((bad_tag(random), label)),
        6 => mappings.push((tag_bytes(tag), label[..random.below(16)].to_vec())),
        7 => mappings.push((vec![0x81; random.between(1, 3)], vec![])),
        8 => {
            let more = random.between(MAPPINGS_MAX - 2, MAPPINGS_MAX + 2);
            mappings.extend((0..more).map(|i| (tag_bytes(1000 + i as u32), random.bytes(16))));
            // One that is cut off after the last that may stand.
            if random.percent(50) {
                mappings.push((vec![random.pick(&TELLING)], vec![]));
            }
        }
        _ => mappings.insert(random.below(mappings.len() + 1), (tag_bytes(tag), label)),
    }
}

fn random_of(random: &mut Random, mappings: &[(Vec<u8>, Vec<u8>)]) -> (Vec<u8>, Vec<u8>) {
    mappings[random.below(mappings.len())].clone()
}

/// A Sync that is too short, or holds nothing.
fn spoil_sync(random: &mut Random, pack: &mut Pack) {
    let size = random.below(6);
    let value = Value::Plain(random.bytes(size));
    let at = random.between(pack.parts.len().min(1), pack.parts.len());
    pack.parts.insert(at, Part::new(2, Length::Form(0), value));
}

/// A CRC at the end that is wrong, or not of four bytes.
fn spoil_crc(random: &mut Random, pack: &mut Pack) {
    if matches!(pack.parts.last(), Some(Part { value: Value::Crc(_), .. })) {
        pack.parts.pop();
    }
    let size = random.pick(&[0, 3, 5, 8]);
    let value = if random.percent(60) { Value::Crc(1 << random.below(32)) } else { Value::Plain(random.bytes(size)) };
    pack.parts.push(Part::new(3, Length::Form(random.below(3)), value));
}

/// A last payload, in the pack or in a Sync, of which only the first bytes are there.
fn end_early(random: &mut Random, pack: &mut Pack) {
    let whole = [&[0xFF, 0x81, 0x80, 0x05][4 - random.between(1, 4)..], &[0x84, 0, 0, 0, 2]].concat();
    let some = whole[..random.between(1, whole.len())].to_vec();
    let cut = Part { tag: some, length: Length::Bytes(vec![]), value: Value::Plain(vec![]) };
    match pack.parts.last_mut().map(|part| &mut part.value) {
        Some(Value::Sync { inside, .. }) if random.percent(60) => inside.push(cut),
        _ => pack.parts.push(cut),
    }
}

fn hurt_bytes(random: &mut Random, bytes: &mut Vec<u8>) {
    if bytes.is_empty() {
        return;
    }
    // Behind the key as a rule: a hurt key hides everything else.
    let low = if bytes.len() > KEY.len() && random.percent(90) { KEY.len() } else { 0 };
    let at = random.between(low, bytes.len() - 1);
    match random.below(9) {
        0 => bytes[at] ^= 1 << random.below(8),
        1 => bytes[at] = random.pick(&TELLING),
        2 => bytes[at] = random.byte(),
        3 => bytes.truncate(at),
        4 => bytes.extend([0; 3]),
        5 => {
            bytes.remove(at);
        }
        6 => bytes.insert(at, random.pick(&TELLING)),
        7 => cut_and_repair(bytes, at),
        _ if random.percent(10) => bytes.resize(random.between(PACK_MAX - 1, PACK_MAX + 3), 0),
        _ => cut_and_repair(bytes, at),
    }
}

/// Cuts the pack, but keeps its own length right, so that the fault is one of its payloads.
fn cut_and_repair(bytes: &mut Vec<u8>, at: usize) {
    let Some(&form) = bytes.get(KEY.len()) else { return };
    let first = KEY.len() + 1 + if form > 0x80 { usize::from(form & 0x7F).min(4) } else { 0 };
    if at < first {
        return;
    }
    bytes.truncate(at);
    let length = crate::packs::length_bytes((at - first) as u32, 0);
    bytes.splice(KEY.len()..first, length);
}
