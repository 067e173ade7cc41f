//! Tables of objects, well formed and not, what may be asked of them, and what becomes of them by the rules alone.

use std::collections::BTreeSet;

use crate::random::Random;
use crate::values::{any_kind, record_bytes, record_of, records_in, spoil_record, value_of};

/// The numbers of an entry: those of an AOD record, the element first. A free entry has the element 0.
pub type Entry = [u32; 11];

pub const TABLE_MAX: usize = 128;
pub const ELEMENT_MAX: u32 = 4_095;

/// The kinds of values that change a table.
pub const AOD: u32 = 3;
pub const XYZ: u32 = 4;

/// Where an entry has its dynamic, and its x before y and z.
const DYNAMIC: usize = 2;
const X: usize = 3;

/// The most records that a value of 4,096 bytes holds.
fn most_records(kind: u32) -> usize {
    if kind == AOD {
        481
    } else {
        780
    }
}

pub fn free_entries(table: &[Entry]) -> usize {
    table.iter().filter(|entry| entry[0] == 0).count()
}

/// A used entry, as a record can describe it.
pub fn any_entry(random: &mut Random, element: u32) -> Entry {
    record_of(random, AOD, element).try_into().expect("eleven numbers")
}

/// A free entry, cleared or with fields that nobody judges.
fn any_free(random: &mut Random) -> Entry {
    let mut entry = match random.below(4) {
        0 | 1 => Entry::default(),
        2 => any_entry(random, 1),
        _ => random.numbers(11).try_into().expect("eleven numbers"),
    };
    entry[0] = 0;
    entry
}

/// A table of so many entries, well formed unless they are too many, with more or less of them free.
pub fn good_table(random: &mut Random, size: usize) -> Vec<Entry> {
    let used = random.pick(&[0, 30, 70, 95, 100]);
    let highest = if random.percent(70) { size as u32 + 9 } else { ELEMENT_MAX };
    let mut seen = BTreeSet::new();
    let mut entry = || {
        if !random.percent(used) {
            return any_free(random);
        }
        let element = loop {
            let element = random.between(1, highest as usize) as u32;
            if seen.insert(element) {
                break element;
            }
        };
        any_entry(random, element)
    };
    (0..size).map(|_| entry()).collect()
}

fn any_size(random: &mut Random) -> usize {
    match random.below(100) {
        0..=49 => random.pick(&[0, 1, 2, 3, 5, 8]),
        50..=79 => random.between(0, 24),
        80..=89 => random.between(TABLE_MAX - 1, TABLE_MAX),
        90..=97 => random.between(0, TABLE_MAX),
        98 => TABLE_MAX + 1,
        _ => random.between(TABLE_MAX + 1, 2 * TABLE_MAX),
    }
}

/// A table, mostly well formed.
pub fn any_table(random: &mut Random) -> Vec<Entry> {
    let size = any_size(random);
    let mut table = good_table(random, size);
    if size > 0 && random.percent(8) {
        spoil_table(random, &mut table);
    }
    table
}

/// An element that stands in the table twice, or a number that its field refuses, which in a free entry is no fault.
fn spoil_table(random: &mut Random, table: &mut [Entry]) {
    let (one, other) = (random.below(table.len()), random.below(table.len()));
    if random.percent(40) {
        table[one] = any_entry(random, table[other][0].max(1));
    } else {
        spoil_record(random, AOD, &mut table[one]);
    }
}

/// The elements of used entries, of the dynamic ones alone if asked.
fn elements(table: &[Entry], dynamic: bool) -> Vec<u32> {
    let wanted = |entry: &&Entry| entry[0] != 0 && (!dynamic || entry[DYNAMIC] != 0);
    table.iter().filter(wanted).map(|entry| entry[0]).collect()
}

/// An element that no entry has, close to those that are there as a rule.
fn any_new(random: &mut Random, table: &[Entry]) -> u32 {
    loop {
        let highest = if random.percent(70) { table.len() + 20 } else { ELEMENT_MAX as usize };
        let element = random.between(1, highest) as u32;
        if table.iter().all(|entry| entry[0] != element) {
            return element;
        }
    }
}

/// The elements of an AOD: known ones, and new ones around as many as the table has room for; some of them again.
fn any_described(random: &mut Random, table: &[Entry]) -> Vec<u32> {
    let (known, free) = (elements(table, false), free_entries(table));
    let some = random.below(free + 2);
    let new = random.pick(&[0, 1, free.saturating_sub(1), free, free + 1, some]);
    let mut named = BTreeSet::new();
    while named.len() < new {
        named.insert(any_new(random, table));
    }
    let mut named: Vec<u32> = named.into_iter().collect();
    if !known.is_empty() {
        let more = random.pick(&[0, 0, 1, 2, 5, known.len()]);
        named.extend((0..more).map(|_| random.pick(&known)));
    }
    if named.is_empty() {
        named.push(any_new(random, table));
    }
    for _ in 0..random.pick(&[0, 0, 1, 2, 8]) {
        named.push(random.pick(&named));
    }
    random.shuffle(&mut named);
    named
}

/// The elements of an XYZ: dynamic ones, and now and then one that is not or that is not there.
fn any_moved(random: &mut Random, table: &[Entry]) -> Vec<u32> {
    let dynamic = elements(table, true);
    let count = random.pick(&[1, 1, 2, 3, 5, 20, dynamic.len()]);
    let mut named: Vec<u32> = vec![];
    if !dynamic.is_empty() {
        named.extend((0..count).map(|_| random.pick(&dynamic)));
    }
    let used = elements(table, false);
    let odd = if named.is_empty() { 1 } else { random.pick(&[0, 0, 0, 1, 2]) };
    for _ in 0..odd {
        let element = if used.is_empty() || random.percent(40) { any_new(random, table) } else { random.pick(&used) };
        named.insert(random.below(named.len() + 1), element);
    }
    named
}

/// A kind and a value to apply to the table: mostly good ones, that it may take.
pub fn any_update(random: &mut Random, table: &[Entry]) -> (u32, Vec<u8>) {
    let kind = random.pick(&[AOD, XYZ]);
    let mut named = if kind == AOD { any_described(random, table) } else { any_moved(random, table) };
    if random.below(400) == 0 {
        let full = random.between(most_records(kind) - 1, most_records(kind) + 1);
        while named.len() < full {
            named.push(random.pick(&named));
        }
    }
    named.truncate(most_records(kind) + 1);
    let good = random.percent(88);
    let value = value_of(random, kind, &named, good);
    match random.below(50) {
        0 => (AOD + XYZ - kind, value),
        1 => (any_kind(random), value),
        _ => (kind, value),
    }
}

/// An element to clear: mostly one that is there.
pub fn any_clearing(random: &mut Random, table: &[Entry]) -> u32 {
    let known = elements(table, false);
    match random.below(20) {
        0 => 0,
        1 => any_new(random, table),
        2 => random.pick(&[ELEMENT_MAX, ELEMENT_MAX + 1, 1 << 16, u32::MAX]),
        // One that is there but for bits which no element has.
        3 if !known.is_empty() => random.pick(&known) | 1 << random.between(12, 31),
        _ if !known.is_empty() => random.pick(&known),
        _ => any_new(random, table),
    }
}

/// An entry as bytes for the fuzzer: a record of it, and in the four bits that are left of the last byte which of its
/// fields, if any, has a number too wide. A field that was too wide already is cut.
pub const ENTRY_BYTES: usize = 9;

/// The entry that bytes stand for, missing ones standing for 0.
pub fn entry_of(bytes: &[u8]) -> Entry {
    let mut whole = [0; ENTRY_BYTES];
    whole[..bytes.len()].copy_from_slice(bytes);
    let mut entry: Entry = records_in(AOD, &whole)[0][..].try_into().expect("eleven numbers");
    if let Some(wide) = entry.get_mut(usize::from(whole[ENTRY_BYTES - 1] & 15).wrapping_sub(1)) {
        *wide |= 1 << 12;
    }
    entry
}

/// Bytes that stand for an entry, or for one like it.
pub fn bytes_of(entry: &Entry) -> Vec<u8> {
    record_bytes(AOD, entry)
}

/// The table after these records of a good value that it takes, one record after the other.
pub fn after(kind: u32, records: &[Vec<u32>], table: &[Entry]) -> Vec<Entry> {
    let mut table = table.to_vec();
    for record in records {
        let known = table.iter().position(|entry| entry[0] == record[0]);
        let slot = known.or_else(|| table.iter().position(|entry| entry[0] == 0)).expect("there is room");
        if kind == AOD {
            table[slot].copy_from_slice(record);
        } else {
            table[slot][X..X + 3].copy_from_slice(&record[1..]);
        }
    }
    table
}

/// What a well formed table says of good records before any of them is applied: nothing, or a refusal and its place.
pub fn verdict(kind: u32, records: &[Vec<u32>], table: &[Entry]) -> Option<(u64, u64)> {
    let entry = |element: u32| table.iter().find(|entry| entry[0] == element);
    if kind == AOD {
        let new = records.iter().map(|record| record[0]).filter(|&element| entry(element).is_none());
        return (new.collect::<BTreeSet<u32>>().len() > free_entries(table)).then_some((24, 0));
    }
    records.iter().zip(0..).find_map(|(record, index)| match entry(record[0]) {
        None => Some((22, index)),
        Some(entry) => (entry[DYNAMIC] == 0).then_some((23, index)),
    })
}
