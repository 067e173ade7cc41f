//! The packs, PMD values and tables of objects that are timed.

use std::ops::Range;

use reference::{pmd_write, Object};

const KEY: [u8; 16] = [0x06, 0x0E, 0x2B, 0x34, 0x02, 0x7F, 0x01, 0x01, 0x0C, 0x04, 0x01, 0x00, 0x00, 0x00, 0x00, 0x00];

pub struct Pack {
    pub name: String,
    pub bytes: Vec<u8>,
}

pub struct Scrub {
    pub name: String,
    pub sheet: Vec<u8>,
    pub pack: Vec<u8>,
}

pub struct Sheet {
    pub name: &'static str,
    pub bytes: Vec<u8>,
}

pub struct Lookup {
    pub name: &'static str,
    pub main: Vec<u8>,
    pub backup: Vec<u8>,
    pub label: [u8; 16],
}

pub struct Value {
    pub name: &'static str,
    pub kind: u32,
    pub numbers: Vec<u32>,
    pub bytes: Vec<u8>,
}

/// A value for a table, or an element to clear in it.
pub enum Change {
    Apply(Value),
    Clear(u32),
}

pub struct Table {
    pub name: &'static str,
    pub change: Change,
    pub entries: Vec<Object>,
    /// The entries that are put back before each call, since the next one would find them changed.
    pub restored: Range<usize>,
}

fn length(n: usize) -> Vec<u8> {
    match n {
        0..=0x7F => vec![n as u8],
        0x80..=0xFF => vec![0x81, n as u8],
        _ => vec![0x82, (n >> 8) as u8, n as u8],
    }
}

fn element(tag: u8, value: &[u8]) -> Vec<u8> {
    [&[tag], length(value.len()).as_slice(), value].concat()
}

fn pack(name: String, body: &[u8]) -> Pack {
    let bytes = [&KEY, length(body.len()).as_slice(), body].concat();
    Pack { name, bytes }
}

/// `count` payloads of `size` bytes, with tags from 64 on in turn.
fn payloads(count: usize, size: usize) -> Vec<u8> {
    (0..count).flat_map(|i| element(64 + (i % 32) as u8, &vec![i as u8; size])).collect()
}

/// A label with this last byte.
fn label(last: u8) -> [u8; 16] {
    [0x06, 0x0E, 0x2B, 0x34, 0x04, 0x01, 0x01, 0x0D, 0x0E, 0x09, 0x06, 0x07, 0x01, 0x01, 0x01, last]
}

/// A Config that maps tags 64 to 95 to labels which differ in their last bytes, from `first` on.
fn config_from(first: u8) -> Vec<u8> {
    let mut value = vec![0, 7];
    for i in 0..32 {
        value.push(64 + i);
        value.extend(label(first + i));
    }
    element(1, &value)
}

fn config() -> Vec<u8> {
    config_from(0)
}

fn syncs(count: usize) -> Vec<u8> {
    (0..count).flat_map(|i| element(2, &[vec![0, i as u8, 0, 9], payloads(2, 12)].concat())).collect()
}

pub fn packs() -> Vec<Pack> {
    let mut packs = Vec::new();
    for count in [1, 38, 40, 64] {
        packs.push(pack(format!("{count} payloads of 12 bytes"), &payloads(count, 12)));
        packs.push(pack(format!("{count} labelled payloads, 32 mappings"), &[config(), payloads(count, 12)].concat()));
    }
    packs.push(pack("60 payloads of 500 bytes".into(), &payloads(60, 500)));
    packs.push(pack("20 Syncs of two payloads".into(), &syncs(20)));
    packs
}

/// A sheet of as many labels, which differ in their last byte, and of numbers.
fn sheet(labels: u8, numbers: impl Iterator<Item = u32>) -> Vec<u8> {
    let stands: Vec<u8> = (0..labels).flat_map(label).collect();
    let entries: Vec<u8> = numbers.flat_map(u32::to_be_bytes).collect();
    let [high, low] = (8 + stands.len() as u16).to_be_bytes();
    [&[0, labels, 0, 8, 0, entries.len() as u8 / 4, high, low], stands.as_slice(), &entries].concat()
}

/// The sheet of 0 bytes, one of eight entries, and the longest.
pub fn sheets() -> Vec<Sheet> {
    vec![
        Sheet { name: "0 bytes", bytes: vec![] },
        Sheet { name: "4 labels and 4 numbers", bytes: sheet(4, 64..68) },
        Sheet { name: "32 labels and 32 numbers", bytes: sheet(32, 64..96) },
    ]
}

/// Each pack by three sheets: keep all, every other of the tags that its payloads have, none.
pub fn scrubs() -> Vec<Scrub> {
    let packs = [("40 payloads of 12 bytes", payloads(40, 12)), ("60 payloads of 500 bytes", payloads(60, 500)), ("20 Syncs of two payloads", syncs(20))];
    let keep_all = vec![0xFF, 0xFF, 0, 8, 0xFF, 0xFF, 0, 8];
    let sheets = [("all", keep_all), ("half", sheet(0, (64..96).step_by(2))), ("none", sheet(0, 0..0))];
    let mut scrubs = Vec::new();
    for (name, body) in packs {
        for (kept, sheet) in &sheets {
            let name = format!("keep {kept}, {name}");
            scrubs.push(Scrub { name: name.clone(), sheet: sheet.clone(), pack: pack(name, &body).bytes });
        }
    }
    scrubs
}

/// A label that main has at once, that the backup has alone, that neither has, or that stands in Syncs.
pub fn lookups() -> Vec<Lookup> {
    let bytes = |body: &[Vec<u8>]| pack(String::new(), &body.concat()).bytes;
    let one = |first| bytes(&[config_from(first), payloads(1, 12)]);
    let many = |first| bytes(&[config_from(first), payloads(40, 12)]);
    let in_syncs = bytes(&[config(), payloads(1, 12), syncs(20)]);
    let plain = bytes(&[payloads(60, 500)]);
    vec![
        Lookup { name: "found in main, 1 labelled payload", main: one(0), backup: one(0), label: label(0) },
        Lookup { name: "found in main at once, 40 payloads", main: many(0), backup: many(0), label: label(0) },
        Lookup { name: "found in main late, 40 payloads", main: many(0), backup: many(0), label: label(31) },
        Lookup { name: "found in backup late, 40 payloads", main: many(100), backup: many(0), label: label(31) },
        Lookup { name: "absent, 40 labelled payloads", main: many(0), backup: many(0), label: label(100) },
        Lookup { name: "found in a Sync of 20", main: in_syncs.clone(), backup: in_syncs, label: label(1) },
        Lookup { name: "absent, 60 payloads of 500 bytes", main: plain.clone(), backup: plain, label: label(0) },
    ]
}

fn value(name: &'static str, kind: u32, numbers: Vec<u32>) -> Value {
    let mut bytes = vec![0; 4096];
    let size = pmd_write(kind, &numbers, &mut bytes).expect("the numbers are a value of their kind");
    bytes.truncate(size);
    Value { name, kind, numbers, bytes }
}

/// A turnaround of both deliverables, with five pairs in each and the one that closes them.
fn turnaround(id: u32) -> Vec<u32> {
    let pairs: Vec<u32> = (1..=5).flat_map(|i| [i * 90 + id, i * 40 + id]).chain([0, id]).collect();
    [&[id, 1, 1 + id % 5], &pairs[..], &[1, 1 + id % 5, id % 24], &pairs].concat()
}

fn object(e: u32) -> [u32; 11] {
    [e, e % 7, e % 2, 512, e * 9, 1023, e % 32, 0, 1, e * 3 % 256, e % 64]
}

fn objects() -> Value {
    value("64 object descriptions", 3, (1..=64).flat_map(object).collect())
}

fn positions() -> Value {
    value("90 positions", 4, std::iter::once(5).chain((1..=90).flat_map(|e| [e, 1 + e * 11 % 1023, 512, 1023])).collect())
}

pub fn values() -> Vec<Value> {
    let letters = || (0..3000).map(|i| 65 + i % 26).chain([0]);
    let name = [7].into_iter().chain(letters()).collect();
    let aligned = [1, 5568].into_iter().chain(letters()).collect();
    let elements = [1, 0, 5568].into_iter().chain(1..=2000).chain([0]).collect();
    vec![
        objects(),
        positions(),
        value("a name of 3,000 bytes", 5, name),
        value("the same, each in a byte of its own", 2, aligned),
        value("one presentation", 1, vec![1, 0, 5568, 3, 4, 0]),
        value("a presentation of 2,000 elements", 1, elements),
        value("40 turnarounds of ten pairs", 7, (1..=40).flat_map(turnaround).collect()),
    ]
}

/// Dynamic entries of elements from 1 on, as the values above name them, but those of the first are free if asked.
fn table(free: usize) -> Vec<Object> {
    let entry = |e| Object { dynamic: 1, y: 1 + e, ..object(e).into() };
    (1..=128).map(|e| if e <= free as u32 { Object::default() } else { entry(e) }).collect()
}

/// A table of 128 entries: one that has all elements of the values, and one that has room for those that it has not.
pub fn tables() -> Vec<Table> {
    vec![
        Table { name: "64 objects that are there, of 128", change: Change::Apply(objects()), entries: table(0), restored: 0..0 },
        Table { name: "64 new objects, 64 of 128 free", change: Change::Apply(objects()), entries: table(64), restored: 0..64 },
        Table { name: "90 positions, of 128", change: Change::Apply(positions()), entries: table(0), restored: 0..0 },
        Table { name: "clear the last of 128", change: Change::Clear(128), entries: table(0), restored: 127..128 },
    ]
}
