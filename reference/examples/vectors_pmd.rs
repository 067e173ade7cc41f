//! Makes the cases that the program `crates/vectors_pmd` runs, and the text that it must print.
//!
//! ```text
//! cargo run --release --offline --example vectors_pmd      (in reference/)
//! ```
//!
//! writes `stdin` and `stdout` beside that program's sources. The answers are this crate's;
//! nothing of the proved code takes part.
//!
//! A case is a number of 4 bytes, the length of what follows: the call (`r`, `w` or `g`), the kind
//! or the gain, the room, the length of the name and the name, and then the input in parts. A
//! part is a number of 2 bytes, how often it stands there, its length in 2 bytes and its bytes.
//! Numbers are most significant byte first, and the input of a `w` is numbers of 4 bytes.

mod shared;

use reference::{crc::crc, gain, pmd_read, pmd_write, Gain, Refusal};
use shared::Made;

/// What lent runs hold before the call: more than any field.
const LENT_NUMBER: u32 = 99_999;
const LENT_BYTE: u8 = 0xEE;
/// How much of a lent run is printed.
const SHOWN: usize = 12;
/// What the program has room for: bytes of cases, and numbers of a lent run.
const MAX_CASES: usize = 65_536;
const MAX_ROOM: usize = 9_828;

/// A field: its width, some numbers that it takes, and some that are reserved.
struct Field {
    width: u32,
    good: &'static [u32],
    reserved: &'static [u32],
    until_zero: bool,
}

const fn field(width: u32, good: &'static [u32], reserved: &'static [u32]) -> Field {
    Field { width, good, reserved, until_zero: false }
}

const fn until_zero(width: u32, good: &'static [u32]) -> Field {
    Field { width, good, reserved: &[], until_zero: true }
}

/// A langcod of these groups.
const fn groups(a: u32, b: u32, c: u32) -> u32 {
    1024 * a + 32 * b + c
}

const PRESENTATION: Field = field(9, &[1, 511, 256], &[0]);
const SPEAKER_CONFIG: Field = field(5, &[0, 6, 29, 31], &[7, 28]);
const LANGCOD: Field = field(
    15,
    &[groups(5, 14, 0), groups(1, 1, 1), groups(26, 26, 26), groups(26, 1, 0)],
    &[groups(0, 1, 1), groups(1, 0, 1), groups(27, 1, 1), groups(1, 27, 1), groups(1, 1, 27), 0],
);
const ELEMENT: Field = field(12, &[1, 4095, 2048], &[0]);
const ELEMENTS: Field = until_zero(12, &[4095, 1, 2048]);
const CLASS: Field = field(4, &[0, 6, 3], &[7, 15]);
const FLAG: Field = field(1, &[0, 1], &[]);
const COORDINATE: Field = field(10, &[1, 512, 1023], &[0]);
const SIZE: Field = field(5, &[0, 31, 16], &[]);
const SOURCE: Field = field(8, &[0, 255, 128], &[]);
const GAIN: Field = field(6, &[63, 0, 51], &[]);
const SAMPLE_TIME: Field = field(6, &[63, 0, 32], &[]);
const SUBSTREAM: Field = field(4, &[1, 15, 8], &[0]);
const NAME: Field = until_zero(8, &[65, 255, 1, 128]);
const TURNAROUND: Field = field(8, &[1, 255, 128], &[0]);
const FRAME_RATE: Field = field(4, &[1, 5, 3], &[0, 6, 15]);
const PROGRAM_CONFIG: Field = field(5, &[0, 23, 16], &[24, 31]);
const CARRIED: Field = field(9, &[511, 1, 256], &[]);
const PARAMETERS: Field = field(8, &[0, 255, 128], &[]);

struct Kind {
    number: u32,
    name: &'static str,
    head: &'static [Field],
    record: &'static [Field],
    /// The fields of what a flag in each record says is there, before its list of pairs.
    deliverables: &'static [&'static [Field]],
}

const fn kind(number: u32, name: &'static str, record: &'static [Field]) -> Kind {
    Kind { number, name, head: &[], record, deliverables: &[] }
}

static KINDS: [Kind; 7] = [
    kind(1, "apd", &[PRESENTATION, SPEAKER_CONFIG, LANGCOD, ELEMENTS]),
    kind(2, "apn", &[PRESENTATION, LANGCOD, NAME]),
    kind(
        3,
        "aod",
        &[ELEMENT, CLASS, FLAG, COORDINATE, COORDINATE, COORDINATE, SIZE, FLAG, FLAG, SOURCE, GAIN],
    ),
    Kind { head: &[SAMPLE_TIME], ..kind(4, "xyz", &[ELEMENT, COORDINATE, COORDINATE, COORDINATE]) },
    kind(5, "aen", &[ELEMENT, NAME]),
    kind(6, "esn", &[SUBSTREAM, NAME]),
    Kind {
        deliverables: &[&[FRAME_RATE], &[FRAME_RATE, PROGRAM_CONFIG]],
        ..kind(7, "etd", &[TURNAROUND])
    },
];

/// A number and the field that it is for.
type Told = (u32, &'static Field);

impl Kind {
    /// Records in which each field goes through its good numbers, and lists grow by one entry.
    fn list(&'static self, records: usize) -> Vec<Told> {
        let mut list: Vec<Told> = self.head.iter().map(|f| (f.good[0], f)).collect();
        for r in 0..records {
            // Both deliverables first, then each alone, then none.
            self.put_record(r, r, r, &mut list);
        }
        list
    }

    /// Record `r`, but for the deliverables whose bits are set, with so many pairs for each.
    fn put_record(&'static self, r: usize, without: usize, pairs: usize, list: &mut Vec<Told>) {
        put_fields(self.record, r, list);
        for (d, fields) in self.deliverables.iter().enumerate() {
            let exists = without >> d & 1 == 0;
            list.push((exists.into(), &FLAG));
            if exists {
                put_fields(fields, r, list);
                put_pairs(pairs, r, list);
            }
        }
    }

    /// The first record with these entries in its list.
    fn listing(&'static self, entries: impl Iterator<Item = u32>) -> Vec<Told> {
        let mut list = self.list(1);
        let (zero, f) = list.pop().expect("a record has fields");
        list.extend(entries.map(|n| (n, f)));
        list.push((zero, f));
        list
    }

    /// One record with `n` entries in its list, or `n` records alike where records have no list.
    fn stretched(&'static self, n: usize) -> Vec<Told> {
        let last = &self.record[self.record.len() - 1];
        if last.until_zero {
            return self.listing((0..n).map(|_| last.good[0]));
        }
        let mut list = self.list(1);
        let record = list.split_off(self.head.len());
        list.extend((0..n).flat_map(|_| &record));
        list
    }
}

/// The fields of record `r`.
fn put_fields(fields: &'static [Field], r: usize, list: &mut Vec<Told>) {
    for (i, f) in fields.iter().enumerate() {
        let entries = if f.until_zero { r } else { 1 };
        list.extend((0..entries).map(|k| (f.good[(r + i + k) % f.good.len()], f)));
        if f.until_zero {
            list.push((0, f));
        }
    }
}

/// So many pairs of record `r`, and the one that closes their list.
fn put_pairs(pairs: usize, r: usize, list: &mut Vec<Told>) {
    for k in 0..=pairs {
        let carried = if k < pairs { CARRIED.good[k % CARRIED.good.len()] } else { 0 };
        list.push((carried, &CARRIED));
        list.push((PARAMETERS.good[(r + k) % PARAMETERS.good.len()], &PARAMETERS));
    }
}

fn numbers(list: &[Told]) -> Vec<u32> {
    list.iter().map(|&(number, _)| number).collect()
}

/// The bits of a list, judged by nobody, and zeros up to a whole byte.
fn packed(list: &[Told]) -> Vec<u8> {
    let mut bits: Vec<bool> = Vec::new();
    for (number, f) in list {
        bits.extend((0..f.width).rev().map(|k| number >> k & 1 == 1));
    }
    bits.resize(bits.len().next_multiple_of(8), false);
    bits.chunks(8).map(|byte| byte.iter().fold(0, |n, &bit| 2 * n + u8::from(bit))).collect()
}

fn bits(list: &[Told]) -> usize {
    list.iter().map(|(_, f)| f.width as usize).sum()
}

enum Call {
    Read(Vec<u8>),
    Write(Vec<u32>),
    Gain,
}

struct Case {
    name: String,
    call: Call,
    /// The kind, or the gain.
    number: u32,
    room: usize,
}

#[derive(Default)]
struct Cases(Vec<Case>);

impl Cases {
    fn read(&mut self, name: impl Into<String>, kind: u32, value: &[u8], room: usize) {
        self.0.push(Case {
            name: name.into(),
            call: Call::Read(value.to_vec()),
            number: kind,
            room,
        });
    }

    fn write(&mut self, name: impl Into<String>, kind: u32, numbers: &[u32], room: usize) {
        self.0.push(Case {
            name: name.into(),
            call: Call::Write(numbers.to_vec()),
            number: kind,
            room,
        });
    }

    /// Reads and writes a list, with room to spare for what is good.
    fn both(&mut self, name: String, kind: &Kind, list: &[Told]) {
        let value = packed(list);
        self.read(&name, kind.number, &value, list.len() + 2);
        self.write(name, kind.number, &numbers(list), value.len() + 2);
    }

    /// The lines of the outline that are marked P, some of turnarounds, and their values written.
    fn outline(&mut self) {
        let lines: [(u32, &[u8], &[u32]); 10] = [
            (4, &[0x04, 0x00, 0x40, 0x18, 0x03, 0xFF], &[1, 1, 1, 512, 1023]),
            (6, &[0x14, 0x10, 0x00], &[1, 65, 0]),
            (6, &[0x14, 0x10, 0x01], &[]),
            (1, &[0x00, 0x80, 0xAE, 0x00, 0x00, 0x00], &[1, 0, 5568, 0]),
            (7, &[0x07, 0x00], &[7, 0, 0]),
            (7, &[0x07, 0x00, 0x00], &[]),
            (7, &[0x01, 0x98, 0x14, 0x24, 0x00, 0x06], &[1, 1, 3, 5, 9, 0, 3, 0]),
            (7, &[0x01, 0x56, 0xFF, 0xF0, 0x00, 0x07, 0xF8], &[1, 0, 1, 5, 23, 511, 0, 0, 255]),
            (7, &[0x01, 0xB0, 0x00, 0x00], &[]),
            (7, &[0x01, 0x47, 0x00, 0x00, 0x00], &[]),
        ];
        for (kind, value, numbers) in lines {
            self.read("outline", kind, value, numbers.len().max(8));
            if !numbers.is_empty() {
                self.write("outline", kind, numbers, 8);
            }
        }
    }

    fn records(&mut self, kind: &'static Kind) {
        for records in [1, 2, 7] {
            self.both(format!("{}, records: {records}", kind.name), kind, &kind.list(records));
        }
        if kind.record.last().is_some_and(|f| f.width == 8 && f.until_zero) {
            self.both(format!("{}, name of every byte", kind.name), kind, &kind.listing(1..=255));
        }
    }

    /// Values and lists of two records cut off everywhere, and with something after them.
    fn ends(&mut self, kind: &'static Kind) {
        let list = kind.list(2);
        let (value, numbers) = (packed(&list), numbers(&list));
        for end in 0..value.len() {
            self.read(format!("{}, cut off", kind.name), kind.number, &value[..end], 4);
        }
        for end in 0..numbers.len() {
            self.write(format!("{}, cut off", kind.name), kind.number, &numbers[..end], 4);
        }
        for more in [0, 1] {
            self.read(
                format!("{}, one byte more", kind.name),
                kind.number,
                &[&value[..], &[more]].concat(),
                4,
            );
            self.write(
                format!("{}, one number more", kind.name),
                kind.number,
                &[&numbers[..], &[more.into()]].concat(),
                4,
            );
        }
    }

    /// Every field of two records with what is reserved, and of the second with what is too wide.
    fn fields(&mut self, kind: &'static Kind) {
        let list = kind.list(2);
        for (place, &(_, f)) in list.iter().enumerate() {
            for &reserved in f.reserved {
                let mut wrong = kind.list(2);
                wrong[place].0 = reserved;
                self.read(format!("{}, reserved", kind.name), kind.number, &packed(&wrong), 4);
                self.write(format!("{}, reserved", kind.name), kind.number, &numbers(&wrong), 4);
            }
        }
        for place in (0..kind.head.len()).chain(kind.list(1).len()..list.len()) {
            for wide in [1 << list[place].1.width, u32::MAX] {
                let mut wrong = numbers(&list);
                wrong[place] = wide;
                self.write(format!("{}, too wide", kind.name), kind.number, &wrong, 4);
            }
        }
    }

    /// Each leftover bit set.
    fn padding(&mut self, kind: &'static Kind) {
        for records in 1..=2 {
            let list = kind.list(records);
            let value = packed(&list);
            for bit in 0..8 * value.len() - bits(&list) {
                let mut wrong = value.clone();
                wrong[value.len() - 1] |= 1 << bit;
                self.read(format!("{}, leftover bit", kind.name), kind.number, &wrong, 4);
            }
        }
    }

    fn room(&mut self, kind: &'static Kind) {
        let list = kind.list(2);
        let value = packed(&list);
        for room in [0, list.len() - 1, list.len()] {
            self.read(format!("{}, room", kind.name), kind.number, &value, room);
        }
        for room in [0, value.len() - 1, value.len()] {
            self.write(format!("{}, room", kind.name), kind.number, &numbers(&list), room);
        }
    }

    /// What just has room in a value of 4,096 bytes, and what has not.
    fn long(&mut self, kind: &'static Kind) {
        let most = (1..).take_while(|&n| bits(&kind.stretched(n)) <= 8 * 4096).count();
        let (longest, longer) = (kind.stretched(most), kind.stretched(most + 1));
        let (value, too_long) = (packed(&longest), packed(&longer));
        self.read(format!("{}, the longest", kind.name), kind.number, &value, 6000);
        self.read(format!("{}, longer", kind.name), kind.number, &too_long, 6000);
        self.read(format!("{}, cut off at 4096", kind.name), kind.number, &too_long[..4096], 6000);
        self.write(format!("{}, the longest", kind.name), kind.number, &numbers(&longest), 4100);
        self.write(
            format!("{}, the longest", kind.name),
            kind.number,
            &numbers(&longest),
            value.len() - 1,
        );
        self.write(format!("{}, longer", kind.name), kind.number, &numbers(&longer), 5000);
    }

    /// The most numbers that a value can have, and one record more.
    fn most_numbers(&mut self) {
        let bare = |records: usize| {
            let mut list = Vec::new();
            (0..records).for_each(|r| KINDS[6].put_record(r, 3, 0, &mut list));
            list
        };
        let (most, more) = (bare(3276), bare(3277));
        let (value, too_long) = (packed(&most), packed(&more));
        self.read("etd, the most numbers", 7, &value, MAX_ROOM);
        self.read("etd, the most numbers", 7, &value, MAX_ROOM - 1);
        self.read("etd, more numbers", 7, &too_long, MAX_ROOM);
        self.read("etd, more numbers, cut off", 7, &too_long[..4096], MAX_ROOM);
        self.write("etd, the most numbers", 7, &numbers(&most), value.len());
        self.write("etd, the most numbers", 7, &numbers(&most), value.len() - 1);
        self.write("etd, more numbers", 7, &numbers(&more), 5000);
    }

    /// Lists of pairs that fill a value, and one pair more, for either deliverable.
    fn pairs(&mut self) {
        for (deliverable, other) in [("ED2", 2), ("Dolby E", 1)] {
            let filled = |pairs: usize| {
                let mut list = Vec::new();
                KINDS[6].put_record(0, other, pairs, &mut list);
                list
            };
            let most = (1..).take_while(|&n| bits(&filled(n)) <= 8 * 4096).count();
            for pairs in [most, most + 1] {
                let name = format!("etd, {deliverable}, pairs: {pairs}");
                self.both(name, &KINDS[6], &filled(pairs));
            }
        }
    }

    /// What is judged before what.
    fn order(&mut self) {
        for kind in [0, 8, 256, u32::MAX] {
            self.read("no kind", kind, &[0; 4097], 2);
            self.write("no kind", kind, &[u32::MAX], 2);
        }
        self.read("BIG before BITS", 6, &[0; 4097], 2);
        self.read("FIELD before PAD", 6, &[0x04, 0x10, 0x0F], 0);
        self.read("PAD before NOROOM", 6, &[0x14, 0x10, 0x0F], 0);
        self.write("FIELD before NOROOM", 6, &[1, 65, 0, 0], 0);
        self.write("BITS before NOROOM", 6, &[1, 65], 0);
    }

    /// Lists of more numbers than a value has bits are judged to their end all the same.
    fn endless(&mut self) {
        let name = vec![65; 32_768];
        for (case, tail) in
            [("no room", &[0][..]), ("too wide at the end", &[256]), ("cut off", &[])]
        {
            self.write(
                format!("esn, a long list, {case}"),
                6,
                &[&[1], &name[..], tail].concat(),
                4100,
            );
        }
        self.write("xyz, a long list, no room", 4, &[vec![1], vec![1; 32_768]].concat(), 4100);
    }

    fn gains(&mut self) {
        for number in [0, 1, 2, 50, 51, 52, 63, 64, 256, u32::MAX] {
            self.0.push(Case { name: "level".into(), call: Call::Gain, number, room: 0 });
        }
    }
}

fn all() -> Vec<Case> {
    let mut cases = Cases::default();
    cases.outline();
    KINDS.iter().for_each(|kind| cases.records(kind));
    KINDS.iter().for_each(|kind| cases.ends(kind));
    KINDS.iter().for_each(|kind| cases.fields(kind));
    KINDS.iter().for_each(|kind| cases.padding(kind));
    KINDS.iter().for_each(|kind| cases.room(kind));
    KINDS.iter().for_each(|kind| cases.long(kind));
    cases.most_numbers();
    cases.pairs();
    cases.order();
    cases.endless();
    cases.gains();
    cases.0
}

/// The longest run of a block that stands several times at the start of `input`: the block's
/// length and how often it stands there.
fn repeated(input: &[u8]) -> (usize, usize) {
    let runs = (1..=64.min(input.len())).map(|size| {
        let times = input.chunks_exact(size).take_while(|block| *block == &input[..size]).count();
        (size, times.min(u16::MAX.into()))
    });
    runs.max_by_key(|&(size, times)| {
        (if times > 1 { size * times } else { 0 }, std::cmp::Reverse(size))
    })
    .unwrap_or((0, 0))
}

fn part(out: &mut Vec<u8>, times: usize, block: &[u8]) {
    out.extend((times as u16).to_be_bytes());
    out.extend((block.len() as u16).to_be_bytes());
    out.extend(block);
}

/// The input in parts, long runs of a block written once.
fn parts(input: &[u8]) -> Vec<u8> {
    let mut out = Vec::new();
    let (mut begin, mut at) = (0, 0);
    while at < input.len() {
        let (size, times) = repeated(&input[at..]);
        if size * times < 256 || times == 1 {
            at += 1;
            continue;
        }
        if begin < at {
            part(&mut out, 1, &input[begin..at]);
        }
        part(&mut out, times, &input[at..at + size]);
        at += size * times;
        begin = at;
    }
    if begin < at {
        part(&mut out, 1, &input[begin..at]);
    }
    out
}

fn encoded(case: &Case) -> Vec<u8> {
    let (call, input) = match &case.call {
        Call::Read(value) => (b'r', value.clone()),
        Call::Write(numbers) => (b'w', numbers.iter().flat_map(|n| n.to_be_bytes()).collect()),
        Call::Gain => (b'g', Vec::new()),
    };
    let mut body = vec![call];
    body.extend(case.number.to_be_bytes());
    body.extend((case.room as u32).to_be_bytes());
    body.push(case.name.len() as u8);
    body.extend(case.name.as_bytes());
    body.extend(parts(&input));
    [&(body.len() as u32).to_be_bytes()[..], &body].concat()
}

fn answer(result: Result<usize, Refusal>) -> String {
    match result {
        Ok(count) => format!("done {count}"),
        Err(refusal) => format!("refused {} at {}", refusal.number, refusal.place),
    }
}

/// How a lent run begins, and the CRC of all its bytes.
fn run(shown: impl Iterator<Item = String>, bytes: &[u8]) -> String {
    format!(
        "{}, crc {:08x}",
        shown.take(SHOWN).map(|text| format!(" {text}")).collect::<String>(),
        crc(bytes)
    )
}

fn line(case: &Case) -> String {
    let (kind, room) = (case.number, case.room);
    let text = match &case.call {
        Call::Read(value) => {
            let mut numbers = vec![LENT_NUMBER; room];
            let told = answer(pmd_read(kind, value, &mut numbers));
            let bytes: Vec<u8> = numbers.iter().flat_map(|n| n.to_be_bytes()).collect();
            format!(
                "read kind {kind}, {} bytes, room {room}: {told};{}",
                value.len(),
                run(numbers.iter().map(u32::to_string), &bytes)
            )
        }
        Call::Write(numbers) => {
            let mut out = vec![LENT_BYTE; room];
            let told = answer(pmd_write(kind, numbers, &mut out));
            format!(
                "write kind {kind}, {} numbers, room {room}: {told};{}",
                numbers.len(),
                run(out.iter().map(|b| format!("{b:02x}")), &out)
            )
        }
        Call::Gain => match gain(kind) {
            Ok(Gain::Muted) => format!("gain {kind}: muted"),
            Ok(Gain::HalfDecibels(half)) => format!("gain {kind}: {half}"),
            Err(refusal) => format!("gain {kind}: {}", answer(Err(refusal))),
        },
    };
    format!("{}: {text}\n", case.name)
}

fn made() -> Made {
    let cases = all();
    let input: Vec<u8> = cases.iter().flat_map(encoded).collect();
    assert!(
        input.len() <= MAX_CASES,
        "{} bytes of cases are more than the program reads",
        input.len()
    );
    let count = format!("{} cases\n", cases.len());
    let output: String = cases.iter().map(line).chain([count]).collect();
    Made { program: "vectors_pmd", files: [("stdin", input), ("stdout", output.into_bytes())] }
}

fn main() -> std::io::Result<()> {
    made().write()
}

#[test]
fn the_tree_has_these_cases() {
    made().assert_in_tree();
}
