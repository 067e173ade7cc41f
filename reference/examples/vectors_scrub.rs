//! Makes the cases that `crates/vectors_scrub` runs, and by the reference what it must print.
//!
//!     cargo run --release --offline --example vectors_scrub
//!
//! writes `stdin`, the cases, and `stdout`, what is expected, into `crates/vectors_scrub`. The test
//! at the end, which `cargo test` runs, holds these files in the tree to what is made here.
//!
//! A case is four numbers of 32 bits, most significant byte first: how many bytes its name, its
//! sheet, its pack and its buffer have. Name, sheet and pack follow; every byte of the buffer holds
//! EE before the scrub.

mod shared;

use reference::crc::crc;
use reference::numbers::{write_length, write_tag, MAX_TAG};
use reference::pack::{KEY, MAX_PACK};
use reference::scrub;
use shared::Made;

/// Buffers up to this size are printed whole.
const SHORT: usize = 96;

/// Of a longer one so many bytes of its front are printed, and so many of the end of the pack.
const FRONT: usize = 48;
const END: usize = 16;

/// A buffer that holds any pack.
const AMPLE: usize = 40_000;

/// The sheet that keeps all, and the longer of the two that keep none.
const ALL: &[u8] = &[0xFF, 0xFF, 0, 8, 0xFF, 0xFF, 0, 8];
const NONE: &[u8] = &[0, 0, 0, 8, 0, 0, 0, 8];

struct Case {
    name: String,
    sheet: Vec<u8>,
    pack: Vec<u8>,
    room: usize,
}

#[derive(Default)]
struct Cases(Vec<Case>);

impl Cases {
    fn add(&mut self, name: &str, sheet: &[u8], pack: &[u8], room: usize) {
        let (name, sheet, pack) = (name.into(), sheet.into(), pack.into());
        self.0.push(Case { name, sheet, pack, room });
    }

    /// A case that succeeds, in a buffer that the new pack fills.
    fn fits(&mut self, name: &str, sheet: &[u8], pack: &[u8]) {
        self.add(name, sheet, pack, size(sheet, pack));
    }

    /// A case that is refused whatever the room.
    fn refused(&mut self, name: &str, sheet: &[u8], pack: &[u8]) {
        self.add(name, sheet, pack, 40);
    }
}

/// The size of the new pack.
fn size(sheet: &[u8], pack: &[u8]) -> usize {
    scrub(sheet, pack, &mut vec![0; AMPLE]).expect("this case is to succeed")
}

/// Labels that differ in their twelfth byte.
fn label(letter: u8) -> [u8; 16] {
    [6, 14, 43, 52, 4, 1, 1, 13, 14, 9, 6, letter, 0, 0, 0, 0]
}

/// The label of Config (1), Sync (2) or CRC (3).
fn utility(which: u8) -> [u8; 16] {
    [6, 14, 43, 52, 4, 1, 1, 13, 4, 4, 2, which, 0, 0, 0, 0]
}

fn tag(number: u32) -> Vec<u8> {
    let mut bytes = [0; 4];
    let size = write_tag(&mut bytes, number);
    bytes[..size].to_vec()
}

/// A length in its shortest form.
fn length(len: usize) -> Vec<u8> {
    let mut bytes = [0; 5];
    let size = write_length(&mut bytes, len as u32);
    bytes[..size].to_vec()
}

/// A length of four bytes after 84.
fn longest(len: usize) -> Vec<u8> {
    [&[0x84], &(len as u32).to_be_bytes()[..]].concat()
}

/// Tag, shortest length, value.
fn p(number: u32, value: impl AsRef<[u8]>) -> Vec<u8> {
    let value = value.as_ref();
    [&tag(number), &length(value.len()), value].concat()
}

/// Tag, longest length, value.
fn long(number: u32, value: impl AsRef<[u8]>) -> Vec<u8> {
    let value = value.as_ref();
    [&tag(number), &longest(value.len()), value].concat()
}

fn sync(offset: i16, duration: u16, inside: &[Vec<u8>]) -> Vec<u8> {
    let numbers = [offset.to_be_bytes(), duration.to_be_bytes()].concat();
    p(2, [numbers, inside.concat()].concat())
}

fn config(offset: i16, mappings: &[(u32, [u8; 16])]) -> Vec<u8> {
    let entries = mappings.iter().flat_map(|(number, label)| [&tag(*number), &label[..]].concat());
    p(1, offset.to_be_bytes().into_iter().chain(entries).collect::<Vec<u8>>())
}

/// A Config of pack offset 0 that maps these tags to the labels of these letters.
fn maps(mappings: &[(u32, u8)]) -> Vec<u8> {
    config(0, &mappings.iter().map(|&(number, letter)| (number, label(letter))).collect::<Vec<_>>())
}

/// A pack without a CRC.
fn pack(payloads: &[Vec<u8>]) -> Vec<u8> {
    let value = payloads.concat();
    [&KEY[..], &length(value.len()), &value].concat()
}

/// A pack with its CRC.
fn sealed(payloads: &[Vec<u8>]) -> Vec<u8> {
    let mut pack = pack(&[payloads.concat(), p(3, [0; 4])]);
    let covered = pack.len() - 4;
    let sum = crc(&pack[..covered]).to_be_bytes();
    pack[covered..].copy_from_slice(&sum);
    pack
}

fn sheet(labels: &[[u8; 16]], numbers: &[u32]) -> Vec<u8> {
    let counts = [labels.len(), 8, numbers.len(), 8 + 16 * labels.len()];
    let counts = counts.iter().flat_map(|&n| (n as u16).to_be_bytes());
    let numbers = numbers.iter().flat_map(|n| n.to_be_bytes());
    counts.chain(labels.concat()).chain(numbers).collect()
}

/// A sheet of the labels of these letters, and numbers.
fn keep(letters: &[u8], numbers: &[u32]) -> Vec<u8> {
    sheet(&letters.iter().copied().map(label).collect::<Vec<_>>(), numbers)
}

/// Payloads of both sorts of name, alone and in a Sync, with a pack offset of -2 and a CRC.
fn mixed() -> Vec<u8> {
    let config = config(-2, &[(64, label(b'A')), (65, label(b'B'))]);
    let sync = sync(-3, 900, &[p(5, "in 5"), p(64, "in A"), p(7, "in 7")]);
    sealed(&[config, p(5, "5"), p(65, "B"), sync, p(64, "A"), p(6, "6")])
}

/// 01's own example, all, none, and what stays of a pack by its sheet.
fn plain(cases: &mut Cases) {
    let one = pack(&[p(5, [0xAA])]);
    cases.fits("01's example", ALL, &one);
    cases.fits("an empty pack", ALL, &pack(&[]));
    cases.fits("an empty pack, keep none", NONE, &pack(&[]));
    cases.fits("keep none", NONE, &one);
    cases.fits("a sheet of 0 bytes keeps none", &[], &one);
    cases.fits("of an empty pack too", &[], &pack(&[]));
    cases.fits("and of a pack with an offset, labels and a Sync", &[], &mixed());
    cases.fits("keep all", ALL, &mixed());
    cases.fits("keep none of a pack with an offset", NONE, &mixed());
    cases.fits("keep one number", &keep(b"", &[5]), &mixed());
    cases.fits("keep one label", &keep(b"A", &[]), &mixed());
    cases.fits("keep a label and a number", &keep(b"B", &[7]), &mixed());
    cases.fits("keep what is not there", &keep(b"C", &[9]), &mixed());
    let mut other = label(b'A');
    other[15] = 1;
    cases.fits("a label that differs in its last byte", &sheet(&[other], &[]), &mixed());
    let far = pack(&[p(MAX_TAG, "x"), p(4, "y"), p(MAX_TAG - 1, "z")]);
    cases.fits("the least and the greatest number", &keep(b"", &[4, MAX_TAG]), &far);
    cases.fits("values of no bytes", ALL, &pack(&[p(5, ""), p(300, "")]));
    let mut written = vec![0; size(ALL, &mixed())];
    scrub(ALL, &mixed(), &mut written).expect("there is room");
    cases.fits("scrubbed again", ALL, &written);
}

/// 01's shortcuts that give wrong packs, but for the one on PMD records.
fn shortcuts(cases: &mut Cases) {
    let old = pack(&[maps(&[(64, b'A'), (65, b'B'), (66, b'C')]), p(64, "A"), p(65, "B")]);
    cases.fits("old mappings are not copied", &keep(b"B", &[]), &old);
    cases.fits("nor is an unused one", ALL, &old);
    let sync = sync(1, 2, &[p(6, "gone"), p(5, "kept"), p(6, "gone")]);
    let nested = pack(&[p(5, "kept"), p(6, "gone"), sync, p(6, "gone"), p(5, "kept")]);
    cases.fits("the inside of a Sync is scrubbed", &keep(b"", &[5]), &nested);
    cases.fits("and the items after the first are", &keep(b"", &[6]), &nested);
    let mapped = pack(&[maps(&[(5, b'A')]), p(5, "A"), p(6, "6")]);
    cases.fits("a number does not keep a mapped tag", &keep(b"", &[5]), &mapped);
    cases.fits("nor beside a number that it keeps", &keep(b"", &[5, 6]), &mapped);
    cases.fits("the label of a mapped tag does", &keep(b"A", &[]), &mapped);
    let taken = pack(&[maps(&[(9, b'A')]), p(9, "A"), p(64, "64")]);
    cases.fits("a label gets no number that a kept payload has", ALL, &taken);
    cases.fits("but that of one that goes", &keep(b"A", &[]), &taken);
}

/// Which tag a label gets.
fn tags(cases: &mut Cases) {
    let abc = maps(&[(200, b'A'), (201, b'B'), (202, b'C')]);
    let labels = [p(202, "C"), p(201, "B")].concat();
    let three = [p(64, "64"), p(65, "65"), p(66, "66")].concat();
    let before = pack(&[abc.clone(), labels.clone(), three.clone()]);
    cases.fits("labels before 64, 65 and 66", ALL, &before);
    let after = pack(&[abc.clone(), three, labels.clone()]);
    cases.fits("labels after 64, 65 and 66", ALL, &after);
    cases.fits("labels around 64 and 66", &keep(b"BC", &[64, 66]), &after);
    let inner = pack(&[abc.clone(), labels.clone(), sync(0, 0, &[p(64, "64")])]);
    cases.fits("a number inside a Sync is taken too", ALL, &inner);
    let far = pack(&[abc.clone(), p(128, "x"), p(16_384, "y"), labels]);
    cases.fits("numbers of 128 and more are in nobody's way", ALL, &far);
    let order = sync(0, 1, &[p(202, "C"), p(200, "A")]);
    let order = pack(&[abc, order, p(201, "B"), p(200, "A")]);
    cases.fits("labels in order of first appearance", ALL, &order);
    cases.fits("first appearance among those that stay", &keep(b"AB", &[]), &order);
}

/// As many labels and numbers as may be.
fn many(cases: &mut Cases) {
    let letters: Vec<u8> = (0..32).collect();
    let mapped: Vec<_> = letters.iter().map(|&i| (128 + u32::from(i), label(i))).collect();
    let twice = (0..64).flat_map(|i| p(128 + (7 * i + 3) % 32, [i as u8])).collect();
    let twice = pack(&[config(7, &mapped), twice]);
    cases.fits("64 payloads of 32 labels", ALL, &twice);
    let half: Vec<u8> = letters.iter().copied().step_by(2).collect();
    cases.fits("the same, every other label", &keep(&half, &[]), &twice);
    let both =
        (0..32).flat_map(|i| [p(128 + i, [i as u8]), p(64 + i, [i as u8])].concat()).collect();
    let both = pack(&[config(0, &mapped), both]);
    let numbers: Vec<u32> = (64..96).collect();
    cases.fits("32 numbers push 32 labels up to 127", &keep(&letters, &numbers), &both);
    cases.fits("the same without the numbers", &keep(&letters, &[]), &both);
}

/// Syncs, Config and the pack offset, lengths.
fn frames(cases: &mut Cases) {
    let (first, pair) = ([p(6, "gone")], [p(5, "5"), p(6, "6")]);
    let syncs = pack(&[sync(1, 2, &first), sync(-1, 65_535, &pair), sync(3, 4, &first)]);
    cases.fits("empty Syncs vanish", &keep(b"", &[5]), &syncs);
    cases.fits("all Syncs vanish", &keep(b"", &[7]), &syncs);
    let alike = pack(&[sync(1, 2, &pair), sync(1, 2, &pair)]);
    cases.fits("two Syncs of the same numbers stay two", ALL, &alike);
    let unused = pack(&[maps(&[(9, b'A')]), p(5, "5")]);
    cases.fits("no Config for an offset of 0 and no label", ALL, &unused);
    let gone = pack(&[maps(&[(9, b'A')]), p(9, "A"), p(5, "5")]);
    cases.fits("no Config once its labels are gone", &keep(b"", &[5]), &gone);
    for offset in [1, -1, i16::MIN, i16::MAX] {
        let pack = pack(&[config(offset, &[(9, label(b'A'))]), p(9, "A")]);
        cases.fits(&format!("an offset of {offset} stays"), NONE, &pack);
        cases.fits("with a label", ALL, &pack);
    }
    for len in [127, 128, 255, 256] {
        let value = long(5, vec![len as u8; len]);
        let sync = long(2, [vec![0; 4], value.clone(), p(6, "gone")].concat());
        cases.fits(&format!("a length of {len} becomes shortest"), ALL, &pack(&[value]));
        cases.fits("and inside a Sync", &keep(b"", &[5]), &pack(&[sync]));
    }
    let dropping = |x: &[u8]| pack(&[p(5, "5"), p(6, x), sync(0, 0, &[p(6, x), p(5, "5")])]);
    cases.fits("whatever goes", &keep(b"", &[5]), &dropping(b"this"));
    cases.fits("leaves no trace", &keep(b"", &[5]), &dropping(&[1; 300]));
}

/// Buffers of every sort of room.
fn rooms(cases: &mut Cases) {
    let exact = size(ALL, &mixed());
    cases.add("no buffer", ALL, &mixed(), 0);
    cases.add("room for the value alone", ALL, &mixed(), exact - 17);
    cases.add("one byte short", ALL, &mixed(), exact - 1);
    cases.add("exact", ALL, &mixed(), exact);
    cases.add("one byte long", ALL, &mixed(), exact + 1);
    cases.add("much longer", ALL, &mixed(), exact + 1000);
}

/// Packs that are full. Key, the pack's length, and tag and length of its one payload take 23 bytes;
/// a CRC takes 6.
fn full(cases: &mut Cases) {
    let of = |size: usize| p(5, vec![0x55; size]);
    let brim = pack(&[of(MAX_PACK - 23)]);
    cases.add("a full pack, which its CRC pushes over", ALL, &brim, AMPLE);
    cases.add("one byte too many with a CRC", ALL, &pack(&[of(MAX_PACK - 28)]), AMPLE);
    cases.fits("a pack that its CRC fills", ALL, &pack(&[of(MAX_PACK - 29)]));
    let good = sealed(&[of(MAX_PACK - 29)]);
    cases.add("a full pack with its CRC", ALL, &good, AMPLE);
    cases.add("the same and one byte too few", ALL, &good, MAX_PACK - 1);
    let some = pack(&[of(MAX_PACK - 123), p(6, [0x66; 98])]);
    cases.add("a full pack of which some goes", &keep(b"", &[5]), &some, AMPLE);
    // two long forms, which take 6 bytes more than they need
    let value = [of(MAX_PACK - 31), long(6, "")].concat();
    let slack = [&KEY[..], &longest(value.len()), &value].concat();
    cases.fits("a full pack whose long lengths make way for its CRC", ALL, &slack);
}

/// Sheets that are malformed, and the largest that is not.
fn sheets(cases: &mut Cases) {
    let one = pack(&[p(5, [0xAA])]);
    let good = keep(b"A", &[5]);
    let with = |at: usize, byte: u8| [&good[..at], &[byte], &good[at + 1..]].concat();
    let letters: Vec<u8> = (0..33).collect();
    let numbers: Vec<u32> = (4..37).collect();
    cases.fits("a sheet of one label and one number", &good, &one);
    let largest = keep(&letters[..32], &numbers[..32]);
    cases.fits("a sheet of 32 labels and 32 numbers", &largest, &one);
    cases.refused("a sheet of one byte", &[0], &one);
    cases.refused("a sheet of seven bytes", &NONE[..7], &one);
    cases.refused("keep all of seven bytes", &ALL[..7], &one);
    cases.refused("keep all of nine bytes", &[ALL, &[0]].concat(), &one);
    cases.refused("keep all and a number", &[ALL, &[0, 0, 0, 5]].concat(), &one);
    cases.refused("keep all by the count of labels", &[&ALL[..4], &NONE[4..]].concat(), &one);
    cases.refused("keep all by the count of numbers", &[&NONE[..4], &ALL[4..]].concat(), &one);
    cases.refused("keep all with labels not from 8", &[&ALL[..3], &[9], &ALL[4..]].concat(), &one);
    cases.refused("keep all with numbers not from 8", &[&ALL[..7], &[9]].concat(), &one);
    cases.refused("33 labels", &keep(&letters, &[]), &one);
    cases.refused("33 numbers", &keep(b"", &numbers), &one);
    cases.refused("256 labels more", &with(0, 1), &one);
    cases.refused("256 numbers more", &with(4, 1), &one);
    cases.refused("labels not from 8", &with(3, 9), &one);
    cases.refused("numbers not after the labels", &with(7, 8), &one);
    cases.refused("a byte after", &[&good[..], &[0]].concat(), &one);
    cases.refused("a byte too few", &good[..good.len() - 1], &one);
    cases.refused("a label twice", &keep(b"ABA", &[]), &one);
    cases.refused("a number twice", &keep(b"", &[5, 6, 5]), &one);
    for which in 1..4 {
        let labels = [label(b'A'), utility(which)];
        cases.refused(&format!("utility label {which}"), &sheet(&labels, &[]), &one);
        cases.refused(&format!("number {which}"), &keep(b"", &[5, which.into()]), &one);
    }
    cases.refused("number 0", &keep(b"", &[0]), &one);
    cases.refused("a number above the greatest tag", &keep(b"", &[MAX_TAG + 1]), &one);
    cases.refused("a malformed sheet before a bad pack", &[0], b"");
    cases.add("a malformed sheet before want of room", &[0], &one, 0);
}

/// Each refusal of a pack, under a sheet that keeps nothing of it.
fn packs(cases: &mut Cases) {
    let mut after_key = |name: &str, rest: &[u8]| cases.refused(name, NONE, &[&KEY, rest].concat());
    after_key("BIG", &[0; MAX_PACK - 15]);
    after_key("SHORT of a length", &[]);
    after_key("SHORT of a value", &[3, 5, 1]);
    after_key("LENGTH of the pack", &[0x80]);
    after_key("TRAIL", &[0, 0]);
    cases.refused("SHORT of a key", NONE, &KEY[..15]);
    cases.refused("KEY", NONE, &[&KEY[..15], &[1, 0]].concat());
    let mut payloads =
        |name: &str, payloads: &[Vec<u8>]| cases.refused(name, NONE, &pack(payloads));
    let good = p(5, [0xAA]);
    payloads("LENGTH of a payload", &[good.clone(), vec![5, 0x85]]);
    payloads("TAG", &[good.clone(), vec![0x80, 0]]);
    payloads("CUT", &[good.clone(), vec![5, 2, 0]]);
    payloads("CUT inside a Sync", &[sync(0, 0, &[vec![5, 2, 0]]), good.clone()]);
    payloads("PLACE of a Config", &[good.clone(), maps(&[])]);
    payloads("PLACE of a CRC", &[p(3, [0; 4]), good.clone()]);
    payloads("PLACE inside a Sync", &[sync(0, 0, &[good.clone(), p(2, "")])]);
    payloads("COUNT of items", &vec![good.clone(); 65]);
    payloads("COUNT inside a Sync", &[sync(0, 0, &vec![good.clone(); 64])]);
    let mapped: Vec<_> = (0..33).map(|i| (64 + u32::from(i), i)).collect();
    payloads("COUNT of mappings", &[maps(&mapped)]);
    payloads("CONFIG of one byte", &[p(1, [0])]);
    payloads("CONFIG with a mapping cut off", &[p(1, [0, 0, 64, 1, 2, 3])]);
    payloads("MAP of a fixed tag", &[maps(&[(3, b'A')])]);
    payloads("MAP of a utility label", &[config(0, &[(64, utility(2))])]);
    payloads("MAP of a tag twice", &[maps(&[(64, b'A'), (64, b'B')])]);
    payloads("MAP of a label twice", &[maps(&[(64, b'A'), (65, b'A')])]);
    payloads("SYNC under four bytes", &[p(2, [0; 3])]);
    payloads("SYNC without a payload", &[sync(0, 0, &[])]);
    payloads("CRC of three bytes", &[good.clone(), p(3, [0; 3])]);
    payloads("CRC of a wrong value", &[good.clone(), p(3, [0; 4])]);
    cases.add("a bad pack before want of room", ALL, &pack(&[good, vec![0, 0]]), 0);
}

fn all() -> Vec<Case> {
    let mut cases = Cases::default();
    for add in [plain, shortcuts, tags, many, frames, rooms, full, sheets, packs] {
        add(&mut cases);
    }
    cases.0
}

fn bytes(case: &Case) -> Vec<u8> {
    let sizes = [case.name.len(), case.sheet.len(), case.pack.len(), case.room];
    let sizes: Vec<u8> = sizes.iter().flat_map(|&n| (n as u32).to_be_bytes()).collect();
    [&sizes, case.name.as_bytes(), &case.sheet, &case.pack].concat()
}

/// What the program prints for a case.
fn expected(case: &Case) -> String {
    let mut out = vec![0xEE; case.room];
    let (answer, end) = match scrub(&case.sheet, &case.pack, &mut out) {
        Ok(size) => (format!("done {size}"), size),
        Err(refusal) => (format!("refused {} {}", refusal.number, refusal.place), 0),
    };
    format!("{}: {answer}\n  {}\n", case.name, shown(&out, end))
}

/// A buffer whose first `end` bytes are a pack. The CRC of a pack with its own CRC, and of zeros
/// after it, is 0 whatever it holds, so the end of the pack stands beside the CRC of the whole.
fn shown(out: &[u8], end: usize) -> String {
    let size = out.len();
    if size <= SHORT {
        return format!("{size} bytes:{}", hex(out));
    }
    let front = hex(&out[..FRONT]);
    let last = hex(&out[end.saturating_sub(END)..end]);
    format!("{size} bytes, CRC {:08x}:{front} ..{last}", crc(out))
}

fn hex(bytes: &[u8]) -> String {
    bytes.iter().map(|byte| format!(" {byte:02x}")).collect()
}

fn made() -> Made {
    let cases = all();
    let input = cases.iter().flat_map(bytes).collect();
    let output: String = cases.iter().map(expected).collect();
    Made { program: "vectors_scrub", files: [("stdin", input), ("stdout", output.into_bytes())] }
}

fn main() -> std::io::Result<()> {
    made().write()
}

#[test]
fn the_tree_has_these_cases() {
    made().assert_in_tree();
}
