//! Makes the cases that `crates/vectors_text` runs, and by this implementation what it must print.
//!
//!     cargo run --release --offline --example vectors_text
//!
//! writes `data/cases` and `stdout` there; the tests at the end hold the files in the tree to them.
//!
//! In `data/cases` a case is its title line and its pack, each after its length in two bytes, most
//! significant first. In `stdout` it is its title line and the listing.

#[path = "../tests/common/mod.rs"]
mod common;
mod shared;

use common::{config, config_value, hex, k, pack, pack_with_crc, payload, sync, sync_at};
use common::{LABEL_A, LABEL_B};
use reference::listing;
use reference::pack::KEY;
use shared::Made;

type Case = (String, Vec<u8>);

/// Packs that are short enough to be written out: a title, a colon and what follows the key. A line
/// without a colon is a heading.
const WRITTEN_OUT: &str = "
the bench examples
    empty value: 00
    a longer length than needed: 04 05 81 01 AA
    one payload: 03 05 01 AA
    length 80: 80
    value cut off: 02 05 01
    tag 80: 02 80 00
    Sync of four bytes: 06 02 04 00 00 00 00
    Config second: 06 05 00 01 02 00 00
    the listing example: 08 02 06 FF FF 00 00 05 00
accepted
    all forms of a length: 84 00 00 00 14 05 00 05 81 00 05 82 00 00 05 83 00 00 00 05 84 00 00 00 00
    tags of one to four bytes: 13 04 00 7F 00 81 00 00 FF 7F 00 81 80 00 00 FF FF FF 7F 00
    pack offset 32,767: 04 01 02 7F FF
    pack offset -32,768: 04 01 02 80 00
    Sync with greatest duration: 09 02 07 80 00 FF FF 05 01 AA
SHORT
    key alone:
    pack length cut off: 82 00
    value past the end: 01
    greatest length: 84 FF FF FF FF
LENGTH
    length 85: 85
    length FF: FF 00
    payload with length 80: 02 05 80
    second payload with length 85: 04 05 00 06 85
    length 80 inside a Sync: 08 02 06 00 00 00 00 05 80
TRAIL
    byte after an empty value: 00 00
    byte after a payload: 03 05 01 AA 00
TAG
    tag 00: 01 00
    tag with a high bit in its fourth byte: 04 FF FF FF FF
    second payload with tag 80: 03 05 00 80
    tag 00 inside a Sync: 0A 02 08 00 00 00 00 05 00 00 00
CUT
    tag cut off: 01 81
    tag without a length: 01 05
    length bytes cut off: 03 05 82 00
    second value cut off: 05 05 01 AA 06 01
    inner value past its Sync: 0B 02 06 00 00 00 00 05 02 AA AA AA
    Sync past the pack: 07 02 06 00 00 00 00 05
PLACE
    Config after a Config: 08 01 02 00 00 01 02 00 00
    CRC with a payload after it: 08 03 04 00 00 00 00 05 00
    Config inside a Sync: 0A 02 08 00 00 00 00 01 02 00 00
    Sync inside a Sync: 0E 02 0C 00 00 00 00 02 06 00 00 00 00 05 00
    CRC inside a Sync: 0C 02 0A 00 00 00 00 03 04 00 00 00 00
    CRC second inside a Sync: 0C 02 0A 00 00 00 00 05 00 03 02 00 00
CONFIG
    Config of no bytes: 02 01 00
    Config of one byte: 03 01 01 00
    mapped tag cut off: 05 01 03 00 00 81
    label of no bytes: 05 01 03 00 00 05
    label of 15 bytes: 14 01 12 00 00 05 06 0E 2B 34 04 01 01 0D 04 04 02 06 00 00 00
TAG in Config
    mapped tag 00: 05 01 03 00 00 00
    mapped tag 80: 06 01 04 00 00 80 01
SYNC
    Sync of no bytes: 02 02 00
    Sync of three bytes: 07 05 00 02 03 00 00 00
    second Sync of four bytes: 0E 02 06 00 00 00 00 05 00 02 04 00 00 00 00
CRC
    CRC of no bytes: 02 03 00
    CRC of three bytes: 05 03 03 00 00 00
    CRC of five bytes after a payload: 09 05 00 03 05 00 00 00 00 00
    CRC of zeros: 06 03 04 00 00 00 00
two faults, of which the first in the order counts
    LENGTH before SHORT: 85 00 00
    TRAIL before TAG: 01 00 00
    TAG before CUT: 01 80
    LENGTH before CUT: 02 01 80
    CUT before PLACE: 05 05 00 01 02 00
    PLACE of a CRC before its length: 07 03 03 00 00 00 05 00
    PLACE of a CRC before a bad tag after it: 07 03 04 00 00 00 00 80
    PLACE of a second Config before its size: 04 05 00 01 00
    PLACE inside before a CRC's length: 08 02 06 00 00 00 00 03 00
    SYNC before a bad tag after it: 03 02 00 80
    inner CUT before a bad tag after the Sync: 09 02 06 00 00 00 00 05 01 80
    first of two bad payloads: 04 05 80 80 00
    CONFIG before a bad tag after it: 04 01 01 00 80
    bad mapped tag before its label is missed: 06 01 04 00 00 80 00
    missed label before the mapped tag is judged: 06 01 04 00 00 01 06
";

fn case(title: &str, pack: Vec<u8>) -> Case {
    (format!("# {title}\n"), pack)
}

/// The value of a Config that maps `count` tags from 64 on to labels which differ in one byte.
fn mappings(count: u8) -> Vec<u8> {
    let label = |i| format!("060E2B340401010D0E0906{i:02X}00000000");
    let labels: Vec<String> = (0..count).map(label).collect();
    let pairs: Vec<(u32, &str)> = (64..).zip(labels.iter().map(String::as_str)).collect();
    config_value(0, &pairs)
}

/// A pack of so many bytes with one payload.
fn sized(size: usize) -> Vec<u8> {
    pack(&payload(5, &vec![0; size - 16 - 3 - 4]))
}

/// `pack` with one bit changed, counted from its end.
fn flipped(mut pack: Vec<u8>, from_end: usize, bit: u8) -> Vec<u8> {
    let at = pack.len() - from_end;
    pack[at] ^= bit;
    pack
}

fn openings() -> Vec<Case> {
    let mut big_and_wrong = sized(32_769);
    big_and_wrong[0] = 0;
    vec![
        case("no bytes", vec![]),
        case("15 bytes of the key", KEY[..15].to_vec()),
        case("15 other bytes", vec![1; 15]),
        case("another first byte of the key", flipped(k("00"), 17, 1)),
        case("another last byte of the key", flipped(k("00"), 2, 0x80)),
        case("KEY before LENGTH", flipped(k("80"), 9, 1)),
        case("32,768 bytes", sized(32_768)),
        case("32,769 bytes", sized(32_769)),
        case("BIG before KEY", big_and_wrong),
    ]
}

fn labels_and_syncs() -> Vec<Case> {
    let inner = [payload(7, b""), payload(8, b"x"), payload(300, b"yz")];
    let items = [
        config(-2, &[(300, LABEL_A), (7, LABEL_B)]),
        payload(300, b"abc"),
        sync(&inner),
        payload(7, b"d"),
    ]
    .concat();
    let whole = pack_with_crc(&items);
    let unused = [config(1, &[(9, LABEL_A)]), payload(10, b"")].concat();
    vec![
        case("labels, a Sync and a CRC", whole.clone()),
        case("the same without the CRC", pack(&items)),
        case("one bit of the CRC's first byte changed", flipped(whole.clone(), 4, 0x80)),
        case("one bit of the CRC's last byte changed", flipped(whole.clone(), 1, 1)),
        case("one bit of the value before it changed", flipped(whole, 7, 1)),
        case("CRC alone", pack_with_crc(&[])),
        case("unused mapping", pack(&unused)),
        case(
            "tag of four bytes mapped",
            pack(&[config(0, &[(268_435_455, LABEL_B)]), payload(268_435_455, b"a")].concat()),
        ),
    ]
}

/// Total offsets at both ends of their range, and where an offset must not be carried on.
fn total_offsets() -> Vec<Case> {
    let two = || [payload(5, b""), payload(64, b"x")];
    let around = |of_pack, of_sync| {
        let items = [two().concat(), sync_at(of_sync, &two()), two().concat()];
        pack_with_crc(&[config(of_pack, &[(64, LABEL_A)]), items.concat()].concat())
    };
    let syncs = [sync_at(480, &two()), two().concat(), sync_at(-960, &two()), sync_at(0, &two())];
    let syncs = [syncs.concat(), two().concat()].concat();
    vec![
        case("pack offset and Sync offset -32,768", around(i16::MIN, i16::MIN)),
        case("pack offset -32,768, Sync offset 32,767", around(i16::MIN, i16::MAX)),
        case("pack offset 32,767, Sync offset -32,768", around(i16::MAX, i16::MIN)),
        case("pack offset and Sync offset 32,767", around(i16::MAX, i16::MAX)),
        case("pack offset 1, Sync offset -1", around(1, -1)),
        case("no pack offset, three Syncs", pack(&syncs)),
        case("pack offset -48, three Syncs", pack(&[config(-48, &[]), syncs].concat())),
    ]
}

fn mapped() -> Vec<Case> {
    let one = |tag, label: &str| pack(&config(0, &[(tag, label)]));
    let two = |tag, label: &str| pack(&config(0, &[(4, LABEL_A), (tag, label)]));
    let then = |value: Vec<u8>, more: &str| pack(&payload(1, &[value, hex(more)].concat()));
    let first = || config_value(0, &[(4, LABEL_A)]);
    let labelled: Vec<u8> = (64..96).flat_map(|tag| payload(tag, b"v").repeat(2)).collect();
    let bad_after = [config(0, &[(1, LABEL_A)]), vec![0x80]].concat();
    vec![
        case("mapped tag 1", one(1, LABEL_A)),
        case("mapped tag 2", one(2, LABEL_A)),
        case("mapped tag 3", one(3, LABEL_A)),
        case("label of Config", two(5, "060E2B340401010D0404020100000000")),
        case("label of Sync", two(5, "060E2B340401010D0404020200000000")),
        case("label of CRC", two(5, "060E2B340401010D0404020300000000")),
        case("tag mapped twice", two(4, LABEL_B)),
        case("label mapped twice", two(5, LABEL_A)),
        case("second tag cut off", then(first(), "81")),
        case("second label cut off", then(first(), "05 06 0E")),
        case("second tag bad", then(first(), "FF FF FF FF")),
        case("MAP before a bad tag after the Config", pack(&bad_after)),
        case("32 mappings, 64 payloads", pack(&[payload(1, &mappings(32)), labelled].concat())),
        case("33 mappings", pack(&payload(1, &mappings(33)))),
        case("COUNT of a mapping before its bad tag", then(mappings(32), "80")),
        case("COUNT of a mapping before its tag is cut off", then(mappings(32), "81")),
    ]
}

fn counts() -> Vec<Case> {
    let one = payload(5, b"");
    let inside = |count| sync(&vec![one.clone(); count]);
    let full = |more: &[u8]| pack(&[&one.repeat(64), more].concat());
    let configured = [config(3, &[]), one.repeat(64)].concat();
    let forbidden = [one.repeat(63), sync(&[vec![3, 0]])].concat();
    vec![
        case("64 payloads", full(&[])),
        case("64 payloads, Config and CRC", pack_with_crc(&configured)),
        case("65 payloads", full(&one)),
        case("Sync of 63 payloads", pack(&inside(63))),
        case("Sync of 64 payloads", pack(&inside(64))),
        case("32 Syncs of one payload", pack(&inside(1).repeat(32))),
        case("33 Syncs of one payload", pack(&inside(1).repeat(33))),
        case("64 payloads and a Sync", full(&inside(1))),
        case("63 payloads and a Sync", pack(&[one.repeat(63), inside(1)].concat())),
        case("COUNT before the Sync's size", full(&[2, 0])),
        case("CUT before COUNT", full(&[5, 1])),
        case("PLACE before COUNT", full(&[1, 0])),
        case("CRC's length after 64 payloads", full(&[3, 1, 0])),
        case("PLACE before COUNT inside a Sync", pack(&forbidden)),
    ]
}

fn cases() -> Vec<Case> {
    let written_out = WRITTEN_OUT.lines().filter_map(|line| line.split_once(':'));
    let written_out = written_out.map(|(title, text)| case(title.trim(), k(text)));
    written_out
        .chain(openings())
        .chain(labels_and_syncs())
        .chain(total_offsets())
        .chain(mapped())
        .chain(counts())
        .collect()
}

fn block(bytes: &[u8]) -> Vec<u8> {
    let size = u16::try_from(bytes.len()).expect("two bytes hold the length");
    [&size.to_be_bytes(), bytes].concat()
}

fn made() -> Made {
    let cases = cases();
    let data = cases
        .iter()
        .flat_map(|(title, pack)| [block(title.as_bytes()), block(pack)].concat())
        .collect();
    let text: String =
        cases.iter().map(|(title, pack)| format!("{title}{}", listing(pack))).collect();
    Made { program: "vectors_text", files: [("data/cases", data), ("stdout", text.into_bytes())] }
}

fn main() -> std::io::Result<()> {
    made().write()
}

#[test]
fn the_tree_has_these_cases() {
    made().assert_in_tree();
}

#[test]
fn every_refusal_of_a_pack_is_there() {
    let texts: Vec<String> = cases().iter().map(|(_, pack)| listing(pack)).collect();
    for number in 1..=13 {
        let start = format!("refused {number} ");
        assert!(
            texts.iter().any(|text| text.starts_with(&start)),
            "no case is refused as {number}"
        );
    }
}
