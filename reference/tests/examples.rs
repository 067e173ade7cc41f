//! The bench examples, every refusal at its place, and the corners that were decided.

mod common;

use common::{config, hex, k, pack, pack_with_crc, payload, sync, sync_at, LABEL_A, LABEL_B};
use reference::bits::fetch;
use reference::crc::crc;
use reference::numbers::{length_size, read_length, read_tag, tag_size, write_length, write_tag};
use reference::numbers::{Fault, MAX_TAG};
use reference::objects::FIELDS;
use reference::pack::KEY;
use reference::{check, gain, listing, lookup, pmd_read, pmd_write, read, rows};
use reference::{objects_apply, objects_clear, scrub, sheet_check};
use reference::{Found, Gain, Item, LookupRefusal, Mark, Name, Object, Payload, Reason, Refusal};

/// The sheet that keeps all.
const ALL: &[u8] = &[0xFF, 0xFF, 0, 8, 0xFF, 0xFF, 0, 8];

fn sheet(labels: &[&str], numbers: &[u32]) -> Vec<u8> {
    let counts = [labels.len(), 8, numbers.len(), 8 + 16 * labels.len()];
    let counts = counts.iter().flat_map(|&n| (n as u16).to_be_bytes());
    let labels = labels.iter().flat_map(|label| hex(label));
    let numbers = numbers.iter().flat_map(|n| n.to_be_bytes());
    counts.chain(labels).chain(numbers).collect()
}

/// Expects the same refusal from the check, the reading and the rows, and from a look-up that has
/// the pack as main, as backup of a main that carries the label, and as both.
#[track_caller]
fn refused(pack: &[u8], reason: Reason, place: usize) {
    let refusal = reason.at(place);
    assert_eq!(check(pack), Err(refusal));
    assert_eq!(read(pack).err(), Some(refusal));
    assert_eq!(rows(pack, &mut [0; 520]), Err(refusal));
    let carries = carrying(&[payload(64, b"a")]);
    lookup_refused(pack, &carries, LABEL_A, refusal, Some(Mark::Main));
    lookup_refused(&carries, pack, LABEL_A, refusal, Some(Mark::Backup));
    lookup_refused(pack, pack, LABEL_A, refusal, Some(Mark::Main));
    lookup_refused(pack, &k("80"), "", refusal, Some(Mark::Main));
}

/// A pack that maps tag 64 to label A and holds these.
fn carrying(items: &[Vec<u8>]) -> Vec<u8> {
    pack(&[config(0, &[(64, LABEL_A)]), items.concat()].concat())
}

/// Where the first payload of a pack as [`carrying`] makes it stands: after key, length and Config.
const FIRST: usize = 16 + 1 + 21;

#[track_caller]
fn lookup_refused(main: &[u8], backup: &[u8], label: &str, refusal: Refusal, mark: Option<Mark>) {
    let expected = LookupRefusal { refusal, mark };
    assert_eq!(lookup(main, backup, &hex(label)), Err(expected));
}

/// Expects a label that neither pack carries, whichever of them is main.
#[track_caller]
fn absent(one: &[u8], other: &[u8], label: &str) {
    lookup_refused(one, other, label, Reason::Absent.at(0), None);
    lookup_refused(other, one, label, Reason::Absent.at(0), None);
}

/// Expects label A's value at this place of the pack that is marked, and not a copy of it, with the
/// total offset that a reading of that pack has for it.
#[track_caller]
fn found(main: &[u8], backup: &[u8], mark: Mark, start: usize, value: &[u8]) {
    let pack = if mark == Mark::Main { main } else { backup };
    let there = payloads(pack);
    let there = there.iter().find(|p| usize::from(p.value_start) == start);
    let total = there.unwrap().total;
    let found = lookup(main, backup, &hex(LABEL_A)).unwrap();
    let expected = Found {
        mark,
        start,
        value,
        total,
    };
    assert_eq!(found, expected);
    assert!(std::ptr::eq(found.value, &pack[start..][..value.len()]));
}

/// The payloads of a pack in byte order, those inside Syncs too.
fn payloads(pack: &[u8]) -> Vec<Payload> {
    let reading = read(pack).unwrap();
    let items = reading.items().iter();
    items
        .filter_map(|item| match item {
            Item::Payload(payload) => Some(*payload),
            Item::Sync(_) => None,
        })
        .collect()
}

/// Expects these total offsets of a pack's payloads in byte order, in its reading, rows and listing.
#[track_caller]
fn totals(pack: &[u8], expected: &[i32]) {
    let read: Vec<i32> = payloads(pack).iter().map(|payload| payload.total).collect();
    assert_eq!(read, expected);
    let mut table = [77; 520];
    let size = rows(pack, &mut table).unwrap();
    let told = table[8..size].chunks(8).filter(|row| row[0] != 1);
    let told: Vec<i32> = told.map(|row| row[6] as i32).collect();
    assert_eq!(told, expected);
    let text = listing(pack);
    let lines = text
        .lines()
        .skip(1)
        .filter(|line| !line.starts_with("sync"));
    let printed: Vec<&str> = lines.map(|line| line.rsplit_once(' ').unwrap().1).collect();
    let expected: Vec<String> = expected.iter().map(i32::to_string).collect();
    assert_eq!(printed, expected);
}

/// Expects a sheet to be refused by a check, and by a scrub of an empty pack.
#[track_caller]
fn sheet_refused(sheet: &[u8]) {
    assert_eq!(sheet_check(sheet), Err(Reason::Sheet.at(0)));
    scrub_refused(sheet, &k("00"), 40, Reason::Sheet, 0);
}

/// Expects a refusal of a scrub that leaves the buffer alone.
#[track_caller]
fn scrub_refused(sheet: &[u8], pack: &[u8], room: usize, reason: Reason, place: usize) {
    let mut out = vec![0xA5; room];
    assert_eq!(scrub(sheet, pack, &mut out), Err(reason.at(place)));
    assert!(out.iter().all(|&byte| byte == 0xA5));
}

/// Expects a scrub to write the value (with a CRC after it) and zeros.
#[track_caller]
fn scrubbed(sheet: &[u8], pack: &[u8], value: &[u8]) {
    let expected = pack_with_crc(value);
    let mut out = vec![0xA5; expected.len() + 70];
    assert_eq!(scrub(sheet, pack, &mut out), Ok(expected.len()));
    assert_eq!(out[..expected.len()], expected);
    assert!(out[expected.len()..].iter().all(|&byte| byte == 0));
    let mut exact = vec![0xA5; expected.len()];
    assert_eq!(scrub(sheet, pack, &mut exact), Ok(expected.len()));
    assert_eq!(exact, expected);
    scrub_refused(sheet, pack, expected.len() - 1, Reason::NoRoom, 0);
}

#[track_caller]
fn pmd_reads(kind: u32, value: &str, numbers: &[u32]) {
    let value = hex(value);
    let mut got = vec![77; numbers.len() + 2];
    assert_eq!(pmd_read(kind, &value, &mut got), Ok(numbers.len()));
    assert_eq!(got, [numbers, &[77, 77]].concat());
    let mut out = vec![0xA5; value.len() + 2];
    assert_eq!(pmd_write(kind, numbers, &mut out), Ok(value.len()));
    assert_eq!(out, [&value[..], &[0xA5, 0xA5]].concat());
}

#[track_caller]
fn pmd_read_refused(kind: u32, value: &[u8], reason: Reason, place: usize) {
    let mut numbers = [77; 20];
    let got = pmd_read(kind, value, &mut numbers);
    assert_eq!(got, Err(reason.at(place)));
    assert_eq!(numbers, [77; 20]);
}

#[track_caller]
fn pmd_write_refused(kind: u32, numbers: &[u32], reason: Reason, place: usize) {
    let mut out = [0xA5; 20];
    assert_eq!(pmd_write(kind, numbers, &mut out), Err(reason.at(place)));
    assert_eq!(out, [0xA5; 20]);
}

#[test]
fn bench_packs() {
    assert_eq!(listing(&k("00")), "pack 0 0 none\n");
    for bytes in ["04 05 81 01 AA", "03 05 01 AA"] {
        let pack = k(bytes);
        let reading = read(&pack).unwrap();
        let [Item::Payload(payload)] = reading.items() else {
            panic!("one payload");
        };
        assert_eq!(payload.name, Name::Number(5));
        assert_eq!(reading.value(payload), [0xAA]);
    }
    refused(&k("80"), Reason::Length, 16);
    refused(&k("02 05 01"), Reason::Cut, 17);
    refused(&k("02 80 00"), Reason::Tag, 17);
    refused(&k("06 02 04 00 00 00 00"), Reason::Sync, 17);
    refused(&k("06 05 00 01 02 00 00"), Reason::Place, 19);
}

#[test]
fn bench_values() {
    pmd_reads(4, "04 00 40 18 03 FF", &[1, 1, 1, 512, 1023]);
    pmd_reads(6, "14 10 00", &[1, 65, 0]);
    pmd_read_refused(6, &hex("14 10 01"), Reason::Pad, 20);
    pmd_reads(1, "00 80 AE 00 00 00", &[1, 0, 5568, 0]);
    pmd_reads(7, "07 00", &[7, 0, 0]);
    pmd_reads(7, "01 98 14 24 00 06", &[1, 1, 3, 5, 9, 0, 3, 0]);
    pmd_reads(7, "01 56 FF F0 00 07 F8", &[1, 0, 1, 5, 23, 511, 0, 0, 255]);
    pmd_read_refused(7, &hex("01 B0 00 00"), Reason::Field, 9);
    pmd_read_refused(7, &hex("01 47 00 00 00"), Reason::Field, 14);
}

#[test]
fn gains() {
    assert_eq!(gain(0), Ok(Gain::Muted));
    for number in 1..=63 {
        assert_eq!(gain(number), Ok(Gain::HalfDecibels(number as i32 - 51)));
    }
    assert_eq!(gain(1), Ok(Gain::HalfDecibels(-50)));
    assert_eq!(gain(50), Ok(Gain::HalfDecibels(-1)));
    assert_eq!(gain(51), Ok(Gain::HalfDecibels(0)));
    assert_eq!(gain(63), Ok(Gain::HalfDecibels(12)));
    for number in [64, 255, 1 << 16, u32::MAX] {
        assert_eq!(gain(number), Err(Reason::Field.at(0)));
    }
}

#[test]
fn bench_scrub_and_listing() {
    let expected = k("09 05 01 AA 03 04");
    let mut out = [0xA5; 40];
    assert_eq!(scrub(ALL, &k("03 05 01 AA"), &mut out), Ok(26));
    assert_eq!(out[..22], expected);
    assert_eq!(out[22..26], crc(&expected).to_be_bytes());
    assert_eq!(out[26..], [0; 14]);
    let text = "pack 0 2 none\nsync 17 -1 0 1\nnumber 23 5 0 -1\n";
    assert_eq!(listing(&k("08 02 06 FF FF 00 00 05 00")), text);
    assert_eq!(listing(&k("80")), "refused 4 16\n");
}

#[test]
fn listing_of_labels_and_a_crc() {
    let items = [
        config(-2, &[(300, LABEL_A), (7, LABEL_B)]),
        payload(300, b"abc"),
        sync(&[payload(7, b""), payload(8, b"x")]),
    ];
    let pack = pack_with_crc(&items.concat());
    let lines = [
        "pack -2 4 good".to_string(),
        format!("label 56 {LABEL_A} 3 -2"),
        "sync 62 1 2 2".to_string(),
        format!("label 68 {LABEL_B} 0 -1"),
        "number 70 8 1 -1\n".to_string(),
    ];
    // The pack's length has one byte, the Config 39: the first payload stands at 17 + 39.
    assert_eq!(listing(&pack), lines.join("\n"));
    assert_eq!(read(&pack).unwrap().mapping_count(), 2);
}

#[test]
fn rows_of_a_reading() {
    let items = [
        config(-2, &[(300, LABEL_A)]),
        payload(300, b"abc"),
        sync(&[payload(8, b"x")]),
    ];
    let pack = pack_with_crc(&items.concat());
    let [minus_1, minus_2] = [-1_i32, -2].map(|number| number as u32);
    let expected = [
        [minus_2, 1, 3, 0, 0, 0, 0, 0],
        [0, 39, 1, 23, 42, 3, minus_2, 0],
        [1, 45, 2, 1, 47, 7, 1, 2],
        [2, 51, 0, 8, 53, 1, minus_1, 0],
    ];
    let mut table = [77; 40];
    assert_eq!(rows(&pack, &mut table), Ok(32));
    assert_eq!(table[..32], expected.concat());
    assert_eq!(table[32..], [77; 8]);
    let mut table = [77; 31];
    assert_eq!(rows(&pack, &mut table), Err(Reason::NoRoom.at(0)));
    assert_eq!(table, [77; 31]);
}

/// Both offsets at both ends of their range: the sum is exact, and outside the Sync the pack offset
/// stands alone.
#[test]
fn total_offsets_at_the_ends() {
    let ends = [
        (i16::MIN, i16::MIN, -65_536),
        (i16::MIN, i16::MAX, -1),
        (i16::MAX, i16::MIN, -1),
        (i16::MAX, i16::MAX, 65_534),
    ];
    for (of_pack, of_sync, total) in ends {
        let alone = i32::from(of_pack);
        let labelled = || payload(64, b"v");
        let inside = sync_at(of_sync, &[payload(5, b""), labelled()]);
        let mapped = config(of_pack, &[(64, LABEL_A)]);
        let first_inside = pack(&[mapped.clone(), inside.clone(), labelled()].concat());
        totals(&first_inside, &[total, total, alone]);
        looked_up(&first_inside, total);
        let first_outside = pack_with_crc(&[mapped, labelled(), inside.clone()].concat());
        totals(&first_outside, &[alone, total, total]);
        looked_up(&first_outside, alone);
        // Without a Config the pack offset is 0.
        let bare = pack(&[payload(5, b""), inside].concat());
        totals(&bare, &[0, of_sync.into(), of_sync.into()]);
    }
}

/// Expects this total offset of label A's first payload, with the pack as main and as backup of one
/// that has offsets of its own.
#[track_caller]
fn looked_up(one: &[u8], total: i32) {
    let other = [config(77, &[]), sync_at(7, &[payload(64, b"other")])];
    let other = pack(&other.concat());
    for (main, backup) in [(one, &other[..]), (&other, one), (one, one)] {
        let found = lookup(main, backup, &hex(LABEL_A)).unwrap();
        assert_eq!(found.total, total);
    }
}

/// No Sync's offset is carried on: not to a payload after it, and not into the next Sync.
#[test]
fn total_offsets_among_several_syncs() {
    let one = || payload(5, b"x");
    let items = [
        one(),
        sync_at(7, &[one(), one()]),
        one(),
        sync_at(i16::MIN, &[one()]),
        sync_at(0, &[one()]),
        sync_at(i16::MAX, &[one(), payload(300, &[0; 200])]),
        one(),
    ];
    let expected = [0, 7, 7, 0, -32_768, 0, 32_767, 32_767, 0];
    totals(&pack(&items.concat()), &expected);
    for offset in [-100, -1, 0, 1, i16::MIN, i16::MAX] {
        let with = pack_with_crc(&[config(offset, &[]), items.concat()].concat());
        totals(&with, &expected.map(|total| total + i32::from(offset)));
    }
}

/// A label's first payload in the second of two Syncs, and in a backup of another pack offset.
#[test]
fn total_offset_of_what_is_looked_up() {
    let mapped = |offset| config(offset, &[(64, LABEL_A)]);
    let two = [
        sync_at(1000, &[payload(5, b"")]),
        sync_at(-20, &[payload(6, b""), payload(64, b"v")]),
        payload(64, b"w"),
    ];
    let later = pack(&[mapped(3), two.concat()].concat());
    looked_up(&later, -17);
    let unused = pack(&[mapped(500), sync_at(40, &[payload(5, b"")])].concat());
    let got = lookup(&unused, &later, &hex(LABEL_A)).unwrap();
    assert_eq!((got.mark, got.total), (Mark::Backup, -17));
}

/// A scrub leaves offsets as they are, and so the total offset of all that it keeps.
#[test]
fn total_offsets_of_what_is_kept() {
    let items = [
        config(i16::MIN, &[(10, LABEL_A)]),
        sync_at(9, &[payload(6, b"gone")]),
        sync_at(-9, &[payload(6, b"gone"), payload(10, b"kept")]),
        payload(10, b"kept"),
    ];
    let mut out = [0; 200];
    let size = scrub(&sheet(&[LABEL_A], &[]), &pack(&items.concat()), &mut out).unwrap();
    totals(&out[..size], &[-32_777, -32_768]);
}

#[test]
fn tags() {
    let examples = [
        (1, "01"),
        (127, "7F"),
        (128, "81 00"),
        (16_383, "FF 7F"),
        (16_384, "81 80 00"),
        (MAX_TAG, "FF FF FF 7F"),
    ];
    for (tag, bytes) in examples {
        let bytes = hex(bytes);
        assert_eq!(read_tag(&bytes, 0), Ok((tag, bytes.len())));
        assert_eq!(tag_size(tag), bytes.len());
        let mut out = [0; 4];
        let size = write_tag(&mut out, tag);
        assert_eq!(out[..size], bytes);
    }
    for bad in ["00", "80", "80 01", "81 80 80 80", "81 80 80 80 00"] {
        assert_eq!(read_tag(&hex(bad), 0), Err(Fault::Bad));
    }
    for cut in ["", "81", "81 80", "81 80 80"] {
        assert_eq!(read_tag(&hex(cut), 0), Err(Fault::Cut));
    }
}

#[test]
fn lengths() {
    let examples = [
        (0, "00"),
        (127, "7F"),
        (128, "81 80"),
        (255, "81 FF"),
        (256, "82 01 00"),
        (65_535, "82 FF FF"),
        (65_536, "83 01 00 00"),
        (1 << 24, "84 01 00 00 00"),
        (u32::MAX, "84 FF FF FF FF"),
    ];
    for (length, bytes) in examples {
        let bytes = hex(bytes);
        assert_eq!(read_length(&bytes, 0), Ok((length, bytes.len())));
        assert_eq!(length_size(length), bytes.len());
        let mut out = [0; 5];
        let size = write_length(&mut out, length);
        assert_eq!(out[..size], bytes);
    }
    assert_eq!(read_length(&hex("84 00 00 00 05"), 0), Ok((5, 5)));
    for bad in ["80", "85", "FF", "85 00 00 00 00 01"] {
        assert_eq!(read_length(&hex(bad), 0), Err(Fault::Bad));
    }
    for cut in ["", "81", "82 01", "84 00 00 00"] {
        assert_eq!(read_length(&hex(cut), 0), Err(Fault::Cut));
    }
}

/// The fields that `crates/vectors_numbers` prints: every width at every bit of a byte, at the
/// start of the bytes and at their very end, as they are fetched here.
#[test]
fn fields_of_every_width_at_every_bit() {
    let bytes = [0xA5, 0xC3, 0x0F, 0x81, 0x5E, 0x72];
    let mut expected = String::new();
    for width in 0..16_usize {
        for bit in 0..8 {
            let covering = (bit + width).div_ceil(8);
            for at in [bit, 8 * (bytes.len() - covering) + bit] {
                let number = fetch(&bytes, at, width as u32);
                let line = format!("field a5 c3 0f 81 5e 72, {width} bits from {at}: {number}\n");
                expected.push_str(&line);
            }
        }
    }
    let printed = include_str!("../../crates/vectors_numbers/stdout");
    assert!(printed.ends_with(&expected));
}

#[test]
fn crc_of_published_and_serial() {
    assert_eq!(crc(b""), 0xFFFF_FFFF);
    assert_eq!(crc(b"123456789"), 0x0376_E6E7);
    let bytes: Vec<u8> = (0..100_u32).map(|i| (i * i + 7 * i) as u8).collect();
    for size in 0..=bytes.len() {
        assert_eq!(crc(&bytes[..size]), serial_crc(&bytes[..size]));
    }
}

fn serial_crc(bytes: &[u8]) -> u32 {
    let mut crc = u32::MAX;
    for byte in bytes {
        crc ^= u32::from(*byte) << 24;
        for _ in 0..8 {
            let carry = crc >> 31;
            crc = (crc << 1) ^ (carry * 0x04C1_1DB7);
        }
    }
    crc
}

#[test]
fn refusals_of_the_opening() {
    refused(&vec![0; 32_769], Reason::Big, 0);
    refused(&[], Reason::Short, 0);
    refused(&KEY[..15], Reason::Short, 0);
    // Below 16 bytes the key is not looked at.
    refused(&[0; 15], Reason::Short, 0);
    refused(&KEY, Reason::Short, 0);
    for cut in ["81", "82 00", "84 00 00 00", "01", "81 05 05 00"] {
        refused(&k(cut), Reason::Short, 0);
    }
    for byte in 0..16 {
        let mut wrong = k("00");
        wrong[byte] ^= 1;
        refused(&wrong, Reason::Key, 0);
    }
    for bad in ["80", "85", "FF", "85 00 00 00 00 00"] {
        refused(&k(bad), Reason::Length, 16);
    }
    refused(&k("00 00"), Reason::Trail, 0);
    refused(&k("02 05 00 05"), Reason::Trail, 0);
    refused(&k("84 FF FF FF FF"), Reason::Short, 0);
    assert_eq!(check(&k("84 00 00 00 02 05 00")), Ok(1));
}

#[test]
fn a_pack_of_the_greatest_size() {
    let full = pack(&payload(5, &vec![0xAA; 32_745]));
    assert_eq!(full.len(), 32_768);
    assert_eq!(check(&full), Ok(1));
    // Its CRC would push it over, whatever the room.
    scrub_refused(ALL, &full, 40_000, Reason::NoRoom, 0);
    let fits = pack(&payload(5, &vec![0xAA; 32_739]));
    let mut out = vec![0xA5; 32_768];
    assert_eq!(scrub(ALL, &fits, &mut out), Ok(32_768));
    assert_eq!(listing(&out), "pack 0 1 good\nnumber 19 5 32739 0\n");
    let longer = pack(&payload(5, &vec![0xAA; 32_740]));
    scrub_refused(ALL, &longer, 40_000, Reason::NoRoom, 0);
}

#[test]
fn refusals_of_tags_lengths_and_ends() {
    for bad in ["01 00", "01 80", "02 80 05", "04 81 80 80 80"] {
        refused(&k(bad), Reason::Tag, 17);
    }
    for bad in ["02 05 80", "02 05 85", "02 05 FF", "03 81 00 80"] {
        refused(&k(bad), Reason::Length, 17);
    }
    let cut = [
        "01 05",
        "01 81",
        "03 81 80 80",
        "02 05 81",
        "04 05 84 00 00",
    ];
    for bad in cut.iter().chain(&["03 05 02 AA", "06 05 84 FF FF FF FF"]) {
        refused(&k(bad), Reason::Cut, 17);
    }
    // The second payload at fault.
    refused(&k("04 05 01 AA 00"), Reason::Tag, 20);
    refused(&k("05 05 01 AA 06 80"), Reason::Length, 20);
    refused(&k("05 05 01 AA 06 01"), Reason::Cut, 20);
}

#[test]
fn refusals_inside_a_sync() {
    // Inner places count from the pack's key, and inner parts end with the Sync.
    refused(&k("08 02 05 00 00 00 00 00 05"), Reason::Tag, 23);
    refused(&k("08 02 06 00 00 00 00 05 80"), Reason::Length, 23);
    refused(&k("09 02 05 00 00 00 00 05 00 00"), Reason::Cut, 23);
    refused(&k("0B 02 06 00 00 00 00 05 01 06 01 AA"), Reason::Cut, 23);
    for fixed in ["01 00", "02 00", "03 00"] {
        refused(
            &k(&format!("08 02 06 00 00 00 00 {fixed}")),
            Reason::Place,
            23,
        );
    }
    // Tag, length and end come before PLACE.
    refused(&k("08 02 06 00 00 00 00 03 01"), Reason::Cut, 23);
    for short in ["02 02 00", "05 02 03 00 00 00", "06 02 04 00 00 00 00"] {
        refused(&k(short), Reason::Sync, 17);
    }
}

#[test]
fn refusals_of_place() {
    refused(&k("06 05 00 01 02 00 00"), Reason::Place, 19);
    refused(&k("08 01 02 00 00 01 02 00 00"), Reason::Place, 21);
    // A CRC that doesn't end the pack, before its content and before what follows.
    refused(&k("08 03 04 00 00 00 00 05 00"), Reason::Place, 17);
    refused(&k("04 03 01 00 80"), Reason::Place, 17);
    let two = pack_with_crc(&pack_with_crc(&[])[17..]);
    refused(&two, Reason::Place, 17);
    // A misplaced Config is not read, a cut one is cut first.
    refused(&k("04 05 00 01 00"), Reason::Place, 19);
    refused(&k("04 05 00 01 02"), Reason::Cut, 19);
    // Config and nothing else; Config, then CRC.
    assert_eq!(check(&k("04 01 02 00 00")), Ok(0));
    assert_eq!(check(&pack_with_crc(&config(3, &[]))), Ok(0));
}

#[test]
fn refusals_of_count() {
    let one = payload(5, b"");
    let ones = |count: usize| one.repeat(count);
    let mapped = config(1, &[(5, LABEL_A)]);
    // Config and CRC don't count.
    let full = pack_with_crc(&[mapped, ones(64)].concat());
    assert_eq!(check(&full), Ok(64));
    let start = KEY.len() + 2;
    refused(&pack(&ones(65)), Reason::Count, start + 128);
    // The Sync counts before its content is judged and before its payloads.
    let bad_sync = payload(2, b"");
    refused(
        &pack(&[ones(64), bad_sync].concat()),
        Reason::Count,
        start + 128,
    );
    let single = sync(&[payload(5, b"")]);
    assert_eq!(check(&pack(&[ones(62), single.clone()].concat())), Ok(64));
    let over = pack(&[ones(63), single].concat());
    refused(&over, Reason::Count, start + 126 + 6);
    // Tag, length and end come before COUNT; inside a Sync, so does PLACE.
    let last = [ones(64), vec![5, 1]].concat();
    refused(&pack(&last), Reason::Cut, start + 128);
    let inner = [vec![one.clone(); 63], vec![payload(1, b"")]].concat();
    refused(&pack(&sync(&inner)), Reason::Place, start + 7 + 126);
    let inner = vec![one.clone(); 64];
    refused(&pack(&sync(&inner)), Reason::Count, start + 7 + 126);
}

/// `count` mappings of different tags and labels.
fn mappings(count: u32) -> Vec<u8> {
    let mapping = |n: u32| [vec![10 + n as u8, n as u8], vec![0xEE; 15]].concat();
    (0..count).flat_map(mapping).collect()
}

#[test]
fn refusals_of_config() {
    let with = |value: &[u8]| pack(&payload(1, value));
    refused(&with(b""), Reason::Config, 17);
    refused(&with(b"\0"), Reason::Config, 17);
    assert_eq!(check(&with(b"\0\0")), Ok(0));
    let cases = [
        ("81", Reason::Config),
        ("81 80 80", Reason::Config),
        ("00", Reason::Tag),
        ("80", Reason::Tag),
        ("81 80 80 80", Reason::Tag),
        ("05", Reason::Config),
        ("05 06 0E", Reason::Config),
        // Presence of the label comes before MAP.
        ("01", Reason::Config),
    ];
    for (mapping, reason) in cases {
        let value = [vec![0, 0], hex(mapping)].concat();
        refused(&with(&value), reason, 17);
    }
    // 32 mappings may stand, used or not; any byte after them is COUNT.
    let value = |count| [vec![0, 0], mappings(count)].concat();
    assert_eq!(check(&with(&value(32))), Ok(0));
    let place = KEY.len() + 3;
    refused(&with(&value(33)), Reason::Count, place);
    refused(&with(&[value(32), vec![0]].concat()), Reason::Count, place);
}

#[test]
fn refusals_of_mappings() {
    let refused_map = |mappings: &[(u32, &str)]| {
        refused(&pack(&config(0, mappings)), Reason::Map, 17);
    };
    for tag in 1..=3 {
        refused_map(&[(tag, LABEL_A)]);
        refused_map(&[(9, &format!("060E2B340401010D0404020{tag}00000000"))]);
    }
    refused_map(&[(9, LABEL_A), (9, LABEL_B)]);
    refused_map(&[(900, LABEL_A), (900, LABEL_B)]);
    refused_map(&[(9, LABEL_A), (10, LABEL_A)]);
    // All 16 bytes of a label are compared.
    for byte in 0..16 {
        let mut other = hex(LABEL_A);
        other[byte] ^= 0x40;
        let other: String = other.iter().map(|byte| format!("{byte:02X}")).collect();
        assert_eq!(
            check(&pack(&config(0, &[(9, LABEL_A), (10, &other)]))),
            Ok(0)
        );
    }
}

#[test]
fn refusals_of_crc() {
    let right = pack_with_crc(&payload(5, b"value"));
    assert_eq!(check(&right), Ok(1));
    for byte in 17..right.len() - 6 {
        let mut wrong = right.clone();
        wrong[byte] ^= 0x10;
        assert!(check(&wrong).is_err());
    }
    for byte in right.len() - 4..right.len() {
        let mut wrong = right.clone();
        wrong[byte] ^= 1;
        refused(&wrong, Reason::Crc, 24);
    }
    for length in [0, 3, 5] {
        let value = payload(3, &vec![0; length]);
        refused(&pack(&value), Reason::Crc, 17);
    }
    // Any accepted form of the length 4, which the CRC covers.
    let mut long = k("08 03 82 00 04 00 00 00 00");
    let covered = long.len() - 4;
    let value = crc(&long[..covered]).to_be_bytes();
    long[covered..].copy_from_slice(&value);
    assert_eq!(listing(&long), "pack 0 0 good\n");
}

#[test]
fn refusals_of_sheets() {
    let good = sheet(&[LABEL_A, LABEL_B], &[4, 5, MAX_TAG]);
    let pack = k("00");
    assert!(scrub(&good, &pack, &mut [0; 23]).is_ok());
    for size in (1..8).chain([good.len() - 1]) {
        sheet_refused(&good[..size]);
    }
    for (byte, value) in [(1, 33), (3, 9), (5, 33), (5, 4), (7, 41), (0, 1)] {
        let mut bad = good.clone();
        bad[byte] = value;
        sheet_refused(&bad);
    }
    let utility = "060E2B340401010D0404020300000000";
    let bad_sheets = [
        [good, vec![0]].concat(),
        [ALL, &[0]].concat(),
        [ALL, &hex("00000005")].concat(),
        ALL[..7].to_vec(),
        hex("FFFF 0008 0000 0008"),
        hex("0000 0008 FFFF 0008"),
        hex("FFFF 0008 FFFE 0008"),
        hex("FFFF 0009 FFFF 0008"),
        hex("FFFF 0008 FFFF FFF8"),
        sheet(&[LABEL_A, LABEL_A], &[]),
        sheet(&[utility], &[]),
        sheet(&[], &[3]),
        sheet(&[], &[0]),
        sheet(&[], &[MAX_TAG + 1]),
        sheet(&[], &[7, 8, 7]),
        sheet(&[], &[700, 8, 700]),
        sheet(&[], &(4..37).collect::<Vec<u32>>()),
        sheet(&["00000000000000000000000000000000"; 33], &[]),
    ];
    for bad in bad_sheets {
        sheet_refused(&bad);
    }
    let most = sheet(&[], &(4..36).collect::<Vec<u32>>());
    assert!(scrub(&most, &pack, &mut [0; 23]).is_ok());
}

#[test]
fn entries_of_sheets() {
    let numbers: Vec<u32> = (4..36).collect();
    let labels: Vec<String> = (0..32).map(|last| format!("{last:032X}")).collect();
    let labels: Vec<&str> = labels.iter().map(String::as_str).collect();
    let counted = [
        (vec![], 0),
        (sheet(&[], &[]), 0),
        (ALL.to_vec(), 0),
        (sheet(&[LABEL_A], &[]), 1),
        (sheet(&[LABEL_A, LABEL_B], &[4, 5, MAX_TAG]), 5),
        (sheet(&labels, &numbers), 64),
    ];
    for (sheet, count) in counted {
        assert_eq!(sheet_check(&sheet), Ok(count));
    }
}

#[test]
fn order_of_scrub_refusals() {
    let bad_sheet = [0];
    scrub_refused(&bad_sheet, &k("80"), 0, Reason::Sheet, 0);
    scrub_refused(ALL, &k("80"), 0, Reason::Length, 16);
    scrub_refused(ALL, &k("00"), 0, Reason::NoRoom, 0);
    scrub_refused(ALL, &k("00"), 22, Reason::NoRoom, 0);
}

#[test]
fn scrub_keeps_by_name() {
    let items = |dropped: &[u8]| {
        [
            config(0, &[(5, LABEL_A), (300, LABEL_B)]),
            payload(5, b"label a"),
            payload(6, b"number 6"),
            sync(&[payload(300, dropped), payload(6, b"inner")]),
            sync(&[payload(300, dropped)]),
        ]
    };
    let full = pack_with_crc(&items(b"secret").concat());
    scrubbed(&sheet(&[], &[]), &full, b"");
    scrubbed(&[], &full, b"");
    // The sheet's number 5 does not keep the payload whose tag 5 is mapped.
    let kept = [payload(6, b"number 6"), sync(&[payload(6, b"inner")])];
    scrubbed(&sheet(&[], &[5, 6]), &full, &kept.concat());
    let kept = [config(0, &[(64, LABEL_A)]), payload(64, b"label a")];
    scrubbed(&sheet(&[LABEL_A], &[7]), &full, &kept.concat());
    // What is dropped leaves no trace.
    let other = pack(&items(b"another longer secret").concat());
    scrubbed(&sheet(&[LABEL_A], &[7]), &other, &kept.concat());
}

#[test]
fn scrub_gives_tags() {
    // First appearance in byte order, inside Syncs too; 64 and 66 are kept numbers, one of them
    // only later; 65 is a dropped number.
    let items = [
        config(7, &[(10, LABEL_A), (11, LABEL_B)]),
        payload(65, b"dropped"),
        sync(&[payload(11, b"b"), payload(64, b"n")]),
        payload(10, b"a"),
        payload(66, b"m"),
        payload(11, b"bb"),
    ];
    let kept = [
        config(7, &[(65, LABEL_B), (67, LABEL_A)]),
        sync(&[payload(65, b"b"), payload(64, b"n")]),
        payload(67, b"a"),
        payload(66, b"m"),
        payload(65, b"bb"),
    ];
    let by = sheet(&[LABEL_A, LABEL_B], &[64, 66]);
    scrubbed(&by, &pack(&items.concat()), &kept.concat());
    // Again under the same sheet: the same pack.
    scrubbed(&by, &pack_with_crc(&kept.concat()), &kept.concat());
}

#[test]
fn scrub_writes_shortest_and_config_only_if_needed() {
    // Offset 0 and no label kept: no Config. Long forms become short.
    let items = [
        config(0, &[(10, LABEL_A)]),
        hex("05 84 00 00 00 01 AA"),
        hex("02 83 00 00 09 80 00 FF FF 81 00 82 00 00"),
    ];
    let kept = hex("05 01 AA 02 07 80 00 FF FF 81 00 00");
    scrubbed(ALL, &pack(&items.concat()), &kept);
    let items = [config(-1, &[(10, LABEL_A)]), payload(5, &[0; 200])];
    let kept = [config(-1, &[]), payload(5, &[0; 200])];
    scrubbed(ALL, &pack(&items.concat()), &kept.concat());
}

#[test]
fn scrub_takes_the_last_free_tag() {
    // 63 kept numbers from 64 to 126 leave exactly 127 for the one label.
    let numbers: Vec<u8> = (64..127).flat_map(|tag| payload(tag, b"")).collect();
    let items = [config(0, &[(5, LABEL_A)]), payload(5, b""), numbers.clone()];
    let kept = [config(0, &[(127, LABEL_A)]), payload(127, b""), numbers];
    scrubbed(ALL, &pack(&items.concat()), &kept.concat());
}

#[test]
fn lookup_takes_the_first_payload() {
    let a = || payload(64, b"a");
    let b = || payload(64, b"bb");
    let other = || payload(5, b"other");
    let none = k("00");
    let twice = carrying(&[other(), a(), b()]);
    found(&twice, &none, Mark::Main, FIRST + 7 + 2, b"a");
    found(&none, &twice, Mark::Backup, FIRST + 7 + 2, b"a");
    // Inside a Sync and then outside, and the other way round.
    let inside = carrying(&[sync(&[other(), b()]), a()]);
    found(&inside, &none, Mark::Main, FIRST + 6 + 7 + 2, b"bb");
    found(&none, &inside, Mark::Backup, FIRST + 6 + 7 + 2, b"bb");
    let outside = carrying(&[a(), sync(&[b()])]);
    found(&outside, &none, Mark::Main, FIRST + 2, b"a");
    // In the second of two Syncs alone.
    let later = carrying(&[sync(&[other()]), sync(&[b()])]);
    found(&later, &none, Mark::Main, FIRST + 13 + 6 + 2, b"bb");
    // A value of 0 bytes is one, and hides those after it and in the backup.
    let empty = carrying(&[payload(64, b""), a()]);
    found(&empty, &outside, Mark::Main, FIRST + 2, b"");
    found(&none, &empty, Mark::Backup, FIRST + 2, b"");
}

#[test]
fn lookup_goes_by_labels() {
    // The same label under another tag, and the same tag under another label.
    let long = [
        config(-1, &[(64, LABEL_B), (300, LABEL_A)]),
        payload(64, b"b"),
        payload(300, &[7; 200]),
    ];
    let long = pack_with_crc(&long.concat());
    let start = 16 + 2 + 39 + 3 + 4;
    let short = carrying(&[payload(64, b"a")]);
    found(&long, &short, Mark::Main, start, &[7; 200]);
    found(&short, &long, Mark::Main, FIRST + 2, b"a");
    found(&long, &long, Mark::Main, start, &[7; 200]);
    // Mapped and used by no payload is not carried.
    let unused = carrying(&[payload(5, b"x")]);
    found(&unused, &long, Mark::Backup, start, &[7; 200]);
    absent(&unused, &unused, LABEL_A);
    // A payload that is known by its number has no label.
    absent(&k("03 40 01 AA"), &unused, LABEL_A);
}

#[test]
fn lookup_of_labels_that_are_absent() {
    let carries = carrying(&[payload(64, b"a"), sync(&[payload(5, b"")])]);
    let none = k("00");
    absent(&carries, &none, LABEL_B);
    // Labels of Config, Sync and CRC, which no payload is known by.
    for utility in 1..=3 {
        let label = format!("060E2B340401010D040402{utility:02X}00000000");
        absent(&pack_with_crc(&carries[17..]), &carries, &label);
    }
    // Not of 16 bytes: nothing, all but the last byte, a byte or another label more.
    let longer = [LABEL_A, LABEL_A].concat();
    for label in ["", &LABEL_A[..30], &longer[..34], &longer] {
        absent(&carries, &none, label);
        absent(&carries, &carries, label);
    }
    // A pack that is refused comes first.
    let short = Reason::Short.at(0);
    lookup_refused(&carries, &[], LABEL_B, short, Some(Mark::Backup));
    lookup_refused(&[], &carries, "", short, Some(Mark::Main));
}

#[test]
fn pmd_kinds_and_caps() {
    for kind in [0, 8, u32::MAX] {
        pmd_read_refused(kind, &[0; 4097], Reason::Kind, 0);
        pmd_write_refused(kind, &[], Reason::Kind, 0);
    }
    for kind in 1..=7 {
        pmd_read_refused(kind, &[0; 4097], Reason::Big, 0);
        pmd_read_refused(kind, &[], Reason::Bits, 0);
        pmd_write_refused(kind, &[], Reason::Bits, 0);
    }
    // 4,096 bytes are read; what would need 4,097 is never BIG when written.
    let name = |bytes: usize| [vec![1], vec![65; bytes], vec![0]].concat();
    let (mut out, mut back) = (vec![0; 5000], vec![0; 4096]);
    assert_eq!(pmd_write(6, &name(4094), &mut out), Ok(4096));
    assert_eq!(pmd_read(6, &out[..4096], &mut back), Ok(4096));
    assert_eq!(back, name(4094));
    let refusal: Result<usize, Refusal> = Err(Reason::NoRoom.at(0));
    assert_eq!(pmd_write(6, &name(4095), &mut out), refusal);
    assert_eq!(pmd_write(6, &name(100), &mut out[..101]), refusal);
}

/// No value has more numbers than one of turnarounds without deliverables: three to 10 bits.
#[test]
fn pmd_most_numbers() {
    let turnarounds = |count: usize| [7, 0, 0].repeat(count);
    let (mut out, mut back) = (vec![0; 5000], vec![77; 9829]);
    assert_eq!(pmd_write(7, &turnarounds(3276), &mut out), Ok(4095));
    assert_eq!(pmd_read(7, &out[..4095], &mut back), Ok(9828));
    assert_eq!(back, [turnarounds(3276), vec![77]].concat());
    let refusal: Result<usize, Refusal> = Err(Reason::NoRoom.at(0));
    assert_eq!(pmd_read(7, &out[..4095], &mut back[..9827]), refusal);
    // The 4,096th byte begins a record that it can't end.
    out[4095] = 7;
    pmd_read_refused(7, &out[..4096], Reason::Bits, 32_768);
    assert_eq!(pmd_write(7, &turnarounds(3277), &mut out), refusal);
}

#[test]
fn pmd_values_that_end_early() {
    pmd_read_refused(4, &[0xFF], Reason::Bits, 6);
    pmd_write_refused(4, &[1], Reason::Bits, 1);
    pmd_read_refused(3, &hex("FF"), Reason::Bits, 0);
    pmd_read_refused(3, &hex("00 10"), Reason::Bits, 16);
    pmd_read_refused(5, &hex("00 14"), Reason::Bits, 12);
    // A byte of the name that is only half there, 0 or not.
    pmd_read_refused(5, &hex("00 14 14"), Reason::Bits, 20);
    pmd_read_refused(5, &hex("00 14 10"), Reason::Bits, 20);
    pmd_read_refused(1, &hex("00 80 AE 00 00"), Reason::Bits, 29);
    // Eight bits or more begin another record.
    pmd_read_refused(6, &hex("14 10 00 00"), Reason::Field, 20);
    pmd_read_refused(6, &hex("14 10 01 14"), Reason::Bits, 32);
    pmd_reads(6, "14 10 01 00", &[1, 65, 0, 1, 0]);
    pmd_write_refused(6, &[1, 65], Reason::Bits, 2);
    pmd_write_refused(6, &[1, 65, 0, 2], Reason::Bits, 4);
    pmd_write_refused(3, &[1, 0, 0, 1, 1, 1, 0, 0, 0, 0], Reason::Bits, 10);
}

#[test]
fn pmd_turnarounds_that_end_early() {
    pmd_read_refused(7, &hex("07"), Reason::Bits, 8);
    pmd_read_refused(7, &hex("07 00 00"), Reason::Field, 10);
    pmd_reads(7, "07 00 40", &[7, 0, 0, 1, 0, 0]);
    // The pair that closes a list has its parameter set too.
    pmd_read_refused(7, &hex("01 88 00"), Reason::Bits, 22);
    pmd_write_refused(7, &[1, 1, 1, 0], Reason::Bits, 4);
    pmd_read_refused(7, &hex("01 44 00 00"), Reason::Bits, 28);
    pmd_write_refused(7, &[1, 0, 1, 1, 0, 0], Reason::Bits, 6);
    // A list without such a pair, and a record without its second flag.
    let open = [1, 1, 5, 511, 255, 1, 1];
    pmd_write_refused(7, &open, Reason::Bits, 7);
    pmd_write_refused(7, &[&open[..], &[0, 0]].concat(), Reason::Bits, 9);
    pmd_write_refused(7, &[1, 0], Reason::Bits, 2);
}

/// Both deliverables, with some pairs in each.
const TURNAROUND: [u32; 14] = [255, 1, 5, 511, 255, 0, 9, 1, 1, 23, 1, 0, 0, 255];

#[test]
fn pmd_fields_of_turnarounds() {
    let limits = [256, 2, 6, 512, 256, 512, 256, 2, 6, 24, 512, 256, 512, 256];
    assert_eq!(pmd_write(7, &TURNAROUND, &mut [0; 12]), Ok(12));
    for (index, limit) in limits.into_iter().enumerate() {
        let mut bad = TURNAROUND;
        for number in (limit..limit + 20).chain([1 << 16, u32::MAX]) {
            bad[index] = number;
            pmd_write_refused(7, &bad, Reason::Field, index);
        }
    }
    // An id and both rates may not be 0.
    for index in [0, 2, 8] {
        let mut bad = TURNAROUND;
        bad[index] = 0;
        pmd_write_refused(7, &bad, Reason::Field, index);
    }
    pmd_read_refused(7, &hex("00 00"), Reason::Field, 0);
}

/// Every code of both frame rates and of the program configuration, by its bits.
#[test]
fn pmd_codes_of_turnarounds() {
    for rate in 0..16 {
        let reserved = !(1..=5).contains(&rate);
        code_is(reserved, &[1, 0x80 | rate << 3, 0, 0], 9);
        code_is(reserved, &[1, 0x40 | rate << 2, 0, 0, 0], 10);
    }
    for config in 0..32 {
        code_is(config > 23, &[1, 0x44 | config >> 3, config << 5, 0, 0], 14);
    }
}

/// Expects a turnaround to be refused exactly if the code at `place` is reserved.
#[track_caller]
fn code_is(reserved: bool, value: &[u8], place: usize) {
    let got = pmd_read(7, value, &mut [0; 7]);
    assert_eq!(got.err(), reserved.then_some(Reason::Field.at(place)));
}

#[test]
fn pmd_langcods() {
    // Groups of 1 to 26, only the third may be 0; the place is that of the whole field.
    let lang = |a: u32, b: u32, c: u32| a << 10 | b << 5 | c;
    for good in [lang(1, 1, 0), lang(26, 26, 26), 5568] {
        let mut out = [0; 4];
        assert_eq!(pmd_write(2, &[1, good, 0], &mut out), Ok(4));
        assert_eq!(pmd_read(2, &out, &mut [0; 3]), Ok(3));
    }
    let outside = [27, 28, 31]
        .into_iter()
        .flat_map(|n| [(n, 1, 1), (1, n, 1), (1, 1, n)]);
    for (a, b, c) in outside.chain([(0, 1, 1), (1, 0, 0), (27, 27, 27)]) {
        let bad = lang(a, b, c);
        pmd_write_refused(2, &[1, bad, 0], Reason::Field, 1);
        let value = [0x00, 0x80 | (bad >> 8) as u8, bad as u8, 0];
        pmd_read_refused(2, &value, Reason::Field, 9);
    }
    pmd_write_refused(2, &[1, 1 << 15 | 5568, 0], Reason::Field, 1);
}

#[test]
fn pmd_speaker_configs() {
    for config in 0..32 {
        let list = [1, config, 5568, 0];
        let value = [0x00, 0x80 | (config << 2) as u8, 0xAE, 0x00, 0x00, 0x00];
        let mut numbers = [0; 4];
        if (7..=28).contains(&config) {
            pmd_write_refused(1, &list, Reason::Field, 1);
            assert_eq!(pmd_read(1, &value, &mut numbers), Err(Reason::Field.at(9)));
        } else {
            assert_eq!(pmd_write(1, &list, &mut [0; 6]), Ok(6));
            assert_eq!(pmd_read(1, &value, &mut numbers), Ok(4));
            assert_eq!(numbers, list);
        }
    }
    pmd_write_refused(1, &[1, 32, 5568, 0], Reason::Field, 1);
}

#[test]
fn pmd_fields_that_are_refused() {
    pmd_read_refused(6, &hex("04 10 00"), Reason::Field, 0);
    // Each field of an AOD one too great, and those that may not be 0.
    let record = [4095, 6, 1, 1023, 1, 512, 31, 1, 1, 255, 63];
    let limits = [4096, 7, 2, 1024, 1024, 1024, 32, 2, 2, 256, 64];
    assert_eq!(pmd_write(3, &record, &mut [0; 9]), Ok(9));
    for index in 0..11 {
        let mut bad = record;
        bad[index] = limits[index];
        pmd_write_refused(3, &bad, Reason::Field, index);
        bad[index] = u32::MAX;
        pmd_write_refused(3, &bad, Reason::Field, index);
        bad[index] = 0;
        match index {
            0 | 3 | 4 | 5 => pmd_write_refused(3, &bad, Reason::Field, index),
            _ => assert_eq!(pmd_write(3, &bad, &mut [0; 9]), Ok(9)),
        }
    }
    pmd_write_refused(6, &[1, 65, 256, 0], Reason::Field, 2);
    pmd_write_refused(1, &[1, 0, 5568, 4096, 0], Reason::Field, 3);
    pmd_write_refused(4, &[64, 1, 1, 1, 1], Reason::Field, 0);
}

#[test]
fn pmd_pads_and_room() {
    pmd_read_refused(6, &hex("14 10 0F"), Reason::Pad, 20);
    pmd_read_refused(3, &hex("00 10 00 40 10 04 00 00 01"), Reason::Pad, 68);
    // PAD comes before NOROOM, and NOROOM changes nothing.
    assert_eq!(
        pmd_read(6, &hex("14 10 01"), &mut []),
        Err(Reason::Pad.at(20))
    );
    let mut numbers = [77; 2];
    let got = pmd_read(6, &hex("14 10 00"), &mut numbers);
    assert_eq!((got, numbers), (Err(Reason::NoRoom.at(0)), [77; 2]));
    // FIELD and BITS come before NOROOM when writing.
    assert_eq!(pmd_write(6, &[16, 0], &mut []), Err(Reason::Field.at(0)));
    assert_eq!(pmd_write(6, &[1], &mut []), Err(Reason::Bits.at(1)));
    assert_eq!(pmd_write(6, &[1, 0], &mut [0]), Err(Reason::NoRoom.at(0)));
}

/// Lists of every length at every alignment: records of different sizes one after another.
#[test]
fn pmd_round_trips() {
    let heads: [(u32, &[u32], u32); 4] = [
        (1, &[511, 31, 5568], 4095),
        (2, &[257, 26 << 10 | 1 << 5], 255),
        (5, &[4095], 255),
        (6, &[9], 255),
    ];
    for (kind, head, most) in heads {
        for first in 0..30 {
            let mut numbers = Vec::new();
            for items in [first, 30 - first, 1] {
                numbers.extend(head);
                numbers.extend((1..=items).map(|n| (n * 2654 + first) % most + 1));
                numbers.push(0);
            }
            round_trip(kind, &numbers);
        }
    }
    let object = [1, 6, 1, 1023, 1, 512, 31, 0, 1, 200, 63];
    let position = [4095, 1, 1023, 77];
    for records in 1..20 {
        round_trip(3, &object.repeat(records));
        round_trip(4, &[vec![63], position.repeat(records)].concat());
        let turnarounds: Vec<u32> = (0..records).flat_map(turnaround).collect();
        round_trip(7, &turnarounds);
    }
}

/// One of four forms, by which deliverables it has, with more pairs the later it comes.
fn turnaround(index: usize) -> Vec<u32> {
    let pairs = (0..index / 4).flat_map(|pair| [511 - pair as u32, 3 * pair as u32]);
    let pairs: Vec<u32> = pairs.chain([0, index as u32]).collect();
    let exists = [index & 1, index >> 1 & 1].map(|flag| flag as u32);
    let mut numbers = vec![1 + index as u32, exists[0]];
    if exists[0] == 1 {
        numbers.extend([&[5], &pairs[..]].concat());
    }
    numbers.push(exists[1]);
    if exists[1] == 1 {
        numbers.extend([&[1, 23], &pairs[..]].concat());
    }
    numbers
}

#[track_caller]
fn round_trip(kind: u32, numbers: &[u32]) {
    let mut out = vec![0xA5; 300];
    let size = pmd_write(kind, numbers, &mut out).unwrap();
    assert!(out[size..].iter().all(|&byte| byte == 0xA5));
    let mut back = vec![77; numbers.len()];
    assert_eq!(pmd_read(kind, &out[..size], &mut back), Ok(numbers.len()));
    assert_eq!(back, numbers);
}

const AOD: u32 = 3;
const XYZ: u32 = 4;

/// A dynamic entry of this element, at a place that its gain tells apart from others.
fn object(element: u32, gain: u32) -> Object {
    Object::from([element, 6, 1, 1, 1023, 1 + gain, 31, 0, 1, 255, gain])
}

fn still(element: u32) -> Object {
    Object {
        dynamic: 0,
        ..object(element, 0)
    }
}

/// A free entry whose other fields hold what no record can.
fn stale(number: u32) -> Object {
    Object {
        element: 0,
        ..Object::from([number; FIELDS])
    }
}

fn value_of(kind: u32, numbers: &[u32]) -> Vec<u8> {
    let mut out = vec![0; 4096];
    let size = pmd_write(kind, numbers, &mut out).unwrap();
    out.truncate(size);
    out
}

fn described(objects: &[Object]) -> Vec<u8> {
    let numbers = objects.iter().flat_map(|&o| <[u32; FIELDS]>::from(o));
    value_of(AOD, &numbers.collect::<Vec<u32>>())
}

fn moved(positions: &[[u32; 4]]) -> Vec<u8> {
    value_of(XYZ, &[&[63], positions.concat().as_slice()].concat())
}

#[track_caller]
fn applied(kind: u32, value: &[u8], records: usize, before: &[Object], after: &[Object]) {
    let mut table = before.to_vec();
    assert_eq!(objects_apply(kind, value, &mut table), Ok(records));
    assert_eq!(table, after);
}

/// Expects a refusal of a value that leaves the table alone.
#[track_caller]
fn not_applied(kind: u32, value: &[u8], before: &[Object], reason: Reason, place: usize) {
    let mut table = before.to_vec();
    let got = objects_apply(kind, value, &mut table);
    assert_eq!(got, Err(reason.at(place)));
    assert_eq!(table, before);
}

/// Expects a table to be refused whatever is asked of it.
#[track_caller]
fn table_refused(before: &[Object]) {
    for kind in [AOD, XYZ, 0, 9] {
        not_applied(kind, &[], before, Reason::Table, 0);
    }
    not_applied(AOD, &described(&[object(9, 9)]), before, Reason::Table, 0);
    not_applied(AOD, &[0; 4097], before, Reason::Table, 0);
    for element in [0, before[0].element, 4095, 4096] {
        not_cleared(element, before, Reason::Table);
    }
}

#[track_caller]
fn not_cleared(element: u32, before: &[Object], reason: Reason) {
    let mut table = before.to_vec();
    assert_eq!(objects_clear(element, &mut table), Err(reason.at(0)));
    assert_eq!(table, before);
}

#[test]
fn new_objects_take_the_lowest_free_slots() {
    let before = [stale(9), object(5, 1), stale(0), still(7), stale(9)];
    let (nine, four) = (object(9, 2), object(4, 3));
    let after = [nine, object(5, 1), four, still(7), stale(9)];
    applied(AOD, &described(&[nine, four]), 2, &before, &after);
    // A repeat has the slot of the first; the last record counts, and entries are set whole.
    let value = described(&[object(9, 7), four, still(5), nine]);
    let after = [nine, still(5), four, still(7), stale(9)];
    applied(AOD, &value, 4, &before, &after);
    // An entry that is not dynamic is set as any other.
    let value = described(&[object(7, 8)]);
    let after = [before[0], before[1], before[2], object(7, 8), before[4]];
    applied(AOD, &value, 1, &before, &after);
}

#[test]
fn full_counts_each_new_element_once() {
    let before = [object(1, 0), stale(3), object(2, 0)];
    let (three, four) = (object(3, 5), object(4, 5));
    let value = described(&[object(3, 1), object(1, 9), object(3, 2), three]);
    let after = [object(1, 9), three, object(2, 0)];
    applied(AOD, &value, 4, &before, &after);
    let value = described(&[object(1, 9), three, three, four]);
    not_applied(AOD, &value, &before, Reason::Full, 0);
    not_applied(AOD, &described(&[three]), &[], Reason::Full, 0);
    not_applied(AOD, &described(&[three]), &before[..1], Reason::Full, 0);
    let all: Vec<Object> = (1..=128).map(|e| object(e, e % 64)).collect();
    applied(AOD, &described(&all), 128, &[stale(1); 128], &all);
    applied(AOD, &described(&all), 128, &all, &all);
    not_applied(AOD, &described(&all), &[stale(1); 127], Reason::Full, 0);
    not_applied(AOD, &described(&[object(129, 0)]), &all, Reason::Full, 0);
}

#[test]
fn positions_move_and_nothing_else() {
    let before = [object(1, 0), stale(2), object(2, 0), still(3)];
    let mut after = before;
    (after[2].x, after[2].y, after[2].z) = (7, 8, 9);
    let value = moved(&[[2, 1, 1, 1], [2, 7, 8, 9]]);
    applied(XYZ, &value, 2, &before, &after);
    (after[0].x, after[0].y, after[0].z) = (1023, 1, 512);
    let value = moved(&[[2, 7, 8, 9], [1, 1023, 1, 512]]);
    applied(XYZ, &value, 2, &before, &after);
}

#[test]
fn positions_are_judged_record_by_record() {
    let before = [object(1, 0), still(3), stale(5)];
    let refused = |elements: &[u32], reason, place| {
        let records: Vec<[u32; 4]> = elements.iter().map(|&e| [e, 4, 5, 6]).collect();
        not_applied(XYZ, &moved(&records), &before, reason, place);
    };
    refused(&[3, 9], Reason::Static, 0);
    refused(&[9, 3], Reason::Unknown, 0);
    refused(&[1, 1, 3], Reason::Static, 2);
    refused(&[1, 5], Reason::Unknown, 1);
    refused(&[4095], Reason::Unknown, 0);
    not_applied(XYZ, &moved(&[[1, 1, 1, 1]]), &[], Reason::Unknown, 0);
}

#[test]
fn tables_that_are_refused() {
    table_refused(&[Object::default(); 129]);
    table_refused(&[object(1, 0), object(2, 0), object(1, 0)]);
    let first = object(1, 0);
    let refused = [
        &[4096, u32::MAX][..],
        &[7, 15, 16, u32::MAX],
        &[2, u32::MAX],
        &[0, 1024, 1 << 16],
        &[0, 1024, 1 << 16],
        &[0, 1024, 1 << 16],
        &[32, u32::MAX],
        &[2, u32::MAX],
        &[2, u32::MAX],
        &[256, u32::MAX],
        &[64, u32::MAX],
    ];
    for (field, numbers) in refused.into_iter().enumerate() {
        for &number in numbers {
            let mut bad = <[u32; FIELDS]>::from(object(2, 0));
            bad[field] = number;
            table_refused(&[first, bad.into()]);
            // A free entry may hold the same.
            bad[0] = 0;
            applied(
                AOD,
                &described(&[first]),
                1,
                &[first, bad.into()],
                &[first, bad.into()],
            );
        }
    }
}

#[test]
fn order_of_table_refusals() {
    let table = [still(1)];
    for kind in [0, 1, 2, 5, 6, 7, 8, u32::MAX] {
        not_applied(kind, &[0; 4097], &table, Reason::Kind, 0);
        not_applied(kind, &described(&table), &table, Reason::Kind, 0);
    }
    for kind in [AOD, XYZ] {
        not_applied(kind, &[0; 4097], &table, Reason::Big, 0);
        not_applied(kind, &[], &table, Reason::Bits, 0);
    }
    // A fault of the value comes before what the table says of its first records.
    let mut position = moved(&[[1, 4, 5, 6]]);
    not_applied(XYZ, &position, &table, Reason::Static, 0);
    position.push(0xFF);
    not_applied(XYZ, &position, &table, Reason::Bits, 48);
    not_applied(XYZ, &[0, 0, 0, 0, 0, 0], &table, Reason::Field, 6);
    let mut object = described(&[object(2, 0)]);
    object[8] |= 1;
    not_applied(AOD, &object, &table, Reason::Pad, 68);
    object[8] ^= 1;
    not_applied(AOD, &object, &table, Reason::Full, 0);
}

#[test]
fn cleared_slots_are_used_again() {
    let mut table = [object(4095, 1), still(2), object(3, 3)];
    for element in [0, 1, 4096, u32::MAX] {
        not_cleared(element, &table, Reason::Unknown);
    }
    not_cleared(1, &[], Reason::Unknown);
    assert_eq!(objects_clear(2, &mut table), Ok(1));
    assert_eq!(table, [object(4095, 1), Object::default(), object(3, 3)]);
    not_cleared(2, &table, Reason::Unknown);
    let after = [table[0], object(8, 8), table[2]];
    applied(AOD, &described(&[object(8, 8)]), 1, &table, &after);
    assert_eq!(objects_clear(4095, &mut table), Ok(1));
    assert_eq!(objects_clear(3, &mut table), Ok(1));
    assert_eq!(table, [Object::default(); 3]);
}
