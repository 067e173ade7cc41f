//! The archive and the reference give the same answer, the same place and the same whole buffer on generated inputs,
//! and every refusal that a function can give is met.

use std::collections::BTreeSet;

use ballastwren_tests::archive::{Answer, Archive, Beside, Call};
use ballastwren_tests::damage::damaged;
use ballastwren_tests::lookups::{any_asked, Asked};
use ballastwren_tests::objects::{any_clearing, any_table, any_update, free_entries, Entry, AOD, TABLE_MAX};
use ballastwren_tests::oracle;
use ballastwren_tests::packs::{any_pack, stretch, Pack, Said, KEY, PACK_MAX};
use ballastwren_tests::random::Random;
use ballastwren_tests::runs::{compare, inputs, require, say, seed, Tally};
use ballastwren_tests::sheets::{any_sheet_bytes, bad_sheet, KEEP_ALL};
use ballastwren_tests::values::{any_kind, any_list, any_value, many_turnarounds, records_in, ETD, NUMBERS_MAX};

const INPUTS: usize = 200_000;

/// A pack's bytes: good in so many of a hundred cases, else damaged, and now and then just above its cap.
fn laid_out(random: &mut Random, pack: &mut Pack, good: usize) -> Vec<u8> {
    match random.below(1000) {
        case if case < 10 * good => pack.bytes(),
        998 | 999 => {
            stretch(pack, random.between(PACK_MAX + 1, PACK_MAX + 9));
            pack.bytes()
        }
        _ => damaged(random, pack),
    }
}

/// A pack, good or damaged, and what it was to say.
fn good_or_damaged(random: &mut Random) -> (Said, Vec<u8>) {
    let (said, mut pack) = any_pack(random);
    let bytes = laid_out(random, &mut pack, 40);
    (said, bytes)
}

fn any_good(random: &mut Random) -> (Said, Vec<u8>) {
    let (said, pack) = any_pack(random);
    (said, pack.bytes())
}

/// A buffer's size around what is needed: one short, exact, one long, or something else.
fn room(random: &mut Random, needed: usize) -> usize {
    match random.below(10) {
        0 | 1 => needed.saturating_sub(1),
        2..=4 => needed,
        5 | 6 => needed + 1,
        7 => random.below(needed + 1),
        8 => needed + random.below(80),
        _ => 0,
    }
}

/// What a call needs when nothing is short, or a small number if it is refused.
fn needed(random: &mut Random, call: &Call) -> usize {
    match oracle::outcome(call).answer {
        Answer { number: 0, value } => value as usize,
        _ => random.below(60),
    }
}

fn check_call(random: &mut Random) -> Call {
    Call::Check { pack: good_or_damaged(random).1 }
}

fn read_call(random: &mut Random) -> Call {
    let (_, pack) = good_or_damaged(random);
    let needed = needed(random, &Call::Read { pack: pack.clone(), rows: vec![0; 520] });
    let room = room(random, needed);
    Call::Read { pack, rows: random.numbers(room) }
}

fn scrub_call(random: &mut Random) -> Call {
    let (said, pack) = if random.percent(70) { any_good(random) } else { good_or_damaged(random) };
    let full = pack.len() > PACK_MAX - 50;
    let sheet = match random.below(100) {
        _ if full && random.percent(70) => KEEP_ALL.to_vec(),
        0..=84 => any_sheet_bytes(random, &said),
        _ => bad_sheet(random, &said),
    };
    let call = Call::Scrub { sheet: sheet.clone(), pack: pack.clone(), out: vec![0; PACK_MAX] };
    let needed = needed(random, &call);
    // Around the cap the new pack itself may be too long, whatever the room.
    let room = if full { random.pick(&[PACK_MAX - 1, PACK_MAX, PACK_MAX + 1, 40_000]) } else { room(random, needed) };
    Call::Scrub { sheet, pack, out: random.bytes(room) }
}

fn sheet_check_call(random: &mut Random) -> Call {
    let (said, _) = any_pack(random);
    let sheet = if random.percent(50) { any_sheet_bytes(random, &said) } else { bad_sheet(random, &said) };
    Call::SheetCheck { sheet }
}

fn lookup_call(random: &mut Random) -> Call {
    let Asked { packs: [mut main, mut backup], label, .. } = any_asked(random);
    let one_pack = random.percent(5);
    let main = laid_out(random, &mut main, 80);
    let backup = if one_pack { main.clone() } else { laid_out(random, &mut backup, 75) };
    Call::Lookup { main, backup, label }
}

fn pmd_read_call(random: &mut Random, kind: u32) -> Call {
    // Now and then a value of another kind than it is read as.
    let made_as = if random.percent(5) { any_kind(random) } else { kind };
    let value = any_value(random, made_as);
    let needed = needed(random, &Call::PmdRead { kind, value: value.clone(), numbers: vec![0; NUMBERS_MAX] });
    let room = room(random, needed);
    Call::PmdRead { kind, value, numbers: random.numbers(room) }
}

fn pmd_write_call(random: &mut Random, kind: u32) -> Call {
    let made_as = if random.percent(5) { any_kind(random) } else { kind };
    let numbers = any_list(random, made_as);
    let needed = needed(random, &Call::PmdWrite { kind, numbers: numbers.clone(), out: vec![0; 4200] });
    let room = room(random, needed);
    Call::PmdWrite { kind, numbers, out: random.bytes(room) }
}

fn objects_apply_call(random: &mut Random) -> Call {
    let table = any_table(random);
    let (kind, value) = any_update(random, &table);
    Call::ObjectsApply { kind, value, table }
}

fn objects_clear_call(random: &mut Random) -> Call {
    let table = any_table(random);
    let element = any_clearing(random, &table);
    Call::ObjectsClear { element, table }
}

fn gain_call(random: &mut Random, index: usize) -> Call {
    Call::Gain { gain: if index < 100_000 { index as u32 } else { random.next() as u32 } }
}

#[test]
fn bw_check_agrees() {
    let tally = compare(seed(), inputs(INPUTS), |random, _| check_call(random));
    require("bw_check", &tally, &[1, 2, 3, 4, 5, 6, 7, 8, 9, 10, 11, 12, 13]);
}

#[test]
fn bw_read_agrees() {
    let tally = compare(seed() + 1, inputs(INPUTS), |random, _| read_call(random));
    require("bw_read", &tally, &[1, 2, 3, 4, 5, 6, 7, 8, 9, 10, 11, 12, 13, 15]);
}

#[test]
fn bw_scrub_agrees() {
    let tally = compare(seed() + 2, inputs(INPUTS), |random, _| scrub_call(random));
    require("bw_scrub", &tally, &[1, 2, 3, 4, 5, 6, 7, 8, 9, 10, 11, 12, 13, 14, 15]);
}

#[test]
fn bw_sheet_check_agrees() {
    let tally = compare(seed() + 6, inputs(INPUTS), |random, _| sheet_check_call(random));
    require("bw_sheet_check", &tally, &[14]);
}

/// What look-ups came to: the answers by the pack that they are of, neither, main or backup, and cases of interest.
#[derive(Default)]
struct Looked {
    of: [Tally; 3],
    both_refused: usize,
    in_a_sync: usize,
    beyond_16_bits: usize,
    empty: usize,
    unused_in_main: usize,
    no_label: usize,
}

impl Looked {
    fn add(&mut self, call: &Call) {
        let Call::Lookup { main, backup, label } = call else { panic!("a look-up") };
        let told = oracle::outcome(call);
        let Beside { from, start, total } = told.beside();
        self.of[from as usize].add(told.answer.number);
        let refused = |pack: &[u8]| oracle::outcome(&Call::Check { pack: pack.to_vec() }).answer.number != 0;
        match (told.answer, from) {
            (Answer { number: 0, value }, _) => {
                self.in_a_sync += usize::from(stands_in_a_sync(if from == 1 { main } else { backup }, start));
                self.beyond_16_bits += usize::from(i16::try_from(total).is_err());
                self.empty += usize::from(value == 0);
                self.unused_in_main += usize::from(from == 2 && main.windows(16).any(|part| part == label));
            }
            (_, 0) => self.no_label += usize::from(label.len() != 16),
            (_, 1) => self.both_refused += usize::from(refused(backup)),
            _ => {}
        }
    }
}

/// Whether the value that starts there is of a payload inside a Sync.
fn stands_in_a_sync(pack: &[u8], start: u64) -> bool {
    let read = oracle::outcome(&Call::Read { pack: pack.to_vec(), rows: vec![0; 520] });
    read.numbers().chunks(8).skip(1).any(|row| row[0] == 2 && u64::from(row[4]) == start)
}

#[test]
fn bw_lookup_agrees() {
    let mut looked = Looked::default();
    let tally = compare(seed() + 9, inputs(INPUTS), |random, _| {
        let call = lookup_call(random);
        looked.add(&call);
        call
    });
    let of_a_pack = [1, 2, 3, 4, 5, 6, 7, 8, 9, 10, 11, 12, 13];
    require("bw_lookup", &tally, &[&of_a_pack[..], &[20]].concat());
    require("  of main", &looked.of[1], &of_a_pack);
    require("  of backup", &looked.of[2], &of_a_pack);
    assert_eq!(looked.of[0].of(20), tally.of(20));
    let met = [
        ("both packs refused", looked.both_refused),
        ("found in a Sync", looked.in_a_sync),
        ("a total offset that 16 bits do not hold", looked.beyond_16_bits),
        ("a value of 0 bytes", looked.empty),
        ("mapped and not used in main, found in backup", looked.unused_in_main),
        ("absent, and not of 16 bytes", looked.no_label),
    ];
    all_met(&met);
}

/// Prints how often each case was met, and requires that it was.
fn all_met(met: &[(&str, usize)]) {
    for (what, count) in met {
        say(&format!("  {what}: {count}"));
        assert!(*count > 0, "never met: {what}");
    }
}

#[test]
fn bw_pmd_read_agrees() {
    let of_any = |random: &mut Random, _| {
        let kind = any_kind(random);
        pmd_read_call(random, kind)
    };
    let tally = compare(seed() + 3, inputs(INPUTS), of_any);
    require("bw_pmd_read", &tally, &[1, 15, 16, 17, 18, 19]);
}

#[test]
fn bw_pmd_write_agrees() {
    let of_any = |random: &mut Random, _| {
        let kind = any_kind(random);
        pmd_write_call(random, kind)
    };
    let tally = compare(seed() + 4, inputs(INPUTS), of_any);
    require("bw_pmd_write", &tally, &[15, 16, 17, 19]);
}

#[test]
fn turnarounds_agree() {
    let read = compare(seed() + 7, inputs(INPUTS), |random, _| pmd_read_call(random, ETD));
    require("bw_pmd_read", &read, &[1, 15, 16, 17, 18]);
    let written = compare(seed() + 8, inputs(INPUTS), |random, _| pmd_write_call(random, ETD));
    require("bw_pmd_write", &written, &[15, 16, 17]);
}

#[test]
fn bw_gain_agrees() {
    let tally = compare(seed() + 5, inputs(INPUTS), gain_call);
    require("bw_gain", &tally, &[17]);
}

/// What values made of tables: cases of interest.
#[derive(Default)]
struct Applied {
    set: usize,
    moved: usize,
    named_twice: usize,
    new_twice: usize,
    filled: usize,
    full_by_one: usize,
    later_record: usize,
    stale_kept: usize,
    sizes: [usize; 5],
}

impl Applied {
    fn add(&mut self, call: &Call) {
        let Call::ObjectsApply { kind, value, table } = call else { panic!("a value for a table") };
        let told = oracle::outcome(call);
        let size = [0, 1, TABLE_MAX - 1, TABLE_MAX, TABLE_MAX + 1].iter().position(|size| *size == table.len());
        size.into_iter().for_each(|size| self.sizes[size] += 1);
        match told.answer {
            Answer { number: 0, .. } => self.add_done(*kind, value, table, &told.table()),
            Answer { number: 22 | 23, value: 1.. } => self.later_record += 1,
            Answer { number: 24, .. } => {
                let (new, _) = new_elements(*kind, value, table);
                self.full_by_one += usize::from(new == free_entries(table) + 1);
            }
            _ => {}
        }
    }

    fn add_done(&mut self, kind: u32, value: &[u8], before: &[Entry], after: &[Entry]) {
        let named: Vec<u32> = records_in(kind, value).iter().map(|record| record[0]).collect();
        let (new, new_records) = new_elements(kind, value, before);
        let is_stale = |entry: &Entry| entry[0] == 0 && *entry != Entry::default();
        self.set += usize::from(kind == AOD);
        self.moved += usize::from(kind != AOD);
        self.named_twice += usize::from(named.iter().collect::<BTreeSet<_>>().len() < named.len());
        self.new_twice += usize::from(new < new_records);
        self.filled += usize::from(new > 0 && free_entries(after) == 0);
        self.stale_kept += usize::from(new > 0 && after.iter().any(is_stale));
    }
}

/// How many elements a good value names that no entry has, and how many records name them.
fn new_elements(kind: u32, value: &[u8], table: &[Entry]) -> (usize, usize) {
    let records = records_in(kind, value);
    let new = |element: &u32| table.iter().all(|entry| entry[0] != *element);
    let named: Vec<u32> = records.iter().map(|record| record[0]).filter(new).collect();
    (named.iter().collect::<BTreeSet<_>>().len(), named.len())
}

#[test]
fn bw_objects_apply_agrees() {
    let mut applied = Applied::default();
    let tally = compare(seed() + 14, inputs(INPUTS), |random, _| {
        let call = objects_apply_call(random);
        applied.add(&call);
        call
    });
    require("bw_objects_apply", &tally, &[1, 16, 17, 18, 19, 21, 22, 23, 24]);
    all_met(&[
        ("entries set", applied.set),
        ("entries moved", applied.moved),
        ("an element twice in a value", applied.named_twice),
        ("a new element twice in a value", applied.new_twice),
        ("a table filled to its last entry", applied.filled),
        ("full by one", applied.full_by_one),
        ("refused at a later record", applied.later_record),
        ("numbers kept in a free entry", applied.stale_kept),
        ("a table of 0 entries", applied.sizes[0]),
        ("of 1", applied.sizes[1]),
        ("of 127", applied.sizes[2]),
        ("of 128", applied.sizes[3]),
        ("of 129", applied.sizes[4]),
    ]);
}

#[test]
fn bw_objects_clear_agrees() {
    let tally = compare(seed() + 15, inputs(INPUTS), |random, _| objects_clear_call(random));
    require("bw_objects_clear", &tally, &[21, 22]);
}

/// Every value of two bytes after the key, with the pack's length right, and every single byte.
#[test]
fn small_packs_agree() {
    let small = |_: &mut Random, index: usize| {
        let [.., one, two] = (index as u32).to_be_bytes();
        let rest = if index < 1 << 16 { vec![2, one, two] } else { vec![two] };
        Call::Check { pack: [&KEY[..], &rest].concat() }
    };
    compare(0, (1 << 16) + 256, small);
}

/// Every value of two bytes, of every kind.
#[test]
fn small_values_agree() {
    let small = |_: &mut Random, index: usize| {
        let value = (index as u32).to_be_bytes()[2..].to_vec();
        Call::PmdRead { kind: 1 + (index >> 16) as u32, value, numbers: vec![77; 4] }
    };
    compare(0, 7 << 16, small);
}

/// Every langcod, of both kinds that have one: two or three letters of 26 are good, and nothing else.
#[test]
fn languages_agree() {
    let each = |index: usize| (1 + (index >> 15) as u32, (index & 0x7FFF) as u32);
    let read = compare(0, 2 << 15, |_, index| {
        let (kind, langcod) = each(index);
        // Presentation 1 in 9 bits, of APD speaker_config 0 in 5, the langcod in 15, and nothing in the list.
        let value = match kind {
            1 => (1_u64 << 39 | u64::from(langcod) << 19).to_be_bytes()[2..].to_vec(),
            _ => (1 << 23 | langcod << 8).to_be_bytes().to_vec(),
        };
        Call::PmdRead { kind, value, numbers: vec![77; 4] }
    });
    let written = compare(0, 2 << 15, |_, index| {
        let (kind, langcod) = each(index);
        let numbers = if kind == 1 { vec![1, 0, langcod, 0] } else { vec![1, langcod, 0] };
        Call::PmdWrite { kind, numbers, out: vec![77; 6] }
    });
    let good = 2 * 26 * 26 * (26 + 1);
    for tally in [read, written] {
        assert_eq!((tally.of(0), tally.of(17)), (good, (2 << 15) - good));
    }
}

fn read_turnarounds(value: &[u8], numbers: Vec<u32>) -> Call {
    Call::PmdRead { kind: ETD, value: value.to_vec(), numbers }
}

fn write_turnarounds(numbers: &[u32], out: Vec<u8>) -> Call {
    Call::PmdWrite { kind: ETD, numbers: numbers.to_vec(), out }
}

/// Turnarounds that fill a value, cut off at every byte, and their list, cut off at every number: a list is good
/// exactly where a record ends.
#[test]
fn cut_turnarounds_agree() {
    let (records, numbers, value) = many_turnarounds(&mut Random::new(seed()));
    let read = compare(seed(), value.len() + 1, |random, size| {
        let room = numbers.len() + random.below(2);
        read_turnarounds(&value[..size], random.numbers(room))
    });
    assert_eq!(read.of(0) + read.of(16) + read.of(18), value.len() + 1);
    assert!(read.of(0) > 0 && read.of(18) > 0, "no cut stands where a record ends, or in the byte after it");
    let written = compare(seed(), numbers.len() + 1, |random, count| {
        let room = value.len() + random.below(2);
        write_turnarounds(&numbers[..count], random.bytes(room))
    });
    assert_eq!((written.of(0), written.of(16)), (records, numbers.len() + 1 - records));
}

/// So many turnarounds without deliverables.
fn bare_turnarounds(count: u32) -> Vec<u32> {
    (0..count).flat_map(|id| [1 + id % 255, 0, 0]).collect()
}

/// No value has more numbers than 3,276 turnarounds without deliverables. A byte more begins a record that it can't
/// end, a record more has no room in any buffer, and a value that another record fills to 4,096 bytes has fewer.
#[test]
fn most_numbers_agree() {
    let (most, more) = (bare_turnarounds(3276), bare_turnarounds(3277));
    let full = [&[9, 1, 5, 0, 255, 0], &bare_turnarounds(3273)[..]].concat();
    let write = |numbers: &[u32], room: usize| write_turnarounds(numbers, vec![77; room]);
    let read = |value: &[u8], room: usize| read_turnarounds(value, vec![77; room]);
    let mut archive = Archive::start();
    let value = archive.outcome(&write(&most, 4095)).buffer;
    let full_value = archive.outcome(&write(&full, 4096)).buffer;
    let mut calls = vec![
        (write(&most, 4095), 0, 4095),
        (write(&most, 4096), 0, 4095),
        (write(&most, 4094), 15, 0),
        (write(&more, 5000), 15, 0),
        (write(&full, 4096), 0, 4096),
        (read(&value, NUMBERS_MAX), 0, NUMBERS_MAX),
        (read(&value, NUMBERS_MAX + 1), 0, NUMBERS_MAX),
        (read(&value, NUMBERS_MAX - 1), 15, 0),
        (read(&full_value, NUMBERS_MAX), 0, full.len()),
    ];
    calls.extend((0..=255).map(|byte| {
        let (number, place) = if byte == 0 { (17, 32_760) } else { (16, 32_768) };
        (read(&[&value[..], &[byte]].concat(), NUMBERS_MAX + 3), number, place)
    }));
    compare(0, calls.len(), |_, index| calls[index].0.clone());
    for (call, number, value) in &calls {
        assert_eq!(archive.outcome(call).answer, Answer { number: *number, value: *value as u64 });
    }
}

/// A scrub of a pack of one payload, number 5, by these bytes of a sheet.
fn scrub_of_one(sheet: Vec<u8>) -> Call {
    Call::Scrub { sheet, pack: [&KEY[..], &[3, 5, 1, 0xAA]].concat(), out: vec![77; 26] }
}

/// What that scrub comes to if it keeps the payload, keeps nothing, or is refused: the answer, the pack's length for success.
const KEPT: Answer = Answer { number: 0, value: 26 };
const DROPPED: Answer = Answer { number: 0, value: 23 };
const SHEET: Answer = Answer { number: 14, value: 0 };

/// The header that keeps none, and the one that keeps all.
const ALONE: [[u16; 4]; 2] = [[0, 8, 0, 8], [0xFFFF, 8, 0xFFFF, 8]];

fn header(numbers: [u16; 4]) -> Vec<u8> {
    numbers.iter().flat_map(|number| number.to_be_bytes()).collect()
}

/// Every header of 8 bytes that differs from one of the two in one of its numbers at most: only those two are sheets,
/// for a scrub and for a check.
#[test]
fn headers_around_all_and_none_agree() {
    let around = |index: usize| {
        let mut numbers = ALONE[index >> 18];
        numbers[index >> 16 & 3] = index as u16;
        header(numbers)
    };
    let scrubbed = compare(0, 8 << 16, |_, index| scrub_of_one(around(index)));
    let checked = compare(0, 8 << 16, |_, index| Call::SheetCheck { sheet: around(index) });
    for tally in [scrubbed, checked] {
        assert_eq!((tally.of(0), tally.of(14)), (8, (8 << 16) - 8));
    }
}

/// Sheets of a few bytes, and of as many as 65,535 entries take: 0 bytes keep none, and no sheet but one keeps all. A
/// check counts no entries on those that are good.
#[test]
fn one_sheet_keeps_all() {
    let mut sheets = vec![(vec![], DROPPED), (header(ALONE[0]), DROPPED), (header(ALONE[1]), KEPT)];
    for alone in ALONE {
        let whole = header(alone);
        sheets.extend((1..8).map(|size| (whole[..size].to_vec(), SHEET)));
        sheets.extend((1..40).map(|more| ([&whole[..], &vec![5; more]].concat(), SHEET)));
        let flipped = |one: usize, two: usize| {
            let mut bytes = whole.clone();
            bytes[one / 8] ^= 1 << (one % 8);
            bytes[two / 8] ^= if one == two { 0 } else { 1 << (two % 8) };
            (bytes, SHEET)
        };
        sheets.extend((0..64).flat_map(|one| (one..64).map(move |two| (one, two))).map(|(one, two)| flipped(one, two)));
    }
    for (labels, numbers) in [(65_535, 0), (0, 65_535), (65_535, 65_535)] {
        let counts = header([labels as u16, 8, numbers as u16, (8 + 16 * labels) as u16]);
        sheets.push(([counts, vec![9; 16 * labels + 4 * numbers]].concat(), SHEET));
    }
    let calls: Vec<Call> = sheets.iter().map(|(sheet, _)| scrub_of_one(sheet.clone())).collect();
    compare(0, calls.len(), |_, index| calls[index].clone());
    let mut archive = Archive::start();
    for ((sheet, expected), call) in sheets.iter().zip(&calls) {
        assert_eq!(archive.outcome(call).answer, *expected, "sheet {sheet:02X?}");
        let check = archive.outcome(&Call::SheetCheck { sheet: sheet.clone() });
        assert_eq!(check.answer, Answer { number: expected.number, value: 0 }, "sheet {sheet:02X?}");
    }
}
