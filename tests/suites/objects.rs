//! The live table of objects: its corners, and histories of calls on one table. What is accepted leaves the table that
//! the rules say, worked out here and not by the reference; what is refused leaves it whole, free entries included.

use ballastwren_tests::archive::{shown, Answer, Archive, Call, Outcome};
use ballastwren_tests::objects::{after, any_clearing, any_entry, any_update, free_entries, good_table, verdict};
use ballastwren_tests::objects::{Entry, AOD, TABLE_MAX, XYZ};
use ballastwren_tests::oracle;
use ballastwren_tests::random::Random;
use ballastwren_tests::runs::{compare, inputs, require, say, seed, Tally};
use ballastwren_tests::values::{records_in, value_of};

/// Sizes around both ends of what a table may have.
const SIZES: [usize; 5] = [0, 1, TABLE_MAX - 1, TABLE_MAX, TABLE_MAX + 1];

const TABLE: Answer = Answer { number: 21, value: 0 };
const FULL: Answer = Answer { number: 24, value: 0 };

fn unknown(record: u64) -> Answer {
    Answer { number: 22, value: record }
}

fn fixed(record: u64) -> Answer {
    Answer { number: 23, value: record }
}

fn done(count: usize) -> Answer {
    Answer { number: 0, value: count as u64 }
}

/// An entry of this element, which the other numbers tell apart from others.
fn entry(element: u32, dynamic: u32) -> Entry {
    [element, element % 7, dynamic, 1 + element % 1023, 1023, 1, element % 32, 1, 0, element % 256, 63]
}

/// Used and dynamic, with the elements from 1 on.
fn used(size: usize) -> Vec<Entry> {
    (1..=size as u32).map(|element| entry(element, 1)).collect()
}

/// Free, and with numbers that no record can hold.
fn stale(size: usize) -> Vec<Entry> {
    let numbers = |index| [0, 7, 2, 0, 1024, index as u32, 32, 2, u32::MAX, 256, 64];
    (0..size).map(numbers).collect()
}

fn apply(kind: u32, value: Vec<u8>, table: &[Entry]) -> Call {
    Call::ObjectsApply { kind, value, table: table.to_vec() }
}

fn clear(element: u32, table: &[Entry]) -> Call {
    Call::ObjectsClear { element, table: table.to_vec() }
}

/// A good value with records of these elements.
fn naming(kind: u32, elements: &[u32]) -> Vec<u8> {
    value_of(&mut Random::new(elements.len() as u64), kind, elements, true)
}

/// A value that names elements, and what applying it comes to.
fn applying(kind: u32, elements: &[u32], table: &[Entry], answer: Answer) -> (Call, Answer, Vec<Entry>) {
    let value = naming(kind, elements);
    let left = if answer.number == 0 { after(kind, &records_in(kind, &value), table) } else { table.to_vec() };
    (apply(kind, value, table), answer, left)
}

/// The archive and the reference both come to these answers and leave these tables.
fn come_to(cases: &[(Call, Answer, Vec<Entry>)]) {
    compare(0, cases.len(), |_, index| cases[index].0.clone());
    let mut archive = Archive::start();
    for (call, answer, table) in cases {
        let got = archive.outcome(call);
        assert_eq!((got.answer, got.table()), (*answer, table.clone()), "{}", shown(call));
    }
}

/// One entry too many is refused whatever the entries are and whatever is asked; any fewer are good.
#[test]
fn sizes_of_tables_agree() {
    let mut cases = Vec::new();
    for size in SIZES {
        let good = size <= TABLE_MAX;
        let or_table = |answer| if good { answer } else { TABLE };
        let (full, empty) = (used(size), stale(size));
        let last = size as u32;
        let of_one = |answer| or_table(if size == 0 { unknown(0) } else { answer });
        cases.push(applying(AOD, &[last + 1], &full, or_table(FULL)));
        cases.push(applying(AOD, &[last + 1], &empty, or_table(if size == 0 { FULL } else { done(1) })));
        cases.push(applying(XYZ, &[last.max(1)], &full, of_one(done(1))));
        cases.push(applying(XYZ, &[last.max(1)], &empty, or_table(unknown(0))));
        let all: Vec<u32> = (1..=last.max(1)).collect();
        cases.push(applying(AOD, &all, &empty, or_table(if size == 0 { FULL } else { done(size) })));
        cases.push(applying(AOD, &all, &full, or_table(if size == 0 { FULL } else { done(size) })));
        let mut cleared = full.clone();
        if size > 0 && good {
            cleared[size - 1] = Entry::default();
        }
        cases.push((clear(last.max(1), &full), of_one(done(1)), cleared));
        cases.push((clear(1, &empty), or_table(unknown(0)), empty));
    }
    come_to(&cases);
}

/// The table after records of these elements, and in which slots the elements stand.
fn slots_after(archive: &mut Archive, elements: &[u32], table: &[Entry]) -> Vec<u32> {
    let (call, answer, left) = applying(AOD, elements, table, done(elements.len()));
    let got = archive.outcome(&call);
    assert_eq!((got.answer, got.table()), (answer, left), "{}", shown(&call));
    got.table().iter().map(|entry| entry[0]).collect()
}

/// New elements stand in the lowest free slots by first appearance, and a repeat stands where the first does.
#[test]
fn new_elements_stand_in_order() {
    let mut archive = Archive::start();
    let mut table = stale(6);
    (table[1], table[4]) = (entry(50, 0), entry(60, 1));
    assert_eq!(slots_after(&mut archive, &[9], &table), [9, 50, 0, 0, 60, 0]);
    assert_eq!(slots_after(&mut archive, &[9, 8, 7], &table), [9, 50, 8, 7, 60, 0]);
    assert_eq!(slots_after(&mut archive, &[9, 60, 9, 8, 50, 9, 8, 7, 6], &table), [9, 50, 8, 7, 60, 6]);
    assert_eq!(slots_after(&mut archive, &[60, 50, 60], &table), [0, 50, 0, 0, 60, 0]);
    assert_eq!(slots_after(&mut archive, &[4095, 1, 4095], &table), [4095, 50, 1, 0, 60, 0]);
}

/// The table is full exactly when distinct new elements are more than its free entries.
#[test]
fn full_agrees() {
    let mut cases = Vec::new();
    for size in [0, 1, 2, 5, TABLE_MAX] {
        for free in [0, 1, 2, size / 2, size].into_iter().filter(|free| *free <= size) {
            let table = [used(size - free), stale(free)].concat();
            let new = |count: usize| (0..count as u32).map(|k| 4095 - k).collect::<Vec<u32>>();
            cases.push(applying(AOD, &new(free + 1), &table, FULL));
            cases.push(applying(AOD, &[new(free + 1), new(free + 1)].concat(), &table, FULL));
            if free > 0 {
                cases.push(applying(AOD, &new(free), &table, done(free)));
                cases.push(applying(AOD, &new(free).repeat(3), &table, done(3 * free)));
                cases.push(applying(AOD, &[new(free), new(1)].concat(), &table, done(free + 1)));
            }
            if free < size {
                let known: Vec<u32> = (1..=(size - free) as u32).collect();
                cases.push(applying(AOD, &[known.clone(), new(free), known].concat(), &table, done(2 * size - free)));
            }
        }
    }
    come_to(&cases);
}

/// Record by record: whichever of UNKNOWN and STATIC comes first is told, with its record's index.
#[test]
fn positions_are_judged_in_order() {
    let mut table = stale(4);
    (table[0], table[2]) = (entry(3, 0), entry(1, 1));
    let mut cases = vec![
        applying(XYZ, &[1], &table, done(1)),
        applying(XYZ, &[1, 1, 1], &table, done(3)),
        applying(XYZ, &[3, 9], &table, fixed(0)),
        applying(XYZ, &[9, 3], &table, unknown(0)),
        applying(XYZ, &[1, 3, 9], &table, fixed(1)),
        applying(XYZ, &[1, 1, 9, 3], &table, unknown(2)),
        applying(XYZ, &[4095], &table, unknown(0)),
    ];
    let many: Vec<u32> = [vec![1; 779], vec![3]].concat();
    cases.push(applying(XYZ, &many, &table, fixed(779)));
    cases.push(applying(XYZ, &[vec![1; 779], vec![2]].concat(), &table, unknown(779)));
    cases.push(applying(XYZ, &[1; 780], &table, done(780)));
    cases.push(applying(AOD, &[[1; 480].to_vec(), vec![3]].concat(), &table, done(481)));
    // An AOD sets an entry that is not dynamic.
    cases.push(applying(AOD, &[3], &table, done(1)));
    come_to(&cases);
}

/// A used entry with any number that its field cannot hold is refused, in every slot; a free one is not looked at.
#[test]
fn reserved_numbers_in_tables_agree() {
    let reserved: [&[u32]; 11] = [
        &[4096, 1 << 16, u32::MAX],
        &[7, 8, 15, 16, u32::MAX],
        &[2, 3, u32::MAX],
        &[0, 1024, 1 << 16],
        &[0, 1024, 1 << 31],
        &[0, 1024, u32::MAX],
        &[32, u32::MAX],
        &[2, u32::MAX],
        &[2, u32::MAX],
        &[256, u32::MAX],
        &[64, u32::MAX],
    ];
    let mut cases = Vec::new();
    for (field, numbers) in reserved.into_iter().enumerate() {
        for (&number, slot) in numbers.iter().flat_map(|number| [(number, 0), (number, 2), (number, TABLE_MAX - 1)]) {
            let mut table = used(TABLE_MAX);
            table[slot][field] = number;
            cases.push(applying(AOD, &[2], &table, TABLE));
            cases.push(applying(XYZ, &[2], &table, TABLE));
            cases.push((clear(2, &table), TABLE, table.clone()));
            table[slot][0] = 0;
            cases.push(applying(XYZ, &[2], &table, done(1)));
        }
    }
    come_to(&cases);
}

/// Every pair of slots with one element is refused, used entries alone.
#[test]
fn repeats_in_tables_agree() {
    let mut cases = Vec::new();
    for size in [2, 3, 9, TABLE_MAX] {
        let ends = [0, 1, size / 2, size - 2, size - 1];
        for (one, other) in ends.into_iter().flat_map(|one| ends.map(|other| (one, other))) {
            let mut table = used(size);
            table[one] = table[other];
            let answer = if one == other { done(1) } else { TABLE };
            let element = table[other][0];
            cases.push(applying(AOD, &[element], &table, answer));
            cases.push(applying(XYZ, &[element], &table, answer));
        }
    }
    come_to(&cases);
}

/// TABLE comes first, then KIND and the value's own refusals, then what the table says of the records.
#[test]
fn order_of_table_refusals_agrees() {
    let good = vec![entry(1, 0)];
    let bad = vec![entry(1, 0), entry(1, 0)];
    let answer = |number, value| Answer { number, value };
    let position = naming(XYZ, &[1, 9]);
    let padded = [&naming(AOD, &[9])[..8], &[0x0F]].concat();
    let values = [
        (AOD, vec![0; 4097], answer(1, 0)),
        (XYZ, vec![], answer(16, 0)),
        (XYZ, position[..9].to_vec(), answer(16, 70)),
        (AOD, vec![0; 4096], answer(17, 0)),
        (XYZ, vec![0x04, 0x00, 0x40, 0x08, 0x03, 0xFF], answer(17, 18)),
        (AOD, padded, answer(18, 68)),
        (XYZ, position, fixed(0)),
        (AOD, naming(AOD, &[9]), FULL),
    ];
    let mut cases = Vec::new();
    for (kind, value, expected) in values {
        cases.push((apply(kind, value.clone(), &good), expected, good.clone()));
        for kind in [0, 1, 2, 5, 6, 7, 8, 259, u32::MAX] {
            cases.push((apply(kind, value.clone(), &good), answer(19, 0), good.clone()));
            cases.push((apply(kind, value.clone(), &bad), TABLE, bad.clone()));
        }
        cases.push((apply(kind, value, &bad), TABLE, bad.clone()));
    }
    for element in [0, 1, 9, 4096, u32::MAX] {
        cases.push((clear(element, &bad), TABLE, bad.clone()));
    }
    come_to(&cases);
}

/// Every element, and every number of 16 bits, is cleared where it stands and nowhere else; its slot is the next one.
#[test]
fn clearing_and_reuse_agree() {
    let table = [stale(1), used(3), stale(1)].concat();
    let tally = compare(0, 1 << 16, |_, index| clear(index as u32, &table));
    assert_eq!((tally.of(0), tally.of(22)), (3, (1 << 16) - 3));
    let mut archive = Archive::start();
    for slot in 1..4 {
        let mut left = table.clone();
        left[slot] = Entry::default();
        let cleared = clear(slot as u32, &table);
        let got = archive.outcome(&cleared);
        assert_eq!((got.answer, got.table()), (done(1), left.clone()));
        assert_eq!(archive.outcome(&clear(slot as u32, &left)).answer, unknown(0));
        assert_eq!(slots_after(&mut archive, &[70, 80], &left)[slot], 80);
        assert_eq!(archive.outcome(&apply(XYZ, naming(XYZ, &[slot as u32]), &left)).answer, unknown(0));
    }
}

/// What a call on a well formed table comes to by the rules; nothing where the value itself is at fault.
fn by_the_rules(archive: &mut Archive, call: &Call) -> Option<(Answer, Vec<Entry>)> {
    match call {
        Call::ObjectsClear { element, table } => {
            let slot = table.iter().position(|entry| *element != 0 && entry[0] == *element);
            let Some(slot) = slot else { return Some((unknown(0), table.clone())) };
            let mut left = table.clone();
            left[slot] = Entry::default();
            Some((done(1), left))
        }
        Call::ObjectsApply { kind: kind @ (AOD | XYZ), value, table } => {
            let read = Call::PmdRead { kind: *kind, value: value.clone(), numbers: vec![0; 5300] };
            if archive.outcome(&read).answer.number != 0 {
                return None;
            }
            let records = records_in(*kind, value);
            let refused = verdict(*kind, &records, table).map(|(number, value)| Answer { number, value });
            let left = if refused.is_none() { after(*kind, &records, table) } else { table.clone() };
            Some((refused.unwrap_or(done(records.len())), left))
        }
        _ => None,
    }
}

fn any_step(random: &mut Random, table: &[Entry], clearing: usize) -> Call {
    if random.percent(clearing) {
        return clear(any_clearing(random, table), table);
    }
    let (kind, value) = any_update(random, table);
    apply(kind, value, table)
}

/// A call on the table as the archive left it: the reference and the rules say the same of it.
fn step(archive: &mut Archive, call: &Call) -> Outcome {
    let got = archive.outcome(call);
    assert_eq!(got, oracle::outcome(call), "{}", shown(call));
    let (Call::ObjectsApply { table, .. } | Call::ObjectsClear { table, .. }) = call else { panic!("a table's call") };
    match by_the_rules(archive, call) {
        Some(expected) => assert_eq!((got.answer, got.table()), expected, "{}", shown(call)),
        None => assert!(matches!(got.answer.number, 1 | 16..=19) && got.table() == *table, "{}", shown(call)),
    }
    got
}

/// Histories of thousands of calls, each on the table that the one before it left, which is compared whole every time.
/// A table that was well formed stays so: TABLE is never met.
#[test]
fn histories_agree() {
    let mut archive = Archive::start();
    let mut tally = Tally::default();
    let [mut filled, mut emptied, mut reused] = [0; 3];
    for (size, clearing) in [(0, 20), (1, 40), (2, 30), (5, 30), (20, 60), (127, 30), (TABLE_MAX, 30), (TABLE_MAX, 70)]
    {
        let mut table = stale(size);
        for index in 0..inputs(4_000) {
            let random = &mut Random::of_input(seed() + 20 + size as u64 + clearing as u64, index);
            let got = step(&mut archive, &any_step(random, &table, clearing));
            tally.add(got.answer.number);
            let (before, left) = (free_entries(&table), free_entries(&got.table()));
            filled += usize::from(left == 0 && before > 0);
            emptied += usize::from(left == size && before < size);
            let cleared = |(was, is): (&Entry, &Entry)| *was == Entry::default() && is[0] != 0;
            reused += table.iter().zip(&got.table()).filter(|pair| cleared(*pair)).count();
            table = got.table();
        }
    }
    require("a history", &tally, &[1, 16, 17, 18, 19, 22, 23, 24]);
    say(&format!("  filled {filled} times, emptied {emptied} times, cleared slots used again {reused}"));
    assert!(filled > 0 && emptied > 0 && reused > 0);
}

/// Well formed tables as they come, each call by the rules.
#[test]
fn calls_are_by_the_rules() {
    let mut archive = Archive::start();
    for index in 0..inputs(40_000) {
        let random = &mut Random::of_input(seed() + 13, index);
        let size = random.pick(&[0, 1, 2, 4, 9, TABLE_MAX - 1, TABLE_MAX]);
        let mut table = good_table(random, size);
        if size > 0 && random.percent(10) {
            // A slot at the end that is the only free one, or the only used one.
            table = if random.percent(50) { used(size) } else { stale(size) };
            table[size - 1] = if table[0][0] == 0 { any_entry(random, 4095) } else { Entry::default() };
        }
        let call = any_step(random, &table, 20);
        step(&mut archive, &call);
    }
}
