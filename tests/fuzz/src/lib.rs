//! A libFuzzer target. An input becomes calls of the archive, and each must have the reference's outcome. The reference
//! is what is instrumented: the fuzzer looks for inputs that take it another way.
//!
//! An input is two bytes, which choose the functions and how a pack is completed, then the pack, keep sheet, label, PMD
//! value or numbers. Completing it (key, own length, CRC) lets the fuzzer work on what stands behind them. Every second
//! form of a PMD value is taken as a table of objects and a value for it as well.

use std::sync::{Mutex, OnceLock};

use ballastwren_tests::archive::{shown, Archive, Call};
use ballastwren_tests::objects::{entry_of, Entry, ENTRY_BYTES};
use ballastwren_tests::oracle;
use ballastwren_tests::packs::{crc, length_bytes, KEY};
use ballastwren_tests::sheets::KEEP_ALL;

/// Bits of the first byte, for packs.
const WITH_KEY: u8 = 0x10;
const WITH_LENGTH: u8 = 0x20;
const WITH_CRC: u8 = 0x40;

/// # Safety
///
/// `data` points to `size` bytes, as libFuzzer promises.
#[no_mangle]
pub unsafe extern "C" fn LLVMFuzzerTestOneInput(data: *const u8, size: usize) -> i32 {
    static ARCHIVE: OnceLock<Mutex<Archive>> = OnceLock::new();
    if size < 2 {
        return -1;
    }
    // SAFETY: the caller lends these bytes for the time of the call.
    let input = unsafe { std::slice::from_raw_parts(data, size) };
    let calls = calls(input);
    let mut archive = ARCHIVE.get_or_init(|| Mutex::new(Archive::start())).lock().expect("one thread");
    archive.send(&calls);
    let expected: Vec<_> = calls.iter().map(oracle::outcome).collect();
    for ((call, expected), got) in calls.iter().zip(expected).zip(archive.receive(&calls)) {
        assert!(expected == got, "{}\n  archive {got:?}\n  reference {expected:?}", shown(call));
    }
    0
}

fn calls(input: &[u8]) -> Vec<Call> {
    let (choice, room, rest) = (input[0], usize::from(input[1]), &input[2..]);
    match choice & 7 {
        0 | 1 => pack_calls(pack(choice, rest), room),
        2 => lookup_calls(choice, room, rest),
        3 | 4 => {
            let (sheet, body) = rest.split_at(room.min(rest.len()));
            let out = vec![0xA5; 40 + body.len()];
            let scrub = Call::Scrub { sheet: sheet.to_vec(), pack: pack(choice, body), out };
            vec![Call::SheetCheck { sheet: sheet.to_vec() }, scrub]
        }
        5 | 6 => {
            let read = |kind| Call::PmdRead { kind, value: rest.to_vec(), numbers: vec![77; 4 * room] };
            let tables = if choice & 7 == 6 { table_calls(choice, room, rest) } else { vec![] };
            kinds(choice).map(read).chain(tables).collect()
        }
        _ => {
            let numbers: Vec<u32> = rest.chunks(2).map(number).collect();
            let write = |kind| Call::PmdWrite { kind, numbers: numbers.clone(), out: vec![0xA5; 4 * room] };
            kinds(choice).map(write).collect()
        }
    }
}

/// One kind, or all of them and the two beside them.
fn kinds(choice: u8) -> std::ops::RangeInclusive<u32> {
    let kind = u32::from(choice >> 3 & 7);
    if choice & 0x80 == 0 {
        kind..=kind
    } else {
        0..=8
    }
}

/// Two bytes, the greatest of them standing for numbers that need four.
fn number(bytes: &[u8]) -> u32 {
    let number = bytes.iter().fold(0, |number, byte| number << 8 | u32::from(*byte));
    if number < 0xFF00 {
        number
    } else {
        number << 16 | 0xFFFF
    }
}

fn pack_calls(pack: Vec<u8>, room: usize) -> Vec<Call> {
    let none = vec![0, 0, 0, 8, 0, 0, 0, 8];
    let few = [&[0, 0, 0, 8, 0, 2, 0, 8], &5_u32.to_be_bytes()[..], &64_u32.to_be_bytes()[..]].concat();
    vec![
        Call::Check { pack: pack.clone() },
        Call::Read { pack: pack.clone(), rows: vec![77; 520] },
        Call::Read { pack: pack.clone(), rows: vec![77; room] },
        Call::Scrub { sheet: KEEP_ALL.to_vec(), pack: pack.clone(), out: vec![0xA5; pack.len() + 8] },
        Call::Scrub { sheet: vec![], pack: pack.clone(), out: vec![0xA5; room] },
        Call::Scrub { sheet: none, pack: pack.clone(), out: vec![0xA5; room] },
        Call::Scrub { sheet: few, pack: pack.clone(), out: vec![0xA5; 4 * room] },
    ]
}

/// A label of 16 bytes, main, whose size is the input's second byte, and backup; then the two packs swapped, main as
/// both, and a label that lacks a byte or has one too many.
fn lookup_calls(choice: u8, room: usize, rest: &[u8]) -> Vec<Call> {
    let (label, packs) = rest.split_at(rest.len().min(16));
    let (main, backup) = packs.split_at(packs.len().min(room));
    let (main, backup) = (&pack(choice, main), &pack(choice, backup));
    let look = |main: &[u8], backup: &[u8], label: &[u8]| Call::Lookup {
        main: main.to_vec(),
        backup: backup.to_vec(),
        label: label.to_vec(),
    };
    vec![
        look(main, backup, label),
        look(backup, main, label),
        look(main, main, label),
        look(main, backup, &label[..label.len().min(15)]),
        look(main, backup, &[label, &[0]].concat()),
    ]
}

/// A table of as many entries as the input's second byte says, then a value, which is applied as one kind or as all of
/// them; its first two bytes, and the first entry's element, are cleared. Entries that have no bytes are free.
fn table_calls(choice: u8, entries: usize, rest: &[u8]) -> Vec<Call> {
    let (given, value) = rest.split_at(rest.len().min(ENTRY_BYTES * entries));
    let mut table: Vec<Entry> = given.chunks(ENTRY_BYTES).map(entry_of).collect();
    table.resize(entries, Entry::default());
    let apply = |kind| Call::ObjectsApply { kind, value: value.to_vec(), table: table.clone() };
    let clear = |element| Call::ObjectsClear { element, table: table.clone() };
    let elements = [number(&value[..value.len().min(2)]), table.first().map_or(0, |entry| entry[0])];
    kinds(choice).map(apply).chain(elements.map(clear)).collect()
}

/// The pack that the bytes are, or are the inside of.
fn pack(choice: u8, bytes: &[u8]) -> Vec<u8> {
    let mut body = bytes.to_vec();
    if choice & WITH_CRC != 0 {
        body.extend([3, 4, 0, 0, 0, 0]);
    }
    let key = if choice & WITH_KEY == 0 { &[][..] } else { &KEY };
    let length = if choice & WITH_LENGTH == 0 { vec![] } else { length_bytes(body.len() as u32, 0) };
    let mut pack = [key, &length, &body].concat();
    if choice & WITH_CRC != 0 {
        let covered = pack.len() - 4;
        let right = crc(&pack[..covered]);
        pack[covered..].copy_from_slice(&right.to_be_bytes());
    }
    pack
}
