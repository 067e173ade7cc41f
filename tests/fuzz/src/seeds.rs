//! Writes inputs for the fuzzer to start from into a folder: seeds FOLDER.

use std::fs;
use std::path::PathBuf;

use ballastwren_tests::damage::damaged;
use ballastwren_tests::lookups::{any_asked, Asked};
use ballastwren_tests::objects::{any_table, any_update, bytes_of};
use ballastwren_tests::packs::any_pack;
use ballastwren_tests::random::Random;
use ballastwren_tests::sheets::any_sheet_bytes;
use ballastwren_tests::values::{any_list, any_value};

const SEEDS: usize = 400;
const TABLE_SEEDS: usize = 60;

fn main() {
    let folder = PathBuf::from(std::env::args_os().nth(1).expect("usage: seeds FOLDER"));
    fs::create_dir_all(&folder).expect("the folder can be made");
    let random = &mut Random::new(2109);
    for index in 0..SEEDS {
        let seed = seed(random, index);
        if seed.len() < 4096 {
            fs::write(folder.join(format!("seed-{index}")), seed).expect("the folder can be written");
        }
    }
    for index in 0..TABLE_SEEDS {
        let seed = table_seed(random);
        if seed.len() < 4096 {
            fs::write(folder.join(format!("table-seed-{index}")), seed).expect("the folder can be written");
        }
    }
}

/// An input of each form in turn, as `calls` of the target takes it apart.
fn seed(random: &mut Random, index: usize) -> Vec<u8> {
    let kind = random.between(1, 7) as u32;
    let (said, mut pack) = any_pack(random);
    match index % 7 {
        0 => [&[0, 64], &pack.bytes()[..]].concat(),
        1 => [&[0, 64], &damaged(random, &mut pack)[..]].concat(),
        // Without key and length, which the target puts before it.
        2 => [&[0x70, 64], &pack.bytes()[17..]].concat(),
        3 => {
            let mut sheet = any_sheet_bytes(random, &said);
            sheet.truncate(255);
            [&[3, sheet.len() as u8], &sheet[..], &pack.bytes()].concat()
        }
        4 => lookup_seed(random),
        5 => [&[5 | (kind as u8) << 3, 200], &any_value(random, kind)[..]].concat(),
        _ => {
            let numbers = any_list(random, kind).into_iter().flat_map(|number| (number as u16).to_be_bytes());
            [7 | (kind as u8) << 3, 200].into_iter().chain(numbers).collect()
        }
    }
}

/// A table of few entries, so that the fuzzer has short inputs to work on, and a value for it.
fn table_seed(random: &mut Random) -> Vec<u8> {
    loop {
        let table = any_table(random);
        let (kind, value) = any_update(random, &table);
        if table.len() < 10 && kind < 8 {
            let entries: Vec<u8> = table.iter().flat_map(bytes_of).collect();
            return [&[6 | (kind as u8) << 3, table.len() as u8], &entries[..], &value].concat();
        }
    }
}

/// A label and two packs, main of at most 255 bytes.
fn lookup_seed(random: &mut Random) -> Vec<u8> {
    loop {
        let Asked { packs, label, .. } = any_asked(random);
        let [main, backup] = packs.map(|pack| pack.bytes());
        if label.len() == 16 && main.len() < 256 {
            return [&[2, main.len() as u8], &label[..], &main, &backup].concat();
        }
    }
}
