//! Times the proved functions beside the reference implementation's, in one run, and prints the ratio of the best times.
//! Each case is answered the same by both, or the run ends with status 1.

mod archive;
mod cases;

use std::hint::black_box;
use std::time::Instant;

use reference::{Object, Refusal};

const ROUNDS: usize = 60;
const SLICE: u128 = 300_000;

/// The best time of a call in nanoseconds, over rounds in which the two take turns at going first.
fn race(mut ours: impl FnMut(), mut theirs: impl FnMut()) -> (f64, f64) {
    let calls = calls_for(&mut theirs);
    let mut best = (f64::MAX, f64::MAX);
    for round in 0..ROUNDS {
        if round % 2 == 0 {
            best.0 = best.0.min(time(calls, &mut ours));
            best.1 = best.1.min(time(calls, &mut theirs));
        } else {
            best.1 = best.1.min(time(calls, &mut theirs));
            best.0 = best.0.min(time(calls, &mut ours));
        }
    }
    best
}

/// How many calls fill a slice of time that the clock measures well.
fn calls_for(call: &mut impl FnMut()) -> u32 {
    let mut calls = 1;
    loop {
        let start = Instant::now();
        (0..calls).for_each(|_| call());
        if start.elapsed().as_nanos() > SLICE {
            return calls;
        }
        calls *= 2;
    }
}

fn time(calls: u32, call: &mut impl FnMut()) -> f64 {
    let start = Instant::now();
    (0..calls).for_each(|_| call());
    start.elapsed().as_nanos() as f64 / f64::from(calls)
}

fn report(name: &str, (ours, theirs): (f64, f64)) {
    println!("{name:<44} reference {theirs:>9.1} ns  ours {ours:>9.1} ns  ratio {:.2}", ours / theirs);
}

fn agree<T: PartialEq + std::fmt::Debug>(name: &str, ours: T, theirs: T) {
    if ours != theirs {
        eprintln!("{name}: ours {ours:?}, the reference {theirs:?}");
        std::process::exit(1);
    }
}

fn pmd_read(case: &cases::Value) {
    let name = format!("pmd read, {}", case.name);
    let mut ours = vec![0; case.numbers.len()];
    let mut theirs = ours.clone();
    agree(&name, archive::pmd_read(case.kind, &case.bytes, &mut ours), archive::told(reference::pmd_read(case.kind, &case.bytes, &mut theirs)));
    agree(&name, &ours, &theirs);
    let times = race(
        || { let _ = black_box(archive::pmd_read(case.kind, black_box(&case.bytes), &mut ours)); },
        || { let _ = black_box(reference::pmd_read(case.kind, black_box(&case.bytes), &mut theirs)); },
    );
    report(&name, times);
}

fn pmd_write(case: &cases::Value) {
    let name = format!("pmd write, {}", case.name);
    let mut ours = vec![0; case.bytes.len()];
    let mut theirs = ours.clone();
    agree(&name, archive::pmd_write(case.kind, &case.numbers, &mut ours), archive::told(reference::pmd_write(case.kind, &case.numbers, &mut theirs)));
    agree(&name, &ours, &theirs);
    let times = race(
        || { let _ = black_box(archive::pmd_write(case.kind, black_box(&case.numbers), &mut ours)); },
        || { let _ = black_box(reference::pmd_write(case.kind, black_box(&case.numbers), &mut theirs)); },
    );
    report(&name, times);
}

fn check(case: &cases::Pack) {
    let name = format!("check, {}", case.name);
    agree(&name, archive::check(&case.bytes), archive::told(reference::check(&case.bytes)));
    let times = race(
        || { let _ = black_box(archive::check(black_box(&case.bytes))); },
        || { let _ = black_box(reference::check(black_box(&case.bytes))); },
    );
    report(&name, times);
}

/// The numbers of the largest reading: the pack's row and 64 more, of eight numbers each.
const ROWS: usize = 8 * 65;

fn read(case: &cases::Pack) {
    let name = format!("read, {}", case.name);
    let mut ours = vec![7; ROWS];
    let mut theirs = ours.clone();
    agree(&name, archive::read(&case.bytes, &mut ours), archive::told(reference::rows(&case.bytes, &mut theirs)));
    agree(&name, &ours, &theirs);
    let times = race(
        || { let _ = black_box(archive::read(black_box(&case.bytes), &mut ours)); },
        || { let _ = black_box(reference::rows(black_box(&case.bytes), &mut theirs)); },
    );
    report(&name, times);
}

/// The buffer has room for what goes in and its CRC.
fn scrub(case: &cases::Scrub) {
    let name = format!("scrub, {}", case.name);
    let mut ours = vec![7; case.pack.len() + 6];
    let mut theirs = ours.clone();
    agree(&name, archive::scrub(&case.sheet, &case.pack, &mut ours), archive::told(reference::scrub(&case.sheet, &case.pack, &mut theirs)));
    agree(&name, &ours, &theirs);
    let times = race(
        || { let _ = black_box(archive::scrub(black_box(&case.sheet), black_box(&case.pack), &mut ours)); },
        || { let _ = black_box(reference::scrub(black_box(&case.sheet), black_box(&case.pack), &mut theirs)); },
    );
    report(&name, times);
}

fn sheet_check(case: &cases::Sheet) {
    let name = format!("sheet check, {}", case.name);
    agree(&name, archive::sheet_check(&case.bytes), archive::told(reference::sheet_check(&case.bytes)));
    let times = race(
        || { let _ = black_box(archive::sheet_check(black_box(&case.bytes))); },
        || { let _ = black_box(reference::sheet_check(black_box(&case.bytes))); },
    );
    report(&name, times);
}

fn lookup(case: &cases::Lookup) {
    let name = format!("lookup, {}", case.name);
    agree(&name, archive::lookup(&case.main, &case.backup, &case.label), archive::found(reference::lookup(&case.main, &case.backup, &case.label)));
    let times = race(
        || { let _ = black_box(archive::lookup(black_box(&case.main), black_box(&case.backup), black_box(&case.label))); },
        || { let _ = black_box(reference::lookup(black_box(&case.main), black_box(&case.backup), black_box(&case.label))); },
    );
    report(&name, times);
}

fn ours_changed(change: &cases::Change, table: &mut [Object]) -> archive::Answer {
    match change {
        cases::Change::Apply(value) => archive::objects_apply(value.kind, black_box(&value.bytes), table),
        cases::Change::Clear(element) => archive::objects_clear(black_box(*element), table),
    }
}

fn theirs_changed(change: &cases::Change, table: &mut [Object]) -> Result<usize, Refusal> {
    match change {
        cases::Change::Apply(value) => reference::objects_apply(value.kind, black_box(&value.bytes), table),
        cases::Change::Clear(element) => reference::objects_clear(black_box(*element), table),
    }
}

/// What a call changes for the next one is put back before it, on both sides alike and within the time.
fn objects(case: &cases::Table) {
    let name = format!("objects, {}", case.name);
    let mut ours = case.entries.clone();
    let mut theirs = case.entries.clone();
    agree(&name, ours_changed(&case.change, &mut ours), archive::told(theirs_changed(&case.change, &mut theirs)));
    agree(&name, &ours, &theirs);
    let restored = case.restored.clone();
    let restore = |table: &mut [Object]| table[restored.clone()].copy_from_slice(&case.entries[restored.clone()]);
    let times = race(
        || { restore(&mut ours); let _ = black_box(ours_changed(&case.change, &mut ours)); },
        || { restore(&mut theirs); let _ = black_box(theirs_changed(&case.change, &mut theirs)); },
    );
    report(&name, times);
}

fn main() {
    let packs = cases::packs();
    packs.iter().for_each(check);
    packs.iter().for_each(read);
    cases::scrubs().iter().for_each(scrub);
    cases::sheets().iter().for_each(sheet_check);
    cases::lookups().iter().for_each(lookup);
    let values = cases::values();
    values.iter().for_each(pmd_read);
    values.iter().for_each(pmd_write);
    cases::tables().iter().for_each(objects);
}
