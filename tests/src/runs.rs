//! Runs of many generated calls through the archive and the reference, and the count of what was answered.

use std::env;
use std::io::Write;
use std::time::{SystemTime, UNIX_EPOCH};

use crate::archive::{shown, Archive, Call, Outcome};
use crate::oracle;
use crate::random::Random;

const BATCH: usize = 128;

/// The seed of this run: fixed, or BALLASTWREN_SEED, a number or the word `random`.
pub fn seed() -> u64 {
    match env::var("BALLASTWREN_SEED").as_deref() {
        Ok("random") => SystemTime::now().duration_since(UNIX_EPOCH).expect("after 1970").as_nanos() as u64,
        Ok(number) => number.parse().expect("BALLASTWREN_SEED is a number or 'random'"),
        Err(_) => 2109,
    }
}

/// How many inputs a run has: as given, or BALLASTWREN_INPUTS.
pub fn inputs(usual: usize) -> usize {
    let given = env::var("BALLASTWREN_INPUTS").ok();
    given.map_or(usual, |number| number.parse().expect("BALLASTWREN_INPUTS is a number"))
}

/// Says a line that the test harness does not swallow.
pub fn say(line: &str) {
    writeln!(std::io::stderr(), "{line}").expect("standard error can be written");
}

/// How often each number was answered.
#[derive(Default)]
pub struct Tally([usize; NAMES.len()]);

impl Tally {
    pub fn add(&mut self, number: u64) {
        self.0[number as usize] += 1;
    }

    /// How often this number was answered.
    pub fn of(&self, number: usize) -> usize {
        self.0[number]
    }

    fn line(&self, function: &str) -> String {
        let counts: String = self
            .0
            .iter()
            .map(|count| if *count == 0 { format!("{:>8}", ".") } else { format!("{count:>8}") })
            .collect();
        format!("{function:<17}{counts}")
    }
}

const NAMES: [&str; 25] = [
    "done", "BIG", "SHORT", "KEY", "LENGTH", "TRAIL", "TAG", "CUT", "PLACE", "COUNT", "CONFIG", "MAP", "SYNC", "CRC",
    "SHEET", "NOROOM", "BITS", "FIELD", "PAD", "KIND", "ABSENT", "TABLE", "UNKNOWN", "STATIC", "FULL",
];

fn heading() -> String {
    NAMES.iter().fold(format!("{:<17}", "answered"), |line, name| format!("{line}{name:>8}"))
}

/// Compares archive and reference on `count` calls, and panics at the first difference.
pub fn compare(seed: u64, count: usize, mut call: impl FnMut(&mut Random, usize) -> Call) -> Tally {
    let mut archive = Archive::start();
    let mut tally = Tally::default();
    let mut next = 0;
    while next < count {
        let size = BATCH.min(count - next);
        let calls: Vec<Call> =
            (next..next + size).map(|index| call(&mut Random::of_input(seed, index), index)).collect();
        archive.send(&calls);
        let expected: Vec<Outcome> = calls.iter().map(oracle::outcome).collect();
        let got = archive.receive(&calls);
        for (place, (expected, got)) in expected.iter().zip(&got).enumerate() {
            let index = next + place;
            assert!(expected == got, "{}", difference(seed, index, &calls[place], expected, got));
            tally.add(got.answer.number);
        }
        next += size;
    }
    tally
}

fn difference(seed: u64, index: usize, call: &Call, expected: &Outcome, got: &Outcome) -> String {
    let mut text = format!(
        "seed {seed}, input {index}: {}\n  archive {:?}\n  reference {:?}",
        shown(call),
        got.answer,
        expected.answer
    );
    if let Some(at) = expected.buffer.iter().zip(&got.buffer).position(|(a, b)| a != b) {
        text += &format!(
            "\n  buffers differ first at byte {at}: archive {:02X}, reference {:02X}",
            got.buffer[at], expected.buffer[at]
        );
    }
    text
}

/// Prints the counts, and requires success and each of these refusals to have been met.
pub fn require(function: &str, tally: &Tally, refusals: &[usize]) {
    say(&format!("{}\n{}", heading(), tally.line(function)));
    let expected = |number: usize| number == 0 || refusals.contains(&number);
    let missing: Vec<&str> = (0..NAMES.len()).filter(|&n| expected(n) && tally.0[n] == 0).map(|n| NAMES[n]).collect();
    assert!(missing.is_empty(), "{function}: never answered {missing:?}");
    let strange: Vec<&str> = (0..NAMES.len()).filter(|&n| !expected(n) && tally.0[n] > 0).map(|n| NAMES[n]).collect();
    assert!(strange.is_empty(), "{function}: answered {strange:?}, which it cannot give");
}
