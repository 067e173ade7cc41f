//! Runs the vectors of a third implementation: the files of tab separated lines in
//! `tests/vectors` of the tree.

use std::fs;
use std::path::Path;

use reference::objects::FIELDS;
use reference::{gain, listing, lookup, pmd_read, pmd_write, rows, scrub};
use reference::{objects_apply, objects_clear};
use reference::{Found, Gain, LookupRefusal, Mark, Object, Refusal, Sheet};

/// Runs one file of vectors.
fn run(file: &str) {
    let folder = Path::new(env!("CARGO_MANIFEST_DIR")).join("../tests/vectors");
    let path = folder.join(file);
    let text = fs::read_to_string(&path).unwrap_or_else(|why| panic!("{}: {why}", path.display()));
    let mut count = 0;
    for (index, line) in text.lines().enumerate() {
        if line.is_empty() || line.starts_with('#') {
            continue;
        }
        let (inputs, results) = line.split_once("\t=>\t").expect("a line has a result");
        let inputs: Vec<&str> = inputs.split('\t').collect();
        assert_eq!(answer(&inputs), results, "{file}:{}", index + 1);
        count += 1;
    }
    assert!(count > 0, "no vectors in {file}");
    println!("{file}: {count} vectors");
}

/// What this implementation answers, in the words of the vectors.
fn answer(inputs: &[&str]) -> String {
    match *inputs {
        ["read", _, pack] => read_answer(&bytes(pack)),
        ["sheet", _, sheet] => sheet_answer(&bytes(sheet)),
        ["scrub", _, sheet, pack, out] => {
            let mut out = bytes(out);
            let result = scrub(&bytes(sheet), &bytes(pack), &mut out);
            format!("{}\t{}", outcome(result), hex(&out))
        }
        ["lookup", _, label, main, backup] => {
            lookup_answer(&bytes(label), &bytes(main), &bytes(backup))
        }
        ["pmd_read", _, kind, value, numbers] => {
            let mut numbers = list(numbers);
            let result = pmd_read(kind.parse().unwrap(), &bytes(value), &mut numbers);
            format!("{}\t{}", outcome(result), join(&numbers))
        }
        ["pmd_write", _, kind, numbers, out] => {
            let mut out = bytes(out);
            let result = pmd_write(kind.parse().unwrap(), &list(numbers), &mut out);
            format!("{}\t{}", outcome(result), hex(&out))
        }
        ["gain", _, number] => match gain(number.parse().unwrap()) {
            Ok(Gain::Muted) => "ok muted".to_string(),
            Ok(Gain::HalfDecibels(half)) => format!("ok {half}"),
            Err(refusal) => refused(refusal),
        },
        ["table", _, before, kind, value] => {
            let kind = kind.parse().unwrap();
            table_answer(before, |table| objects_apply(kind, &bytes(value), table))
        }
        ["clear", _, before, element] => {
            let element = element.parse().unwrap();
            table_answer(before, |table| objects_clear(element, table))
        }
        _ => panic!("unknown vector {inputs:?}"),
    }
}

/// The listing with its lines joined; the check and the rows must agree with it.
fn read_answer(pack: &[u8]) -> String {
    let text = listing(pack);
    let checked = reference::check(pack);
    let mut table = [0; 8 * 65];
    match checked {
        Ok(count) => {
            assert_eq!(text.lines().count(), 1 + count);
            assert_eq!(rows(pack, &mut table), Ok(8 * (1 + count)));
            assert_eq!(table[2] as usize, count);
        }
        Err(refusal) => {
            assert_eq!(text, format!("{}\n", refused(refusal)));
            assert_eq!(rows(pack, &mut table), Err(refusal));
        }
    }
    text.trim_end().replace('\n', "|")
}

fn sheet_answer(sheet: &[u8]) -> String {
    match Sheet::read(sheet) {
        Ok(Sheet::All) => "ok all".to_string(),
        Ok(Sheet::Only(names)) => {
            let labels: Vec<String> = names.labels().iter().map(|label| hex(label)).collect();
            let labels = if labels.is_empty() {
                "-".into()
            } else {
                labels.join(",")
            };
            let numbers: Vec<u32> = names.numbers().collect();
            format!("ok labels={labels} numbers={}", join(&numbers))
        }
        Err(refusal) => refused(refusal),
    }
}

/// The stretch that was found, which must be one of the pack it is said to be of.
fn lookup_answer(label: &[u8], main: &[u8], backup: &[u8]) -> String {
    match lookup(main, backup, label) {
        Ok(Found {
            mark, start, value, ..
        }) => {
            let pack = if mark == Mark::Main { main } else { backup };
            assert_eq!(value, &pack[start..][..value.len()]);
            format!("ok {} {start} {}", marked(Some(mark)), value.len())
        }
        Err(LookupRefusal { refusal, mark }) => format!("{} {}", refused(refusal), marked(mark)),
    }
}

fn marked(mark: Option<Mark>) -> &'static str {
    match mark {
        Some(Mark::Main) => "main",
        Some(Mark::Backup) => "backup",
        None => "neither",
    }
}

/// What a call comes to, of which the vectors have no count, and the table after it.
fn table_answer(
    before: &str,
    call: impl FnOnce(&mut [Object]) -> Result<usize, Refusal>,
) -> String {
    let mut table = table(before);
    let result = call(&mut table);
    let told = result.map_or_else(refused, |_| "ok".to_string());
    let entries = table
        .iter()
        .map(|&entry| join(&<[u32; FIELDS]>::from(entry)));
    let entries: Vec<String> = entries.collect();
    let entries = if entries.is_empty() {
        "-".into()
    } else {
        entries.join(";")
    };
    format!("{told}\t{entries}")
}

fn table(text: &str) -> Vec<Object> {
    if text == "-" {
        return Vec::new();
    }
    let entry = |text| <[u32; FIELDS]>::try_from(list(text)).unwrap().into();
    text.split(';').map(entry).collect()
}

fn outcome(result: Result<usize, Refusal>) -> String {
    match result {
        Ok(count) => format!("ok {count}"),
        Err(refusal) => refused(refusal),
    }
}

fn refused(refusal: Refusal) -> String {
    format!("refused {} {}", refusal.number, refusal.place)
}

fn bytes(text: &str) -> Vec<u8> {
    if text == "-" {
        return Vec::new();
    }
    let pairs = text.as_bytes().chunks(2);
    let pairs = pairs.map(|pair| std::str::from_utf8(pair).unwrap());
    pairs
        .map(|pair| u8::from_str_radix(pair, 16).unwrap())
        .collect()
}

fn hex(bytes: &[u8]) -> String {
    if bytes.is_empty() {
        return "-".to_string();
    }
    bytes.iter().map(|byte| format!("{byte:02x}")).collect()
}

fn list(text: &str) -> Vec<u32> {
    if text == "-" {
        return Vec::new();
    }
    text.split(',')
        .map(|number| number.parse().unwrap())
        .collect()
}

fn join(numbers: &[u32]) -> String {
    if numbers.is_empty() {
        return "-".to_string();
    }
    let words: Vec<String> = numbers.iter().map(u32::to_string).collect();
    words.join(",")
}

#[test]
fn requests() {
    run("2026-05.tsv");
}

#[test]
fn tables_of_objects() {
    run("2026-06.tsv");
}

#[test]
fn tiny() {
    run("tiny-2026-05.tsv");
}
