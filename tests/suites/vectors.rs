//! Runs the vectors of a third implementation through the archive: the files of tab separated lines in `vectors/`.

use std::fs;
use std::path::Path;

use ballastwren_tests::archive::{found_buffer, hex, Answer, Archive, Beside, Call, Outcome};
use ballastwren_tests::objects::Entry;
use ballastwren_tests::packs::{dressed, Item, Label, Name, Payload, Said, KEY};
use ballastwren_tests::random::Random;
use ballastwren_tests::runs::say;
use ballastwren_tests::scrubbed::lines_by;

/// Runs one file of vectors.
fn run(file: &str) {
    let path = Path::new(env!("CARGO_MANIFEST_DIR")).join("vectors").join(file);
    let text = fs::read_to_string(&path).unwrap_or_else(|trouble| panic!("{}: {trouble}", path.display()));
    let mut archive = Archive::start();
    let mut count = 0;
    for (index, line) in text.lines().enumerate() {
        if line.is_empty() || line.starts_with('#') {
            continue;
        }
        let (inputs, results) = line.split_once("\t=>\t").expect("a line has a result");
        let inputs: Vec<&str> = inputs.split('\t').collect();
        judge(&mut archive, &inputs, results, &format!("{file}:{}", index + 1));
        count += 1;
    }
    assert!(count > 0, "no vectors in {file}");
    say(&format!("{file}: {count} vectors"));
}

fn judge(archive: &mut Archive, inputs: &[&str], results: &str, at: &str) {
    let told = match *inputs {
        ["read", _, pack] => read_told(archive, bytes(pack)),
        ["sheet", _, sheet] => return judge_sheet(archive, bytes(sheet), results, at),
        ["scrub", _, sheet, pack, out] => {
            let got = archive.outcome(&Call::Scrub { sheet: bytes(sheet), pack: bytes(pack), out: bytes(out) });
            format!("{}\t{}", outcome(got.answer), or_dash(hex(&got.buffer).to_lowercase()))
        }
        ["lookup", _, label, main, backup] => lookup_told(archive, &bytes(label), &bytes(main), &bytes(backup)),
        ["pmd_read", _, kind, value, numbers] => {
            let got =
                archive.outcome(&Call::PmdRead { kind: number(kind), value: bytes(value), numbers: list(numbers) });
            format!("{}\t{}", outcome(got.answer), or_dash(joined(&got.numbers())))
        }
        ["pmd_write", _, kind, numbers, out] => {
            let got = archive.outcome(&Call::PmdWrite { kind: number(kind), numbers: list(numbers), out: bytes(out) });
            format!("{}\t{}", outcome(got.answer), or_dash(hex(&got.buffer).to_lowercase()))
        }
        ["gain", _, gain] => gain_told(archive.outcome(&Call::Gain { gain: number(gain) })),
        ["table", _, before, kind, value] => {
            let call = Call::ObjectsApply { kind: number(kind), value: bytes(value), table: table(before) };
            table_told(archive.outcome(&call))
        }
        ["clear", _, before, element] => {
            let call = Call::ObjectsClear { element: number(element), table: table(before) };
            table_told(archive.outcome(&call))
        }
        _ => panic!("unknown vector {inputs:?} at {at}"),
    };
    assert_eq!(told, results, "{at}");
}

/// The listing that the rows stand for, its lines joined; the check must agree with it.
fn read_told(archive: &mut Archive, pack: Vec<u8>) -> String {
    let checked = archive.outcome(&Call::Check { pack: pack.clone() }).answer;
    let read = archive.outcome(&Call::Read { pack: pack.clone(), rows: vec![0; 520] });
    if read.answer.number != 0 {
        assert_eq!(checked, read.answer);
        return outcome(read.answer);
    }
    assert_eq!((checked.number, 8 * (checked.value + 1)), (0, read.answer.value));
    lines_by(&pack, &read.numbers()[..read.answer.value as usize]).join("|")
}

/// A sheet shows what it is by its check, and by what it keeps of a pack that has all its names and another.
fn judge_sheet(archive: &mut Archive, sheet: Vec<u8>, results: &str, at: &str) {
    let named = names(results);
    let checked = outcome(archive.outcome(&Call::SheetCheck { sheet: sheet.clone() }).answer);
    let counted = if results.starts_with("refused") { results.to_string() } else { format!("ok {}", named.len()) };
    assert_eq!(checked, counted, "{at}");
    let foreign = Payload { name: Name::Number(268_000_001), value: vec![1] };
    let payloads = named.iter().map(|&name| Payload { name, value: vec![] }).chain([foreign]).take(64);
    let said = Said { offset: 0, items: payloads.map(Item::Single).collect() };
    let pack = dressed(&mut Random::new(1), &said).bytes();
    let got = archive.outcome(&Call::Scrub { sheet, pack, out: vec![0; 4096] });
    if results.starts_with("refused") {
        assert_eq!(outcome(got.answer), results, "{at}");
        return;
    }
    let written = got.buffer[..got.answer.value as usize].to_vec();
    let kept = archive.outcome(&Call::Check { pack: written }).answer;
    let expected = if results == "ok all" { 1 } else { named.len().min(64) };
    assert_eq!((got.answer.number, kept), (0, Answer { number: 0, value: expected as u64 }), "{at}");
}

/// The names in 'ok labels=.. numbers=..'.
fn names(results: &str) -> Vec<Name> {
    let Some((labels, numbers)) = results.strip_prefix("ok labels=").and_then(|rest| rest.split_once(" numbers="))
    else {
        return vec![];
    };
    let labels = labels
        .split(',')
        .filter(|label| *label != "-")
        .map(|label| Name::Label(Label::try_from(bytes(label)).expect("16 bytes")));
    labels.chain(list(numbers).into_iter().map(Name::Number)).collect()
}

/// The stretch that was found, whose bytes must be those of its pack; that of a refusal is empty.
fn lookup_told(archive: &mut Archive, label: &[u8], main: &[u8], backup: &[u8]) -> String {
    let (main, backup, label) = (main.to_vec(), backup.to_vec(), label.to_vec());
    let got = archive.outcome(&Call::Lookup { main: main.clone(), backup: backup.clone(), label });
    let Beside { from, start, total } = got.beside();
    let (mark, pack) = [("neither", &[][..]), ("main", &main), ("backup", &backup)][from as usize];
    if got.answer.number != 0 {
        assert_eq!(got.buffer, found_buffer(&main, &backup, Beside::refused(from), &[]));
        return format!("{} {mark}", outcome(got.answer));
    }
    let value = &pack[start as usize..][..got.answer.value as usize];
    assert_eq!(total, total_at(archive, pack, start));
    assert_eq!(got.buffer, found_buffer(&main, &backup, Beside { from, start, total }, value));
    format!("ok {mark} {start} {}", value.len())
}

/// The total offset that a reading has for the payload whose value starts there; the vectors of look-ups have none.
fn total_at(archive: &mut Archive, pack: &[u8], start: u64) -> i64 {
    let rows = archive.outcome(&Call::Read { pack: pack.to_vec(), rows: vec![0; 520] }).numbers();
    let row = rows.chunks(8).skip(1).find(|row| row[0] != 1 && u64::from(row[4]) == start);
    (row.expect("the payload has a row")[6] as i32).into()
}

fn gain_told(got: Outcome) -> String {
    match got.answer {
        Answer { number: 0, value } if value >> 32 == 1 => "ok muted".to_string(),
        Answer { number: 0, value } => format!("ok {}", value as u32 as i32),
        refused => outcome(refused),
    }
}

/// What a call comes to, of which the vectors have no count, and the table after it.
fn table_told(got: Outcome) -> String {
    let told = if got.answer.number == 0 { "ok".to_string() } else { outcome(got.answer) };
    let entries: Vec<String> = got.table().iter().map(|entry| joined(entry)).collect();
    format!("{told}\t{}", or_dash(entries.join(";")))
}

fn outcome(answer: Answer) -> String {
    match answer {
        Answer { number: 0, value } => format!("ok {value}"),
        Answer { number, value } => format!("refused {number} {value}"),
    }
}

fn number(text: &str) -> u32 {
    text.parse().expect("a number")
}

fn bytes(text: &str) -> Vec<u8> {
    let digits = text.trim_matches('-').as_bytes();
    let pair = |pair: &[u8]| u8::from_str_radix(std::str::from_utf8(pair).expect("ASCII"), 16).expect("hex digits");
    digits.chunks(2).map(pair).collect()
}

fn list(text: &str) -> Vec<u32> {
    if text == "-" {
        vec![]
    } else {
        text.split(',').map(number).collect()
    }
}

fn joined(numbers: &[u32]) -> String {
    numbers.iter().map(u32::to_string).collect::<Vec<_>>().join(",")
}

fn table(text: &str) -> Vec<Entry> {
    if text == "-" {
        vec![]
    } else {
        text.split(';').map(|entry| list(entry).try_into().expect("eleven numbers")).collect()
    }
}

fn or_dash(text: String) -> String {
    if text.is_empty() {
        "-".to_string()
    } else {
        text
    }
}

#[test]
fn requests() {
    run("2026-05.tsv");
}

#[test]
fn tables_of_objects() {
    run("2026-06.tsv");
}

#[test]
fn tiny() {
    run("tiny-2026-05.tsv");
}

/// The key of the vectors is the key of these tests.
#[test]
fn an_empty_pack_is_accepted() {
    let got = Archive::start().outcome(&Call::Check { pack: [&KEY[..], &[0]].concat() });
    assert_eq!(got.answer, Answer { number: 0, value: 0 });
}
