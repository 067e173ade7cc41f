//! A look-up finds what was put into a pack, and the corners of its rule: both packs refused, the first payload inside
//! a Sync and outside it, values of 0 bytes, labels that are mapped and not used, and labels that are none.

use ballastwren_tests::archive::{found_buffer, Answer, Archive, Beside, Call, Outcome};
use ballastwren_tests::lookups::{any_asked, Asked};
use ballastwren_tests::packs::{length_bytes, listed_label, Name, Said, KEY};
use ballastwren_tests::random::Random;
use ballastwren_tests::runs::{compare, inputs, seed};

/// What two good packs say of a label, main's first: the pack's number, and the value and total offset of the first
/// payload it names.
fn first_said(said: &[Said; 2], label: &[u8]) -> Option<(u64, Vec<u8>, i64)> {
    let named = |name: Name| matches!(name, Name::Label(name) if name == label);
    (1..).zip(said).find_map(|(from, said)| {
        let (payload, total) = said.with_totals().find(|(payload, _)| named(payload.name))?;
        Some((from, payload.value.clone(), total))
    })
}

/// A look-up finds the value that was put into a pack, whatever the pack's dress; nothing here asks the reference.
#[test]
fn lookups_find_what_was_said() {
    let mut archive = Archive::start();
    let mut met = [0; 3];
    for index in 0..inputs(40_000) {
        let Asked { said, packs, label } = any_asked(&mut Random::of_input(seed() + 10, index));
        let [main, backup] = packs.map(|pack| pack.bytes());
        let got = archive.outcome(&Call::Lookup { main: main.clone(), backup: backup.clone(), label: label.clone() });
        let Beside { from, start, .. } = got.beside();
        met[from as usize] += 1;
        let Some((expected, value, total)) = first_said(&said, &label) else {
            assert_eq!(got, refused(&main, &backup, 20, 0, 0), "input {index}");
            continue;
        };
        let pack = if expected == 1 { &main } else { &backup };
        assert_eq!((from, &pack[start as usize..][..value.len()]), (expected, &value[..]), "input {index}");
        assert_eq!(got, found(&main, &backup, Beside { from, start, total }, value.len()), "input {index}");
    }
    assert!(met.iter().all(|count| *count > 0), "neither, main and backup: {met:?}");
}

/// The outcome of a look-up that is refused.
fn refused(main: &[u8], backup: &[u8], number: u64, place: u64, from: u64) -> Outcome {
    Outcome { answer: Answer { number, value: place }, buffer: found_buffer(main, backup, Beside::refused(from), &[]) }
}

/// The outcome of one that finds a value of so many bytes at this place.
fn found(main: &[u8], backup: &[u8], beside: Beside, size: usize) -> Outcome {
    let value = &[main, backup][beside.from as usize - 1][beside.start as usize..][..size];
    let buffer = found_buffer(main, backup, beside, value);
    Outcome { answer: Answer { number: 0, value: size as u64 }, buffer }
}

/// The label of the packs below.
const LABEL: [u8; 16] = [0xA0, 1, 2, 3, 4, 5, 6, 7, 8, 9, 10, 11, 12, 13, 14, 0xAF];

/// A pack of offset -3 that maps tag 64 to it, and whose payloads, from byte 38 on, are these.
fn mapped(payloads: &[u8]) -> Vec<u8> {
    let value = [&[1, 19, 0xFF, 0xFD, 64], &LABEL[..], payloads].concat();
    [&KEY[..], &length_bytes(value.len() as u32, 0), &value].concat()
}

fn lookup(main: &[u8], backup: &[u8], label: &[u8]) -> Call {
    Call::Lookup { main: main.to_vec(), backup: backup.to_vec(), label: label.to_vec() }
}

/// The archive and the reference both come to these outcomes.
fn come_to(cases: &[(Call, Outcome)]) {
    compare(0, cases.len(), |_, index| cases[index].0.clone());
    let mut archive = Archive::start();
    for (call, expected) in cases {
        assert_eq!(archive.outcome(call), *expected, "{call:02X?}");
    }
}

/// Where the first payload stands in packs that have the label once, twice, in a Sync and not at all, and its total
/// offset.
#[test]
fn first_payloads_agree() {
    let none = [&KEY[..], &[0]].concat();
    let unused = mapped(&[5, 1, 0xEE]);
    let carried = [
        (mapped(&[64, 1, 0xA1]), 1, 40, -3),
        (mapped(&[5, 1, 0xEE, 64, 2, 0xA1, 0xA2]), 2, 43, -3),
        (mapped(&[64, 0]), 0, 40, -3),
        (mapped(&[64, 0, 64, 1, 0xA1]), 0, 40, -3),
        (mapped(&[64, 1, 0xA1, 64, 1, 0xA2]), 1, 40, -3),
        (mapped(&[2, 7, 0, 3, 0, 0, 64, 1, 0xA1]), 1, 46, 0),
        (mapped(&[2, 8, 0x80, 0, 0, 0, 5, 0, 64, 0]), 0, 48, -32_771),
        (mapped(&[2, 7, 0, 9, 0, 0, 64, 1, 0xA1, 64, 1, 0xA2]), 1, 46, 6),
        (mapped(&[64, 1, 0xA2, 2, 7, 0, 9, 0, 0, 64, 1, 0xA1]), 1, 40, -3),
        (mapped(&[2, 6, 0, 9, 0, 0, 5, 0, 2, 7, 0x7F, 0xFF, 0, 0, 64, 1, 0xA1]), 1, 54, 32_764),
        (mapped(&[2, 6, 0, 9, 0, 0, 5, 0, 64, 1, 0xA1]), 1, 48, -3),
        (mapped(&[&[64, 0x81, 90][..], &[7; 90]].concat()), 90, 41, -3),
    ];
    let mut cases = Vec::new();
    for &(ref pack, size, start, total) in &carried {
        let beside = |from| Beside { from, start, total };
        for other in [&none, &unused] {
            cases.push((lookup(pack, other, &LABEL), found(pack, other, beside(1), size)));
            cases.push((lookup(other, pack, &LABEL), found(other, pack, beside(2), size)));
        }
        // Main comes first, also where both are one range of memory.
        for (other, ..) in &carried {
            cases.push((lookup(pack, other, &LABEL), found(pack, other, beside(1), size)));
        }
    }
    for (main, backup) in [(&none, &none), (&none, &unused), (&unused, &none), (&unused, &unused)] {
        cases.push((lookup(main, backup, &LABEL), refused(main, backup, 20, 0, 0)));
    }
    come_to(&cases);
}

/// A pack that is refused comes before everything that is wrong with the label, and main before backup.
#[test]
fn order_of_lookup_refusals_agrees() {
    let good = mapped(&[64, 1, 0xA1]);
    let bad = [&KEY[..], &[0x80]].concat();
    let mut cases = Vec::new();
    for label in [&LABEL[..], &[0xBB; 16], &LABEL[..15], &[]] {
        cases.push((lookup(&bad, &good, label), refused(&bad, &good, 4, 16, 1)));
        cases.push((lookup(&good, &bad, label), refused(&good, &bad, 4, 16, 2)));
        cases.push((lookup(&bad, &bad, label), refused(&bad, &bad, 4, 16, 1)));
        cases.push((lookup(&bad, &[], label), refused(&bad, &[], 4, 16, 1)));
        cases.push((lookup(&[], &bad, label), refused(&[], &bad, 2, 0, 1)));
        cases.push((lookup(&good, &[], label), refused(&good, &[], 2, 0, 2)));
        cases.push((lookup(&[], &[], label), refused(&[], &[], 2, 0, 1)));
    }
    come_to(&cases);
}

/// Every length of a label up to 40 bytes, every label that differs in one byte at most, and those of the fixed tags:
/// only the one that is mapped is found.
#[test]
fn labels_to_look_up_agree() {
    let good = mapped(&[64, 1, 0xA1, 2, 6, 0, 0, 0, 0, 5, 0]);
    let none = [&KEY[..], &[0]].concat();
    let mut labels: Vec<Vec<u8>> = (0..=40).map(|size| LABEL.repeat(3)[..size].to_vec()).collect();
    labels.extend((0..16 * 256).map(|change| {
        let mut label = LABEL.to_vec();
        label[change / 256] = change as u8;
        label
    }));
    labels.extend((1..=3).map(|nn| listed_label(nn).to_vec()));
    let cases: Vec<(Call, Outcome)> = labels
        .iter()
        .flat_map(|label| [(&good, &none, label), (&none, &good, label), (&good, &good, label)])
        .map(|(main, backup, label)| {
            let beside = Beside { from: if *main == good { 1 } else { 2 }, start: 40, total: -3 };
            let expected =
                if *label == LABEL { found(main, backup, beside, 1) } else { refused(main, backup, 20, 0, 0) };
            (lookup(main, backup, label), expected)
        })
        .collect();
    come_to(&cases);
}
