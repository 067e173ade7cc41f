//! A scrubbed pack depends on what was kept and on nothing else: packs that differ only in what is dropped, in tag
//! tables, length forms and CRC give equal whole buffers, and nothing that was dropped can be found in them.

use std::collections::HashSet;

use ballastwren_tests::archive::{hex, Archive, Call, Outcome};
use ballastwren_tests::packs::{any_label, any_said, any_tag, any_u16, dressed, Item, Name, Payload, Said};
use ballastwren_tests::random::Random;
use ballastwren_tests::runs::{inputs, seed};
use ballastwren_tests::scrubbed::{said_by, scrubbed, totals_by};
use ballastwren_tests::sheets::{Sheet, KEEP_ALL};

const PAIRS: usize = 40_000;
const TAINTED: usize = 20_000;
const BATCH: usize = 64;

/// Something to keep, small enough that as much again can be dropped and that a sheet can name it.
fn to_keep(random: &mut Random) -> (Said, Sheet) {
    let mut kept = any_said(random);
    while kept.count() > 28 {
        kept.items.pop();
    }
    let mut numbers = kept.numbers();
    numbers.sort_unstable();
    numbers.dedup();
    let mut sheet = Sheet { labels: kept.labels(), numbers };
    for _ in 0..random.below(3) {
        let number = any_tag(random);
        if !sheet.numbers.contains(&number) {
            sheet.numbers.push(number);
        }
    }
    random.shuffle(&mut sheet.labels);
    (kept, sheet)
}

/// A payload that the sheet does not name, whose value and perhaps label nobody else has.
fn to_drop(random: &mut Random, sheet: &Sheet, labels: &[[u8; 16]]) -> Payload {
    let marks = random.below(4);
    let value = random.bytes(16 * marks);
    let mut number = any_tag(random);
    while sheet.numbers.contains(&number) {
        number = random.between(4, 500) as u32;
    }
    let name =
        if labels.is_empty() || random.percent(50) { Name::Number(number) } else { Name::Label(random.pick(labels)) };
    Payload { name, value }
}

/// The same with payloads to drop, outside Syncs, inside them and in Syncs of their own.
fn with_dropped(random: &mut Random, kept: &Said, sheet: &Sheet) -> Said {
    let mut said = kept.clone();
    let distinct = random.below(4).min(32 - sheet.labels.len());
    let fresh = |random: &mut Random| {
        if random.percent(70) {
            random.bytes(16).try_into().expect("16 bytes")
        } else {
            any_label(random)
        }
    };
    let mut labels: Vec<[u8; 16]> = (0..distinct).map(|_| fresh(random)).collect();
    labels.retain(|label| !sheet.labels.contains(label));
    for _ in 0..random.between(0, 14) {
        let dropped = to_drop(random, sheet, &labels);
        let at = random.below(said.items.len() + 1);
        let sync = said.items.get_mut(at).filter(|_| random.percent(50));
        match sync {
            Some(Item::Sync { inside, .. }) => inside.insert(random.below(inside.len() + 1), dropped),
            _ if random.percent(30) => {
                said.items.insert(
                    at,
                    Item::Sync { offset: any_u16(random), duration: any_u16(random), inside: vec![dropped] },
                );
            }
            _ => said.items.insert(at, Item::Single(dropped)),
        }
    }
    said
}

fn scrub(random: &mut Random, sheet: &Sheet, said: &Said, room: usize) -> Call {
    Call::Scrub { sheet: sheet.bytes(), pack: dressed(random, said).bytes(), out: random.bytes(room) }
}

/// The call with the sheet that keeps all.
fn keep_all(call: &mut Call) {
    if let Call::Scrub { sheet, .. } = call {
        *sheet = KEEP_ALL.to_vec();
    }
}

struct Pair {
    kept: Said,
    calls: [Call; 2],
}

fn any_pair(random: &mut Random) -> Pair {
    let (kept, sheet) = to_keep(random);
    let size = scrubbed(&kept).len();
    let room = random.pick(&[size - 1, size, size + 1, size + 50, 3 * size]);
    if random.percent(15) {
        let mut calls = [(); 2].map(|()| scrub(random, &sheet, &kept, room));
        calls.iter_mut().for_each(keep_all);
        return Pair { kept, calls };
    }
    let calls = [(); 2].map(|()| {
        let said = with_dropped(random, &kept, &sheet);
        scrub(random, &sheet, &said, room)
    });
    Pair { kept, calls }
}

/// Both answered alike, and with exactly what was kept; or both refused for want of room, with nothing changed.
fn judge(pair: &Pair, outcomes: &[Outcome]) {
    let [one, two] = outcomes else { panic!("a pair has two outcomes") };
    assert_eq!(one.answer, two.answer);
    let expected = scrubbed(&pair.kept);
    if expected.len() > one.buffer.len() {
        assert_eq!((one.answer.number, one.answer.value), (15, 0));
        for (call, outcome) in pair.calls.iter().zip(outcomes) {
            let Call::Scrub { out, .. } = call else { panic!("a pair is of scrubs") };
            assert!(outcome.buffer == *out, "a refused scrub changed its buffer");
        }
    } else {
        assert_eq!((one.answer.number, one.answer.value), (0, expected.len() as u64));
        assert!(one.buffer == two.buffer, "buffers differ:\n{}\n{}", hex(&one.buffer), hex(&two.buffer));
        assert_eq!(hex(&one.buffer[..expected.len()]), hex(&expected));
        assert!(one.buffer[expected.len()..].iter().all(|&byte| byte == 0), "the rest of the buffer is not clear");
    }
}

/// What was written, read again.
fn read_again(pair: &Pair, outcomes: &[Outcome]) -> Option<Call> {
    let size = scrubbed(&pair.kept).len();
    let written = outcomes[0].buffer.get(..size)?;
    Some(Call::Read { pack: written.to_vec(), rows: vec![0; 520] })
}

#[test]
fn equal_kept_items_give_equal_buffers_and_are_read_back() {
    let mut archive = Archive::start();
    let pairs = inputs(PAIRS);
    for first in (0..pairs).step_by(BATCH) {
        let batch = first..pairs.min(first + BATCH);
        let batch: Vec<Pair> = batch.map(|index| any_pair(&mut Random::of_input(seed() + 10, index))).collect();
        let calls: Vec<Call> = batch.iter().flat_map(|pair| pair.calls.clone()).collect();
        let outcomes = archive.outcomes(&calls);
        let outcomes: Vec<&[Outcome]> = outcomes.chunks(2).collect();
        batch.iter().zip(&outcomes).for_each(|(pair, outcomes)| judge(pair, outcomes));
        let written =
            batch.iter().zip(&outcomes).filter_map(|(pair, outcomes)| Some((pair, read_again(pair, outcomes)?)));
        let (pairs, reads): (Vec<&Pair>, Vec<Call>) = written.unzip();
        for ((pair, call), outcome) in pairs.iter().zip(&reads).zip(archive.outcomes(&reads)) {
            let Call::Read { pack, .. } = call else { panic!("it is read") };
            assert_eq!((outcome.answer.number, outcome.answer.value), (0, 8 * (1 + pair.kept.count() as u64)));
            let rows = &outcome.numbers()[..outcome.answer.value as usize];
            assert_eq!(said_by(pack, rows), pair.kept);
            assert_eq!(totals_by(rows), pair.kept.totals());
            assert_eq!(rows[1], 1, "a scrubbed pack has a CRC");
        }
    }
}

/// Every four bytes in a row.
fn windows<'a>(stretches: impl Iterator<Item = &'a [u8]>) -> HashSet<[u8; 4]> {
    stretches.flat_map(|bytes| bytes.windows(4).map(|four| four.try_into().expect("four bytes"))).collect()
}

/// The windows of all that is dropped: values, and labels that nothing kept has.
fn traces(said: &Said, kept: &Said) -> HashSet<[u8; 4]> {
    let all: Vec<&Payload> = kept.payloads().collect();
    let dropped: Vec<&Payload> = said.payloads().filter(|payload| !all.contains(payload)).collect();
    let values = dropped.iter().map(|payload| &payload.value[..]);
    let labels = dropped.iter().filter_map(|payload| match &payload.name {
        Name::Label(label) => Some(&label[..]),
        Name::Number(_) => None,
    });
    windows(values.chain(labels))
}

#[test]
fn nothing_dropped_can_be_found() {
    let mut archive = Archive::start();
    let mut dropped = 0;
    for first in (0..inputs(TAINTED)).step_by(BATCH) {
        let cases: Vec<(HashSet<[u8; 4]>, [Call; 2])> = (first..first + BATCH)
            .map(|index| {
                let random = &mut Random::of_input(seed() + 11, index);
                let (kept, sheet) = to_keep(random);
                let said = with_dropped(random, &kept, &sheet);
                let room = scrubbed(&kept).len() + random.below(100);
                // The second pack never held what is dropped: what is in its scrubbed form comes from what was kept.
                (traces(&said, &kept), [scrub(random, &sheet, &said, room), scrub(random, &sheet, &kept, room)])
            })
            .collect();
        let calls: Vec<Call> = cases.iter().flat_map(|case| case.1.clone()).collect();
        for ((traces, _), outcomes) in cases.iter().zip(archive.outcomes(&calls).chunks(2)) {
            let allowed = windows(std::iter::once(&outcomes[1].buffer[..]));
            let found = windows(std::iter::once(&outcomes[0].buffer[..]));
            let leaked: Vec<_> = found.intersection(traces).filter(|window| !allowed.contains(*window)).collect();
            assert!(leaked.is_empty(), "dropped bytes {leaked:02X?} in {}", hex(&outcomes[0].buffer));
            assert!(outcomes.iter().all(|outcome| outcome.answer.number == 0), "the buffer had room");
            dropped += traces.len();
        }
    }
    assert!(dropped > 20 * TAINTED.min(inputs(TAINTED)), "too little was dropped to tell: {dropped} windows");
}
