//! Total offsets of payloads: those of what was put into a pack are told by its rows, its listing and a look-up, exactly at
//! the ends of their range too, and no Sync's offset is carried on to what comes after it. The reference tells the same.

use ballastwren_tests::archive::{shown, Answer, Archive, Call, Outcome};
use ballastwren_tests::oracle;
use ballastwren_tests::packs::{any_said, dressed, signed, Item, Name, Payload, Said};
use ballastwren_tests::random::Random;
use ballastwren_tests::runs::{inputs, say, seed};
use ballastwren_tests::scrubbed::{lines_by, totals_by};

/// The label of the payloads below that have one.
const LABEL: [u8; 16] = [0xA0, 1, 2, 3, 4, 5, 6, 7, 8, 9, 10, 11, 12, 13, 14, 0xAF];

/// Both ends of an offset's range, what lies beside 0, and 0, as their bits.
const ENDS: [u16; 5] = [0x8000, 0xFFFF, 0, 1, 0x7FFF];

fn number() -> Payload {
    Payload { name: Name::Number(5), value: vec![0xAA] }
}

fn labelled() -> Payload {
    Payload { name: Name::Label(LABEL), value: vec![0xBB, 0xCC] }
}

fn sync(offset: u16, inside: Vec<Payload>) -> Item {
    Item::Sync { offset, duration: 9, inside }
}

/// A pack that says this, in one of its dresses.
fn dress(said: &Said, which: u64) -> Vec<u8> {
    dressed(&mut Random::new(which), said).bytes()
}

/// The outcome of a call, which is the reference's too.
fn agreed(archive: &mut Archive, call: &Call) -> Outcome {
    let got = archive.outcome(call);
    assert_eq!(got, oracle::outcome(call), "{}", shown(call));
    got
}

/// Rows and listing tell the total offsets of what the pack says.
fn told(archive: &mut Archive, said: &Said, pack: &[u8]) {
    let got = agreed(archive, &Call::Read { pack: pack.to_vec(), rows: vec![77; 520] });
    assert_eq!(got.answer.number, 0);
    let rows = &got.numbers()[..got.answer.value as usize];
    assert_eq!(totals_by(rows), said.totals(), "{said:?}");
    let lines = lines_by(pack, rows).join("\n") + "\n";
    assert_eq!(lines, reference::listing(pack), "{said:?}");
}

/// A look-up tells this total offset of the first payload of the label, with the pack as main, as backup of one that has
/// offsets of its own and not the label, and as both.
fn found(archive: &mut Archive, pack: &[u8], total: i64) {
    let other = Said { offset: 77, items: vec![Item::Single(number()), sync(7, vec![number()])] };
    let other = dress(&other, 1);
    for (from, main, backup) in [(1, pack, &other[..]), (2, &other, pack), (1, pack, pack)] {
        let call = Call::Lookup { main: main.to_vec(), backup: backup.to_vec(), label: LABEL.to_vec() };
        let got = agreed(archive, &call);
        assert_eq!(got.answer, Answer { number: 0, value: 2 });
        assert_eq!((got.beside().from, got.beside().total), (from, total));
    }
}

/// Both offsets at both ends of their range, with the first payload of the label inside the Sync and outside it.
#[test]
fn ends_of_the_range_agree() {
    let mut archive = Archive::start();
    let ends = [(0x8000, 0x8000, -65_536), (0x8000, 0x7FFF, -1), (0x7FFF, 0x8000, -1), (0x7FFF, 0x7FFF, 65_534)];
    for (of_pack, of_sync, total) in ends {
        let alone = signed(of_pack);
        let inside = || sync(of_sync, vec![number(), labelled()]);
        let orders = [
            (vec![inside(), Item::Single(labelled())], [total, total, alone], total),
            (vec![Item::Single(labelled()), inside()], [alone, total, total], alone),
        ];
        for (items, totals, first) in orders {
            let said = Said { offset: of_pack, items };
            assert_eq!(said.totals(), totals);
            for each in 0..20 {
                let pack = dress(&said, each);
                told(&mut archive, &said, &pack);
                found(&mut archive, &pack, first);
            }
        }
    }
}

/// Syncs one after the other and with payloads between them: each payload has its own Sync's offset, or none.
#[test]
fn no_offset_is_carried_on() {
    let mut archive = Archive::start();
    let items = || {
        let between = |offset| [sync(offset, vec![number(), number()]), Item::Single(number())];
        let mut items: Vec<Item> = vec![Item::Single(number())];
        items.extend([480, 0x8000, 0, 0x7FFF, 0xFFFF].into_iter().flat_map(between));
        items.extend([1, 0, 0x8000].map(|offset| sync(offset, vec![number()])));
        items
    };
    for offset in ENDS {
        let plain = Said { offset, items: items() };
        let last = [items(), vec![sync(960, vec![number(), labelled()]), Item::Single(labelled())]].concat();
        let after = [items(), vec![Item::Single(labelled()), sync(960, vec![labelled()])]].concat();
        for each in 0..20 {
            told(&mut archive, &plain, &dress(&plain, each));
            for (items, of_sync) in [(&last, 960), (&after, 0)] {
                let said = Said { offset, items: items.clone() };
                let pack = dress(&said, each);
                told(&mut archive, &said, &pack);
                found(&mut archive, &pack, signed(offset) + of_sync);
            }
        }
    }
}

/// Every pack offset with Sync offsets at the ends, and every Sync offset with such pack offsets, in one pack each: a
/// payload before the Sync, one inside and one after it.
#[test]
fn every_offset_agrees() {
    let said = |index: usize| {
        let (any, end) = (index as u16, ENDS[(index >> 16) % 5]);
        let (offset, of_sync) = if index < 5 << 16 { (any, end) } else { (end, any) };
        let items = vec![Item::Single(number()), sync(of_sync, vec![number()]), Item::Single(number())];
        Said { offset, items }
    };
    let mut archive = Archive::start();
    for first in (0..10 << 16).step_by(1024) {
        let batch: Vec<Said> = (first..first + 1024).map(said).collect();
        let read = |said: &Said| Call::Read { pack: dress(said, 3), rows: vec![77; 40] };
        let calls: Vec<Call> = batch.iter().map(read).collect();
        for (said, got) in batch.iter().zip(archive.outcomes(&calls)) {
            assert_eq!(got.answer, Answer { number: 0, value: 40 });
            assert_eq!(totals_by(&got.numbers()), said.totals(), "{said:?}");
        }
    }
}

/// Packs as they come.
#[test]
fn totals_are_those_that_were_said() {
    let mut archive = Archive::start();
    let [mut beyond, mut after_a_sync] = [0; 2];
    for index in 0..inputs(40_000) {
        let random = &mut Random::of_input(seed() + 12, index);
        let said = any_said(random);
        let pack = dressed(random, &said).bytes();
        told(&mut archive, &said, &pack);
        beyond += said.totals().iter().filter(|total| i16::try_from(**total).is_err()).count();
        let follows = |pair: &[Item]| matches!(pair, [Item::Sync { offset: 1.., .. }, Item::Single(_)]);
        after_a_sync += said.items.windows(2).filter(|pair| follows(pair)).count();
    }
    say(&format!("total offsets that 16 bits do not hold: {beyond}; payloads after a Sync: {after_a_sync}"));
    assert!(beyond > 0 && after_a_sync > 0);
}
