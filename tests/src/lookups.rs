//! Two packs that have labels in common, and a label to look up in them.

use crate::packs::{any_label, any_labels, dressed_with, listed_label, near, said_with};
use crate::packs::{Item, Label, Name, Pack, Said};
use crate::random::Random;

/// What is looked up, what main and backup say, and their dresses.
pub struct Asked {
    pub said: [Said; 2],
    pub packs: [Pack; 2],
    pub label: Vec<u8>,
}

/// Good packs that draw on the same labels, often mapped and not used, and a label that is mostly one of those.
pub fn any_asked(random: &mut Random) -> Asked {
    let labels = any_labels(random);
    let main = said_with(random, &labels);
    let backup = match random.below(4) {
        // Two feeds of the same programme, of which main may have lost something.
        0 => main.clone(),
        _ => said_with(random, &labels),
    };
    let mut said = [main, backup];
    if random.percent(40) {
        lose(random, &mut said[0], &labels);
    }
    let packs = [0, 1].map(|which| {
        let unused: Vec<Label> = labels.iter().copied().filter(|_| random.percent(20)).collect();
        dressed_with(random, &said[which], &unused)
    });
    let label = any_wanted(random, &packs);
    Asked { said, packs, label }
}

/// Takes all payloads of one of the labels away, and Syncs that are left without any.
fn lose(random: &mut Random, said: &mut Said, labels: &[Label]) {
    if labels.is_empty() {
        return;
    }
    let lost = Name::Label(random.pick(labels));
    said.items.retain_mut(|item| match item {
        Item::Single(payload) => payload.name != lost,
        Item::Sync { inside, .. } => {
            inside.retain(|payload| payload.name != lost);
            !inside.is_empty()
        }
    });
}

/// A label that one of the packs maps, one close to it, one of the three of the fixed tags, any, or what is none.
fn any_wanted(random: &mut Random, packs: &[Pack; 2]) -> Vec<u8> {
    let mut mapped = packs.iter().flat_map(Pack::mapped).collect::<Vec<Label>>();
    if mapped.is_empty() {
        mapped.push(any_label(random));
    }
    match random.below(20) {
        0..=14 => random.pick(&mapped).to_vec(),
        15 | 16 => near(random, &mapped).to_vec(),
        17 => listed_label(random.between(1, 3) as u8).to_vec(),
        18 => any_label(random).to_vec(),
        _ => {
            let any = random.below(40);
            let size = random.pick(&[0, 1, 15, 17, 32, any]);
            random.pick(&mapped).repeat(3)[..size].to_vec()
        }
    }
}
