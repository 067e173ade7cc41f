//! The Config payload: pack offset and the mappings of tags to labels.

use crate::labels::{is_utility, label_at, Filter, Label, MAX_LABELS};
use crate::numbers::{be16, read_tag, Fault};
use crate::{Reason, Refusal};

/// The mappings of a pack in the order they stand.
#[derive(Clone, Copy, Debug)]
pub struct Mappings {
    count: usize,
    tags: [u32; MAX_LABELS],
    /// Where each label stands in the pack.
    labels: [u16; MAX_LABELS],
    /// For each one-byte tag its mapping's index plus 1, or 0.
    one_byte: [u8; 128],
}

impl Mappings {
    pub const NONE: Self = Self {
        count: 0,
        tags: [0; MAX_LABELS],
        labels: [0; MAX_LABELS],
        one_byte: [0; 128],
    };

    /// How many there are.
    #[inline]
    pub fn count(&self) -> usize {
        self.count
    }

    /// Where the label of a mapping stands in the pack.
    #[inline]
    pub fn label_start(&self, index: usize) -> usize {
        usize::from(self.labels[index])
    }

    /// The index of the mapping of `tag`, if it has one.
    #[inline]
    pub fn find(&self, tag: u32) -> Option<u8> {
        match self.one_byte.get(tag as usize) {
            Some(&next) => next.checked_sub(1),
            None => self.find_long(tag),
        }
    }

    /// The same for a tag of more than one byte.
    fn find_long(&self, tag: u32) -> Option<u8> {
        let index = self.tags[..self.count].iter().position(|&t| t == tag)?;
        Some(index as u8)
    }

    /// Takes in a mapping that may stand.
    #[inline]
    fn add(&mut self, tag: u32, label_start: usize) {
        self.tags[self.count] = tag;
        self.labels[self.count] = label_start as u16;
        self.count += 1;
        if let Some(next) = self.one_byte.get_mut(tag as usize) {
            *next = self.count as u8;
        }
    }

    /// The tag that is mapped to `label`, if one is; the labels stand in `part`.
    pub fn tag_of(&self, part: &[u8], label: &Label) -> Option<u32> {
        let mut starts = self.labels[..self.count].iter();
        let index = starts.position(|&at| label_at(part, usize::from(at)) == Some(label))?;
        Some(self.tags[index])
    }
}

/// Reads the Config whose value begins at `from` and ends with `part`: fills `mappings`, which
/// are empty, and returns the pack offset. Every fault's place is the Config's first byte.
pub fn read_config(
    part: &[u8],
    place: usize,
    from: usize,
    mappings: &mut Mappings,
) -> Result<i16, Refusal> {
    if part.len() - from < 2 {
        return Err(Reason::Config.at(place));
    }
    let mut seen = Filter::EMPTY;
    let mut at = from + 2;
    while at < part.len() {
        if mappings.count == MAX_LABELS {
            return Err(Reason::Count.at(place));
        }
        let (tag, label_start) = read_tag(part, at).map_err(|fault| match fault {
            Fault::Cut => Reason::Config.at(place),
            Fault::Bad => Reason::Tag.at(place),
        })?;
        let label = label_at(part, label_start).ok_or(Reason::Config.at(place))?;
        if tag <= 3
            || is_utility(label)
            || mappings.find(tag).is_some()
            || seen.may_hold(label) && mappings.tag_of(part, label).is_some()
        {
            return Err(Reason::Map.at(place));
        }
        seen.insert(label);
        mappings.add(tag, label_start);
        at = label_start + 16;
    }
    Ok(be16(part, from) as i16)
}
