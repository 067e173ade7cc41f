//! One ST 2109 audio metadata pack: its check and its reading.

use crate::config::{read_config, Mappings};
use crate::labels::{label_at, Label};
use crate::numbers::be16;
use crate::walk::{walk, Frame, Sink};
use crate::Refusal;

/// The key every pack begins with.
pub const KEY: Label = [
    0x06, 0x0E, 0x2B, 0x34, 0x02, 0x7F, 0x01, 0x01, 0x0C, 0x04, 0x01, 0, 0, 0, 0, 0,
];

/// Bytes in a pack (house cap). Places inside a pack therefore fit 16 bits.
pub const MAX_PACK: usize = 32_768;

/// Audio payloads and Syncs together (house cap).
pub const MAX_ITEMS: usize = 64;

/// The three fixed tags.
pub const CONFIG: u32 = 1;
pub const SYNC: u32 = 2;
pub const CRC: u32 = 3;

/// What a payload is known by.
#[derive(Clone, Copy, Debug, PartialEq, Eq)]
pub enum Name {
    /// Its tag, which no mapping mentions.
    Number(u32),
    /// The index of the mapping that gives its label.
    Label(u8),
}

/// An audio payload.
#[derive(Clone, Copy, Debug, PartialEq, Eq)]
pub struct Payload {
    pub name: Name,
    pub start: u16,
    pub value_start: u16,
    pub value_len: u16,
    /// Whether it is inside the Sync above it.
    pub inner: bool,
    /// The total offset: that of the pack and, inside a Sync, the Sync's as well.
    pub total: i32,
}

/// A Sync; its payloads are the `inside` items after it.
#[derive(Clone, Copy, Debug, PartialEq, Eq)]
pub struct Sync {
    pub start: u16,
    pub value_start: u16,
    pub value_len: u16,
    pub sample_offset: i16,
    pub duration: u16,
    pub inside: u8,
}

/// An item of the pack, or a payload inside one.
#[derive(Clone, Copy, Debug, PartialEq, Eq)]
pub enum Item {
    Payload(Payload),
    Sync(Sync),
}

impl Item {
    const BLANK: Self = Self::Payload(Payload {
        name: Name::Number(0),
        start: 0,
        value_start: 0,
        value_len: 0,
        inner: false,
        total: 0,
    });
}

/// The total offset of a payload in a pack of this offset, and in a Sync of that one or in none.
// Two numbers of 16 bits: their sum needs 17.
#[inline]
pub(crate) fn total_offset(pack: i16, sync: Option<i16>) -> i32 {
    i32::from(pack) + sync.map_or(0, i32::from)
}

/// The reading of an accepted pack; names and values are stretches of that pack.
#[derive(Clone, Copy, Debug)]
pub struct Reading<'a> {
    pack: &'a [u8],
    offset: i16,
    crc: bool,
    count: usize,
    items: [Item; MAX_ITEMS],
    mappings: Mappings,
}

impl<'a> Reading<'a> {
    const BLANK: Self = Self {
        pack: &[],
        offset: 0,
        crc: false,
        count: 0,
        items: [Item::BLANK; MAX_ITEMS],
        mappings: Mappings::NONE,
    };

    /// A reading of `pack` to be filled.
    pub(crate) fn blank(pack: &'a [u8]) -> Self {
        Self {
            pack,
            ..Self::BLANK
        }
    }

    /// The pack that was read.
    pub fn pack(&self) -> &'a [u8] {
        self.pack
    }

    /// The pack offset, 0 without a Config.
    pub fn offset(&self) -> i16 {
        self.offset
    }

    /// Whether a CRC stood in the pack (an accepted one is always right).
    pub fn has_crc(&self) -> bool {
        self.crc
    }

    /// Items and payloads inside Syncs, in byte order.
    pub fn items(&self) -> &[Item] {
        &self.items[..self.count]
    }

    /// How many mappings the Config held.
    pub fn mapping_count(&self) -> usize {
        self.mappings.count()
    }

    /// Where the label of a mapping stands in the pack.
    pub fn label_start(&self, mapping: u8) -> usize {
        self.mappings.label_start(usize::from(mapping))
    }

    /// The label of a mapping.
    pub fn label(&self, mapping: u8) -> &'a Label {
        label_at(self.pack, self.label_start(mapping)).expect("a mapping's label is in the pack")
    }

    /// The value of a payload.
    pub fn value(&self, payload: &Payload) -> &'a [u8] {
        &self.pack[usize::from(payload.value_start)..][..usize::from(payload.value_len)]
    }

    /// Reads the pack into this blank reading.
    pub(crate) fn fill(&mut self) -> Result<(), Refusal> {
        self.count = walk(self.pack, self)?;
        Ok(())
    }
}

/// Checks a pack: the count of its items and inner payloads.
pub fn check(pack: &[u8]) -> Result<usize, Refusal> {
    walk(pack, &mut Nothing)
}

/// Reads a pack.
// A reading is large: inlined, it would be copied once more.
#[inline(never)]
pub fn read(pack: &[u8]) -> Result<Reading<'_>, Refusal> {
    let mut reading = Reading::blank(pack);
    reading.fill()?;
    Ok(reading)
}

/// The sink of a mere check.
struct Nothing;

impl Sink for Nothing {
    fn config(&mut self, part: &[u8], at: usize, frame: Frame) -> Result<(), Refusal> {
        let mut mappings = Mappings::NONE;
        read_config(part, at, frame.value, &mut mappings).map(drop)
    }
}

impl Sink for Reading<'_> {
    fn config(&mut self, part: &[u8], at: usize, frame: Frame) -> Result<(), Refusal> {
        self.offset = read_config(part, at, frame.value, &mut self.mappings)?;
        Ok(())
    }

    #[inline(always)]
    fn payload(&mut self, slot: usize, at: usize, frame: Frame, sync: Option<i16>) {
        let name = match self.mappings.find(frame.tag) {
            Some(mapping) => Name::Label(mapping),
            None => Name::Number(frame.tag),
        };
        self.items[slot] = Item::Payload(Payload {
            name,
            start: at as u16,
            value_start: frame.value as u16,
            value_len: (frame.end - frame.value) as u16,
            inner: sync.is_some(),
            total: total_offset(self.offset, sync),
        });
    }

    #[inline(always)]
    fn sync(&mut self, slot: usize, at: usize, frame: Frame, inside: usize) {
        self.items[slot] = Item::Sync(Sync {
            start: at as u16,
            value_start: frame.value as u16,
            value_len: (frame.end - frame.value) as u16,
            sample_offset: be16(self.pack, frame.value) as i16,
            duration: be16(self.pack, frame.value + 2),
            inside: inside as u8,
        });
    }

    fn crc(&mut self) {
        self.crc = true;
    }
}
