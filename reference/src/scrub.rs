//! Scrubbing: a new pack that holds only what the keep sheet names.

use crate::crc::crc;
use crate::labels::MAX_LABELS;
use crate::numbers::{length_size, tag_size, write_length, write_tag};
use crate::pack::{Item, Name, Payload, Reading, CONFIG, CRC, KEY, MAX_ITEMS, MAX_PACK, SYNC};
use crate::sheet::Sheet;
use crate::{Reason, Refusal};

/// The first tag given to a label. At most 64 names are kept, so the tags given are 64 to 127
/// and have one byte.
const FIRST_TAG: u32 = 64;

/// A CRC payload without its value: tag and length.
const CRC_HEADER: [u8; 2] = [CRC as u8, 4];

/// Values up to this size are moved as one block.
const BLOCK: usize = 32;

/// Scrubs `pack` by `sheet` into `out`: the new pack, then zeros to the end. Returns the new
/// pack's size.
pub fn scrub(sheet: &[u8], pack: &[u8], out: &mut [u8]) -> Result<usize, Refusal> {
    let sheet = Sheet::read(sheet)?;
    let mut reading = Reading::blank(pack);
    reading.fill()?;
    let plan = Plan::new(&sheet, &reading);
    let size = KEY.len() + length_size(plan.value_size()) + plan.value_size() as usize;
    if size > out.len() || size > MAX_PACK {
        return Err(Reason::NoRoom.at(0));
    }
    plan.write(&reading, out);
    out[size..].fill(0);
    let (covered, check) = out[..size].split_at_mut(size - 4);
    check.copy_from_slice(&crc(covered).to_be_bytes());
    Ok(size)
}

/// What is kept, under which tags, and how large it will be.
struct Plan {
    /// Bit n stands for slot n of the reading.
    kept: u64,
    /// For each kept Sync the size of the payloads it will hold.
    insides: [u16; MAX_ITEMS],
    /// Size of all kept items.
    items: u32,
    /// Bit n stands for number 64 + n, taken by a kept payload or an earlier mapping.
    taken: u64,
    /// Bit n stands for mapping n: the sheet was asked for its label, and it has it.
    asked: u32,
    named: u32,
    /// The kept mappings in the order their labels first appear.
    order: [u8; MAX_LABELS],
    order_len: usize,
    /// For each kept mapping the new tag of its label.
    tags: [u8; MAX_LABELS],
    /// Value size of the Config, if there is to be one.
    config: Option<u32>,
}

impl Plan {
    fn new(sheet: &Sheet, reading: &Reading) -> Self {
        let mut plan = Self {
            kept: 0,
            insides: [0; MAX_ITEMS],
            items: 0,
            taken: 0,
            asked: 0,
            named: 0,
            order: [0; MAX_LABELS],
            order_len: 0,
            tags: [0; MAX_LABELS],
            config: None,
        };
        plan.choose(sheet, reading);
        plan.give_tags();
        if reading.offset() != 0 || plan.order_len != 0 {
            plan.config = Some(2 + 17 * plan.order_len as u32);
        }
        plan
    }

    /// Marks the kept slots and adds up their sizes.
    fn choose(&mut self, sheet: &Sheet, reading: &Reading) {
        let mut open = 0;
        let mut syncs: u64 = 0;
        for (slot, item) in reading.items().iter().enumerate() {
            let Item::Payload(payload) = item else {
                open = slot;
                continue;
            };
            if !self.keeps(sheet, reading, payload.name) {
                continue;
            }
            self.kept |= 1 << slot;
            if payload.inner {
                self.insides[open] += payload_size(payload) as u16;
                syncs |= 1 << open;
            } else {
                self.items += payload_size(payload);
            }
        }
        self.kept |= syncs;
        while syncs != 0 {
            let slot = syncs.trailing_zeros() as usize;
            self.items += element_size(1, self.sync_size(slot));
            syncs &= syncs - 1;
        }
    }

    /// Whether the sheet has this name. A mapped payload's name is its label alone.
    #[inline(always)]
    fn keeps(&mut self, sheet: &Sheet, reading: &Reading, name: Name) -> bool {
        match name {
            Name::Number(tag) => {
                let keeps = sheet.keeps_number(tag);
                if keeps && (FIRST_TAG..FIRST_TAG + 64).contains(&tag) {
                    self.taken |= 1 << (tag - FIRST_TAG);
                }
                keeps
            }
            Name::Label(mapping) => {
                let bit = 1 << mapping;
                if self.asked & bit == 0 {
                    self.ask(sheet, reading, mapping);
                }
                self.named & bit != 0
            }
        }
    }

    /// Asks the sheet for a label that appears for the first time.
    fn ask(&mut self, sheet: &Sheet, reading: &Reading, mapping: u8) {
        self.asked |= 1 << mapping;
        if sheet.keeps_label(reading.label(mapping)) {
            self.named |= 1 << mapping;
            self.order[self.order_len] = mapping;
            self.order_len += 1;
        }
    }

    /// Gives each kept label the smallest tag that is still free.
    fn give_tags(&mut self) {
        for &mapping in &self.order[..self.order_len] {
            let free = self.taken.trailing_ones();
            self.taken |= 1 << free;
            self.tags[usize::from(mapping)] = (FIRST_TAG + free) as u8;
        }
    }

    /// Value size of the kept Sync in a slot.
    fn sync_size(&self, slot: usize) -> u32 {
        4 + u32::from(self.insides[slot])
    }

    /// The size of the new pack's value: Config, items, CRC.
    fn value_size(&self) -> u32 {
        let config = self.config.map_or(0, |value| element_size(1, value));
        config + self.items + element_size(1, 4)
    }

    /// Writes the new pack but for the four bytes of its CRC. `out` has room for all of it; what
    /// lies beyond may be overwritten.
    fn write(&self, reading: &Reading, out: &mut [u8]) {
        let mut pen = Pen { out, at: 0 };
        pen.put(&KEY);
        pen.length(self.value_size());
        if let Some(value) = self.config {
            pen.header(CONFIG, value);
            pen.put(&reading.offset().to_be_bytes());
            for &mapping in &self.order[..self.order_len] {
                pen.put(&[self.tags[usize::from(mapping)]]);
                pen.put(reading.label(mapping));
            }
        }
        for (slot, item) in reading.items().iter().enumerate() {
            if self.kept >> slot & 1 == 1 {
                self.write_item(reading, slot, item, &mut pen);
            }
        }
        pen.put(&CRC_HEADER);
    }

    /// Writes a kept payload, or what comes before the payloads of a kept Sync.
    #[inline]
    fn write_item(&self, reading: &Reading, slot: usize, item: &Item, pen: &mut Pen) {
        match item {
            Item::Sync(sync) => {
                pen.header(SYNC, self.sync_size(slot));
                pen.put(&sync.sample_offset.to_be_bytes());
                pen.put(&sync.duration.to_be_bytes());
            }
            Item::Payload(payload) => {
                let tag = match payload.name {
                    Name::Number(tag) => tag,
                    Name::Label(mapping) => self.tags[usize::from(mapping)].into(),
                };
                pen.payload(tag, reading.pack(), payload);
            }
        }
    }
}

/// The size of a payload as it will be written.
#[inline]
fn payload_size(payload: &Payload) -> u32 {
    let tag = match payload.name {
        Name::Number(tag) => tag_size(tag),
        Name::Label(_) => 1,
    };
    element_size(tag as u32, payload.value_len.into())
}

/// The size of tag, shortest length and value.
#[inline]
fn element_size(tag: u32, value: u32) -> u32 {
    tag + length_size(value) as u32 + value
}

/// Writes onto a buffer from its front.
struct Pen<'a> {
    out: &'a mut [u8],
    at: usize,
}

impl Pen<'_> {
    #[inline]
    fn put(&mut self, bytes: &[u8]) {
        self.out[self.at..][..bytes.len()].copy_from_slice(bytes);
        self.at += bytes.len();
    }

    #[inline]
    fn length(&mut self, length: u32) {
        self.at += write_length(&mut self.out[self.at..], length);
    }

    fn header(&mut self, tag: u32, length: u32) {
        self.at += write_tag(&mut self.out[self.at..], tag);
        self.length(length);
    }

    /// Writes a payload with its value from `pack`. A small one is moved as one block where both
    /// sides have room for it; the surplus is overwritten by what follows.
    #[inline(always)]
    fn payload(&mut self, tag: u32, pack: &[u8], payload: &Payload) {
        let from = usize::from(payload.value_start);
        let size = usize::from(payload.value_len);
        if tag < 0x80 && size <= BLOCK {
            let room = self.out.get_mut(self.at..self.at + 2 + BLOCK);
            if let (Some(room), Some(block)) = (room, pack.get(from..from + BLOCK)) {
                room[0] = tag as u8;
                room[1] = size as u8;
                room[2..].copy_from_slice(block);
                self.at += 2 + size;
                return;
            }
        }
        self.header(tag, size as u32);
        self.put(&pack[from..from + size]);
    }
}
