//! The live table of objects: values of object descriptions (AOD) set its entries, values of
//! positions (XYZ) move them, and an entry can be cleared.
//!
//! Everything is judged before the first entry changes. Where an element stands is looked up by its
//! number, so that no call searches the table for each record.

use crate::bits::fetch;
use crate::grammar::{Field, AOD, ELEMENT, XYZ};
use crate::pmd::judge_value;
use crate::{Reason, Refusal};

/// Entries in a table (house cap).
pub const MAX_OBJECTS: usize = 128;

/// Numbers in an entry, as many as an AOD record has.
pub const FIELDS: usize = 11;

/// An entry, used unless its element is 0; its numbers are those of an AOD record in their order.
#[derive(Clone, Copy, Debug, Default, PartialEq, Eq)]
#[repr(C)]
pub struct Object {
    pub element: u32,
    pub class: u32,
    pub dynamic: u32,
    pub x: u32,
    pub y: u32,
    pub z: u32,
    pub size: u32,
    pub size_3d: u32,
    pub diverge: u32,
    pub source: u32,
    pub gain: u32,
}

impl From<[u32; FIELDS]> for Object {
    #[inline(always)]
    fn from(numbers: [u32; FIELDS]) -> Self {
        let [element, class, dynamic, x, y, z, size, size_3d, diverge, source, gain] = numbers;
        Self {
            element,
            class,
            dynamic,
            x,
            y,
            z,
            size,
            size_3d,
            diverge,
            source,
            gain,
        }
    }
}

impl From<Object> for [u32; FIELDS] {
    #[inline(always)]
    fn from(o: Object) -> Self {
        [
            o.element, o.class, o.dynamic, o.x, o.y, o.z, o.size, o.size_3d, o.diverge, o.source,
            o.gain,
        ]
    }
}

/// Applies a value of kind 3 or 4 to a table; returns how many records it has.
pub fn objects_apply(kind: u32, value: &[u8], table: &mut [Object]) -> Result<usize, Refusal> {
    let mut slots = Slots::NONE;
    slots.fill(table)?;
    match kind {
        3 => describe(value, table, &mut slots),
        4 => reposition(value, table, &slots),
        _ => Err(Reason::Kind.at(0)),
    }
}

/// Clears the entry of an element; returns how many that are, which is one.
pub fn objects_clear(element: u32, table: &mut [Object]) -> Result<usize, Refusal> {
    let mut slots = Slots::NONE;
    slots.fill(table)?;
    let slot = slots.slot(element).ok_or(Reason::Unknown.at(0))?;
    table[slot] = Object::default();
    Ok(1)
}

/// Sets the entries of an AOD value's elements, those of new ones in free slots.
fn describe(value: &[u8], table: &mut [Object], slots: &mut Slots) -> Result<usize, Refusal> {
    let count = judge_value(&AOD, value)? / AOD.record.len();
    let size = bits(AOD.record);
    let places = (0..count).map(|index| index * size);
    // The slots are given out first: if they don't suffice, no entry has changed.
    let mut free = (0..table.len()).filter(|&slot| table[slot].element == 0);
    for at in places.clone() {
        let element = fetch(value, at, ELEMENT.width);
        if slots.slot(element).is_none() {
            slots.put(element, free.next().ok_or(Reason::Full.at(0))?);
        }
    }
    for at in places {
        let object = Object::from(record(AOD.record, value, at));
        *slots.entry(table, object.element) = object;
    }
    Ok(count)
}

/// Moves the entries of an XYZ value's elements.
fn reposition(value: &[u8], table: &mut [Object], slots: &Slots) -> Result<usize, Refusal> {
    let start = bits(XYZ.start);
    let count = (judge_value(&XYZ, value)? - XYZ.start.len()) / XYZ.record.len();
    let size = bits(XYZ.record);
    for index in 0..count {
        let element = fetch(value, start + index * size, ELEMENT.width);
        let slot = slots.slot(element).ok_or(Reason::Unknown.at(index))?;
        if table[slot].dynamic == 0 {
            return Err(Reason::Static.at(index));
        }
    }
    for index in 0..count {
        let [element, x, y, z] = record(XYZ.record, value, start + index * size);
        let entry = slots.entry(table, element);
        (entry.x, entry.y, entry.z) = (x, y, z);
    }
    Ok(count)
}

/// How many bits a row of fields takes.
fn bits(fields: &[Field]) -> usize {
    fields.iter().map(|field| field.width as usize).sum()
}

/// The numbers of a row of fields, which lies within the value from bit `at` on.
#[inline(always)]
fn record<const N: usize>(fields: &[Field], value: &[u8], mut at: usize) -> [u32; N] {
    std::array::from_fn(|index| {
        let width = fields[index].width;
        let number = fetch(value, at, width);
        at += width as usize;
        number
    })
}

/// Where each element stands in a table: 0 for nowhere, else one more than its slot.
struct Slots([u8; 1 << ELEMENT.width]);

impl Slots {
    const NONE: Self = Self([0; 1 << ELEMENT.width]);

    /// Judges a table, and notes the slots of its elements.
    fn fill(&mut self, table: &[Object]) -> Result<(), Refusal> {
        if table.len() > MAX_OBJECTS {
            return Err(Reason::Table.at(0));
        }
        for (slot, &entry) in table.iter().enumerate() {
            // What else a free entry holds is nobody's business.
            if entry.element == 0 {
                continue;
            }
            if !is_record(entry) || self.slot(entry.element).is_some() {
                return Err(Reason::Table.at(0));
            }
            self.put(entry.element, slot);
        }
        Ok(())
    }

    /// The slot of the used entry of an element, if there is one.
    #[inline(always)]
    fn slot(&self, element: u32) -> Option<usize> {
        let &place = self.0.get(element as usize)?;
        usize::from(place).checked_sub(1)
    }

    /// The entry of an element that has a slot.
    #[inline(always)]
    fn entry<'t>(&self, table: &'t mut [Object], element: u32) -> &'t mut Object {
        &mut table[usize::from(self.0[element as usize]) - 1]
    }

    #[inline(always)]
    fn put(&mut self, element: u32, slot: usize) {
        self.0[element as usize] = slot as u8 + 1;
    }
}

/// Whether an AOD record can hold the numbers of an entry.
#[inline(always)]
fn is_record(entry: Object) -> bool {
    let numbers: [u32; FIELDS] = entry.into();
    AOD.record
        .iter()
        .zip(numbers)
        .all(|(field, number)| field.takes(number))
}
