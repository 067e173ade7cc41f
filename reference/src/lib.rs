//! An independent reference implementation of the utility's rules: one ST 2109 audio metadata
//! pack (read, check, list, scrub by a keep sheet), the value of a label in a main pack or its
//! backup, the values of seven PMD payload kinds, and a live table of the objects they describe.
//!
//! Nothing here allocates except the text of a listing, and no function changes a lent buffer
//! when it refuses.

#![forbid(unsafe_code)]

pub mod bits;
mod config;
pub mod crc;
pub mod gain;
mod grammar;
mod labels;
pub mod list;
pub mod lookup;
pub mod numbers;
pub mod objects;
pub mod pack;
pub mod pmd;
pub mod rows;
pub mod scrub;
pub mod sheet;
mod walk;

pub use gain::{gain, Gain};
pub use labels::Label;
pub use list::{list, listing};
pub use lookup::{lookup, Found, LookupRefusal, Mark};
pub use objects::{objects_apply, objects_clear, Object};
pub use pack::{check, read, Item, Name, Payload, Reading};
pub use pmd::{pmd_read, pmd_write};
pub use rows::rows;
pub use scrub::scrub;
pub use sheet::{sheet_check, Sheet};

/// What comes back instead of a success: the number of the reason and the place of the fault.
#[derive(Clone, Copy, Debug, PartialEq, Eq)]
pub struct Refusal {
    pub number: u32,
    pub place: usize,
}

/// The reasons by name, with their numbers.
#[derive(Clone, Copy, Debug, PartialEq, Eq)]
#[repr(u32)]
pub enum Reason {
    /// Pack or PMD value above its cap.
    Big = 1,
    /// Pack below 16 bytes, its length cut off, or its value past the slice.
    Short = 2,
    /// The first 16 bytes are not the pack key.
    Key = 3,
    /// Forbidden length form.
    Length = 4,
    /// Bytes after the pack's value.
    Trail = 5,
    /// First tag byte 00 or 80, or a fourth that still has its high bit.
    Tag = 6,
    /// Tag, length or value passes the end of its pack or Sync.
    Cut = 7,
    /// Config not first, CRC not last, or one of the fixed tags inside a Sync.
    Place = 8,
    /// The 65th item or payload, or the 33rd mapping.
    Count = 9,
    /// Config value under 2 bytes, or a mapping cut off.
    Config = 10,
    /// A mapping of a fixed tag or label, or a second one of the same tag or label.
    Map = 11,
    /// Sync value under 4 bytes, or no payload inside.
    Sync = 12,
    /// CRC length not 4, or value wrong.
    Crc = 13,
    /// Malformed keep sheet.
    Sheet = 14,
    /// What must be written doesn't fit.
    NoRoom = 15,
    /// A PMD value or number list ends inside a record, or has none.
    Bits = 16,
    /// A reserved value, or a number too wide.
    Field = 17,
    /// Leftover bits not all zero.
    Pad = 18,
    /// Kind not 1 to 7; for a table of objects not 3 or 4.
    Kind = 19,
    /// A label that neither of two packs carries, or that is not of 16 bytes.
    Absent = 20,
    /// Malformed table of objects.
    Table = 21,
    /// An element that no used entry of the table has.
    Unknown = 22,
    /// A position for an entry that is not dynamic.
    Static = 23,
    /// More new elements than free entries.
    Full = 24,
}

impl Reason {
    /// The refusal for this reason at `place`.
    #[inline]
    pub const fn at(self, place: usize) -> Refusal {
        Refusal {
            number: self as u32,
            place,
        }
    }
}
