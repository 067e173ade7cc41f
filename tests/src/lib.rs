//! What the comparisons of the archive with the reference share: the archive behind its bridge, and generators of
//! packs, keep sheets, PMD values and tables of objects, good and damaged. Nothing here comes from the reference but
//! the oracle's outcomes: a generated pack is good because the rules in these files say so.

pub mod archive;
pub mod damage;
pub mod lookups;
pub mod objects;
pub mod oracle;
pub mod packs;
pub mod random;
pub mod runs;
pub mod scrubbed;
pub mod sheets;
pub mod values;
