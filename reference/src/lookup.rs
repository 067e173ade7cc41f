//! The value of a label in the main one of two packs, or in the backup.

use crate::config::{read_config, Mappings};
use crate::labels::Label;
use crate::pack::total_offset;
use crate::walk::{walk, Frame, Sink};
use crate::{Reason, Refusal};

/// Which of the two packs.
#[derive(Clone, Copy, Debug, PartialEq, Eq)]
pub enum Mark {
    Main,
    Backup,
}

/// The value of a label's first payload, a stretch of the pack that is marked.
#[derive(Clone, Copy, Debug, PartialEq, Eq)]
pub struct Found<'a> {
    pub mark: Mark,
    /// Where the value starts in that pack.
    pub start: usize,
    pub value: &'a [u8],
    /// The total offset of the payload.
    pub total: i32,
}

/// What comes back instead: a refusal, and the pack at fault.
#[derive(Clone, Copy, Debug, PartialEq, Eq)]
pub struct LookupRefusal {
    pub refusal: Refusal,
    /// Neither pack, if the label is absent.
    pub mark: Option<Mark>,
}

/// Finds the value of the first payload of `label` in `main` or, if that has none, in `backup`.
pub fn lookup<'a>(
    main: &'a [u8],
    backup: &'a [u8],
    label: &[u8],
) -> Result<Found<'a>, LookupRefusal> {
    let label = label.try_into().ok();
    let in_main = seek(main, Mark::Main, label)?;
    // What main has is not sought in the backup, which is judged all the same.
    let in_backup = seek(backup, Mark::Backup, label.filter(|_| in_main.is_none()))?;
    in_main.or(in_backup).ok_or(LookupRefusal {
        refusal: Reason::Absent.at(0),
        mark: None,
    })
}

/// Judges the whole pack, and finds the first payload of the label in it.
fn seek<'a>(
    pack: &'a [u8],
    mark: Mark,
    label: Option<&Label>,
) -> Result<Option<Found<'a>>, LookupRefusal> {
    let mut search = Search {
        label,
        offset: 0,
        tag: None,
        found: None,
    };
    walk(pack, &mut search).map_err(|refusal| LookupRefusal {
        refusal,
        mark: Some(mark),
    })?;
    Ok(search.found.map(|(frame, total)| Found {
        mark,
        start: frame.value,
        value: &pack[frame.value..frame.end],
        total,
    }))
}

/// The sink of a search. A Config comes before every payload, so offset and tag are known in time.
struct Search<'l> {
    label: Option<&'l Label>,
    /// The pack offset, 0 without a Config.
    offset: i16,
    /// The tag mapped to the label, until a payload has it.
    tag: Option<u32>,
    /// The first payload with the tag, and its total offset.
    found: Option<(Frame, i32)>,
}

impl Sink for Search<'_> {
    fn config(&mut self, part: &[u8], at: usize, frame: Frame) -> Result<(), Refusal> {
        let mut mappings = Mappings::NONE;
        self.offset = read_config(part, at, frame.value, &mut mappings)?;
        self.tag = self.label.and_then(|label| mappings.tag_of(part, label));
        Ok(())
    }

    #[inline(always)]
    fn payload(&mut self, _slot: usize, _at: usize, frame: Frame, sync: Option<i16>) {
        if self.tag == Some(frame.tag) {
            self.found = Some((frame, total_offset(self.offset, sync)));
            self.tag = None;
        }
    }
}
