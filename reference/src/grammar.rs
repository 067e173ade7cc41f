//! The records of the seven PMD kinds as a table.

use crate::{Reason, Refusal};

/// Which numbers a field takes; none of them is too wide for it.
#[derive(Clone, Copy)]
enum Rule {
    /// From the first to the last.
    Range(u32, u32),
    SpeakerConfig,
    Langcod,
}

#[derive(Clone, Copy)]
pub struct Field {
    pub width: u32,
    rule: Rule,
    /// Whether the field is repeated until it is 0.
    pub until_zero: bool,
}

const fn once(width: u32, rule: Rule) -> Field {
    Field {
        width,
        rule,
        until_zero: false,
    }
}

/// A field that takes numbers from `first` to `last`.
const fn range(width: u32, first: u32, last: u32) -> Field {
    once(width, Rule::Range(first, last))
}

const fn any(width: u32) -> Field {
    range(width, 0, (1 << width) - 1)
}

const fn not_zero(width: u32) -> Field {
    range(width, 1, (1 << width) - 1)
}

const fn until_zero(width: u32) -> Field {
    Field {
        until_zero: true,
        ..any(width)
    }
}

const PRESENTATION: Field = not_zero(9);
pub const ELEMENT: Field = not_zero(12);
const SUBSTREAM: Field = not_zero(4);
const SPEAKER_CONFIG: Field = once(5, Rule::SpeakerConfig);
const LANGCOD: Field = once(15, Rule::Langcod);
const CLASS: Field = range(4, 0, 6);
const DYNAMIC: Field = any(1);
const X: Field = not_zero(10);
const Y: Field = not_zero(10);
const Z: Field = not_zero(10);
const SIZE: Field = any(5);
const SIZE_3D: Field = any(1);
const DIVERGE: Field = any(1);
const SOURCE: Field = any(8);
const GAIN: Field = any(6);
const SAMPLE_TIME: Field = any(6);
const ELEMENTS: Field = until_zero(12);
const NAME: Field = until_zero(8);
const TURNAROUND: Field = not_zero(8);
const FRAME_RATE: Field = range(4, 1, 5);
const PROGRAM_CONFIG: Field = range(5, 0, 23);

/// Whether a deliverable is described.
pub const EXISTS: Field = any(1);
/// A presentation that a deliverable is to carry; 0 stands in the pair that closes the list.
pub const CARRIED: Field = any(9);
/// The E-AC-3 parameter set of the presentation before it; 0 stands for the encoder's defaults.
pub const PARAMETERS: Field = any(8);

/// What a value of one kind is made of: fields before the first record, and those of a record.
pub struct Grammar {
    pub start: &'static [Field],
    pub record: &'static [Field],
    /// What ends a record: for each deliverable a flag and, if it is set, these fields and a list
    /// of pairs.
    pub deliverables: &'static [&'static [Field]],
}

const fn records(record: &'static [Field]) -> Grammar {
    Grammar {
        start: &[],
        record,
        deliverables: &[],
    }
}

static APD: Grammar = records(&[PRESENTATION, SPEAKER_CONFIG, LANGCOD, ELEMENTS]);
static APN: Grammar = records(&[PRESENTATION, LANGCOD, NAME]);
pub static AOD: Grammar = records(&[
    ELEMENT, CLASS, DYNAMIC, X, Y, Z, SIZE, SIZE_3D, DIVERGE, SOURCE, GAIN,
]);
pub static XYZ: Grammar = Grammar {
    start: &[SAMPLE_TIME],
    record: &[ELEMENT, X, Y, Z],
    deliverables: &[],
};
static AEN: Grammar = records(&[ELEMENT, NAME]);
static ESN: Grammar = records(&[SUBSTREAM, NAME]);
static ETD: Grammar = Grammar {
    start: &[],
    record: &[TURNAROUND],
    deliverables: &[&[FRAME_RATE], &[FRAME_RATE, PROGRAM_CONFIG]],
};

/// The grammar of a kind.
pub fn grammar(kind: u32) -> Result<&'static Grammar, Refusal> {
    match kind {
        1 => Ok(&APD),
        2 => Ok(&APN),
        3 => Ok(&AOD),
        4 => Ok(&XYZ),
        5 => Ok(&AEN),
        6 => Ok(&ESN),
        7 => Ok(&ETD),
        _ => Err(Reason::Kind.at(0)),
    }
}

impl Field {
    /// Whether the field can hold `number`.
    #[inline(always)]
    pub fn takes(self, number: u32) -> bool {
        match self.rule {
            Rule::Range(first, last) => (first..=last).contains(&number),
            Rule::SpeakerConfig => number < 32 && !(7..=28).contains(&number),
            Rule::Langcod => is_langcod(number),
        }
    }
}

/// Three groups of five bits, each 1 to 26 for a to z; only the third may be 0. What is too wide for
/// a langcod has more than 26 before its last two groups.
fn is_langcod(number: u32) -> bool {
    let (first, second, third) = (number >> 10, number >> 5 & 31, number & 31);
    (1..=26).contains(&first) && (1..=26).contains(&second) && third <= 26
}
