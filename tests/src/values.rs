//! PMD values of seven kinds, good and damaged: as lists of numbers and as bytes.

use crate::random::Random;

pub const VALUE_MAX: usize = 4_096;
/// The most numbers that a value has: turnarounds without deliverables, three numbers to 10 bits, in 4,095 bytes.
pub const NUMBERS_MAX: usize = 9_828;

/// The kind of turnarounds.
pub const ETD: u32 = 7;

/// The numbers that a field may hold, besides fitting its width.
#[derive(Clone, Copy, PartialEq)]
enum Rule {
    Any,
    NotZero,
    SpeakerConfig,
    Class,
    Langcod,
    FrameRate,
    ProgramConfig,
}

#[derive(Clone, Copy, PartialEq)]
struct Field {
    width: usize,
    rule: Rule,
    /// Whether it comes again until it is 0.
    again: bool,
}

const fn field(width: usize, rule: Rule) -> Field {
    Field { width, rule, again: false }
}

const ELEMENT: Field = field(12, Rule::NotZero);
const PRESENTATION: Field = field(9, Rule::NotZero);
const LANGCOD: Field = field(15, Rule::Langcod);
const POSITION: Field = field(10, Rule::NotZero);
const NAME: Field = Field { width: 8, rule: Rule::Any, again: true };
const ELEMENTS: Field = Field { width: 12, rule: Rule::Any, again: true };

const FLAG: Field = field(1, Rule::Any);

static APD: [Field; 4] = [PRESENTATION, field(5, Rule::SpeakerConfig), LANGCOD, ELEMENTS];
static APN: [Field; 3] = [PRESENTATION, LANGCOD, NAME];
static AOD: [Field; 11] = [
    ELEMENT,
    field(4, Rule::Class),
    FLAG,
    POSITION,
    POSITION,
    POSITION,
    field(5, Rule::Any),
    FLAG,
    FLAG,
    field(8, Rule::Any),
    field(6, Rule::Any),
];
static SAMPLE_TIME: [Field; 1] = [field(6, Rule::Any)];
static XYZ: [Field; 4] = [ELEMENT, POSITION, POSITION, POSITION];
static AEN: [Field; 2] = [ELEMENT, NAME];
static ESN: [Field; 2] = [field(4, Rule::NotZero), NAME];
static TURNAROUND: [Field; 1] = [field(8, Rule::NotZero)];

const FRAME_RATE: Field = field(4, Rule::FrameRate);
const CARRIED: Field = field(9, Rule::Any);
const PARAMETERS: Field = field(8, Rule::Any);

/// The fields of a turnaround's deliverables, ED2 and Dolby E, each behind a flag and before a list of pairs.
static DELIVERABLES: [&[Field]; 2] = [&[FRAME_RATE], &[FRAME_RATE, field(5, Rule::ProgramConfig)]];

/// What stands once before the first record, and a record, up to a turnaround's deliverables. A number that is no kind
/// is taken for ESN.
fn fields(kind: u32) -> (&'static [Field], &'static [Field]) {
    match kind {
        1 => (&[], &APD),
        2 => (&[], &APN),
        3 => (&[], &AOD),
        4 => (&SAMPLE_TIME, &XYZ),
        5 => (&[], &AEN),
        ETD => (&[], &TURNAROUND),
        _ => (&[], &ESN),
    }
}

/// A number and its field.
type Entry = (u32, Field);

fn group(random: &mut Random) -> u32 {
    random.pick(&[1, 2, 14, 25, 26, 5])
}

fn good_number(random: &mut Random, field: Field) -> u32 {
    let top = (1 << field.width) - 1;
    let any = if random.percent(30) { random.pick(&[1, top, top / 2, top / 2 + 1]) } else { random.between(1, top) };
    match field.rule {
        Rule::NotZero => any as u32,
        Rule::Any => {
            if random.percent(20) {
                0
            } else {
                any as u32
            }
        }
        Rule::SpeakerConfig => random.pick(&[0, 1, 2, 3, 4, 5, 6, 29, 30, 31]),
        Rule::Class => random.below(7) as u32,
        Rule::Langcod => {
            let third = if random.percent(30) { 0 } else { group(random) };
            group(random) << 10 | group(random) << 5 | third
        }
        Rule::FrameRate => random.between(1, 5) as u32,
        Rule::ProgramConfig => random.below(24) as u32,
    }
}

/// A number that the field refuses when it is written; some fit its bits, so that they can be met when reading too.
fn bad_number(random: &mut Random, field: Field) -> u32 {
    let wide = 1 << field.width;
    let reserved = match field.rule {
        Rule::Any => wide,
        Rule::NotZero => 0,
        Rule::SpeakerConfig => random.between(7, 28) as u32,
        Rule::Class => random.between(7, 15) as u32,
        Rule::Langcod => {
            // Each group outside its range in turn, and a first or second group of 0.
            let (good, outside) = (group(random), random.pick(&[27, 28, 31]));
            let (first, second, third) = (good << 10, good << 5, good);
            random.pick(&[
                outside << 10 | second,
                first | outside << 5,
                first | second | outside,
                second | third,
                first,
            ])
        }
        Rule::FrameRate => random.pick(&[0, 6, 7, 8, 9, 10, 11, 12, 13, 14, 15]),
        Rule::ProgramConfig => random.between(24, 31) as u32,
    };
    if random.percent(60) {
        reserved
    } else {
        random.pick(&[wide, wide + 1, u32::MAX, 1 << 31])
    }
}

fn put_fields(random: &mut Random, fields: &[Field], again: usize, entries: &mut Vec<Entry>) {
    for &field in fields {
        if field.again {
            for _ in 0..again {
                let number = random.between(1, (1 << field.width) - 1);
                entries.push((number as u32, field));
            }
            entries.push((0, field));
        } else {
            entries.push((good_number(random, field), field));
        }
    }
}

/// A record, with so many entries in each of its lists.
fn put_record(random: &mut Random, kind: u32, again: usize, entries: &mut Vec<Entry>) {
    put_fields(random, fields(kind).1, again, entries);
    if kind == ETD {
        DELIVERABLES.iter().for_each(|fields| put_deliverable(random, fields, again, entries));
    }
}

/// A deliverable or none: its flag and, if that is set, its fields, so many pairs and the one that closes their list.
fn put_deliverable(random: &mut Random, fields: &[Field], pairs: usize, entries: &mut Vec<Entry>) {
    let exists = random.percent(60);
    entries.push((exists.into(), FLAG));
    if !exists {
        return;
    }
    put_fields(random, fields, 0, entries);
    for left in (0..=pairs).rev() {
        let presentation = if left == 0 { 0 } else { good_number(random, PRESENTATION) };
        entries.push((presentation, CARRIED));
        entries.push((good_number(random, PARAMETERS), PARAMETERS));
    }
}

fn bits(entries: &[Entry]) -> usize {
    entries.iter().map(|(_, field)| field.width).sum()
}

/// A good list of a kind: a few records as a rule, now and then as many as a value can hold or more.
fn any_entries(random: &mut Random, kind: u32) -> Vec<Entry> {
    let mut entries = Vec::new();
    put_fields(random, fields(kind).0, 0, &mut entries);
    if random.below(300) == 0 {
        let full = 8 * random.between(VALUE_MAX - 60, VALUE_MAX + 60);
        let again = random.pick(&[0, 1, 7, 2500]);
        // A turnaround may have two lists, of pairs.
        let entry = if kind == ETD { 2 * 17 } else { 12 };
        let mut filled = bits(&entries);
        while filled < full {
            let before = entries.len();
            put_record(random, kind, again.min((full - filled) / entry), &mut entries);
            filled += bits(&entries[before..]);
        }
    }
    for _ in 0..random.pick(&[1, 1, 1, 2, 2, 3, 5, 9]) {
        let again = random.pick(&[0, 1, 2, 3, 7, 20]);
        put_record(random, kind, again, &mut entries);
    }
    entries
}

/// Good turnarounds of every form, as many as a value has room for: how many they are, their numbers and their value.
pub fn many_turnarounds(random: &mut Random) -> (usize, Vec<u32>, Vec<u8>) {
    let (mut records, mut entries) = (0, Vec::new());
    loop {
        let before = entries.len();
        let again = random.below(6);
        put_record(random, ETD, again, &mut entries);
        if bits(&entries) > 8 * VALUE_MAX {
            entries.truncate(before);
            return (records, numbers(&entries), packed(&entries));
        }
        records += 1;
    }
}

fn numbers(entries: &[Entry]) -> Vec<u32> {
    entries.iter().map(|entry| entry.0).collect()
}

/// Fields packed into bytes, the last filled up with 0.
fn packed(entries: &[Entry]) -> Vec<u8> {
    let mut bytes = vec![0; bits(entries).div_ceil(8)];
    let mut at = 0;
    for &(number, field) in entries {
        for bit in (0..field.width).rev() {
            bytes[at / 8] |= ((number >> bit & 1) as u8) << (7 - at % 8);
            at += 1;
        }
    }
    bytes
}

/// One of the seven kinds, or now and then none of them.
pub fn any_kind(random: &mut Random) -> u32 {
    if random.percent(2) {
        random.pick(&[0, 8, 9, 255, 256, 1 << 16, u32::MAX])
    } else {
        random.between(1, 7) as u32
    }
}

/// A number of the list replaced by one that its field refuses.
fn spoil(random: &mut Random, entries: &mut [Entry]) {
    let at = random.below(entries.len());
    let (number, field) = &mut entries[at];
    *number = bad_number(random, *field);
}

/// A list that ends between a presentation that closes pairs and its parameter set, where it has pairs.
fn cut_closing_pair(random: &mut Random, entries: &mut Vec<Entry>) {
    let pairs = entries.windows(2).enumerate().filter(|(_, two)| two[0].1 == CARRIED && two[1].1 == PARAMETERS);
    let closing: Vec<usize> = pairs.filter(|(_, two)| two[0].0 == 0).map(|(at, _)| at + 1).collect();
    if !closing.is_empty() {
        entries.truncate(random.pick(&closing));
    }
}

/// A value as bytes, good or with faults.
pub fn any_value(random: &mut Random, kind: u32) -> Vec<u8> {
    let entries = any_entries(random, kind);
    packed_or_hurt(random, entries)
}

/// Fields packed into bytes, with faults put in before or after, or none.
fn packed_or_hurt(random: &mut Random, mut entries: Vec<Entry>) -> Vec<u8> {
    if random.percent(20) {
        spoil(random, &mut entries);
        // Only what the field's bits hold can be met in a value.
        entries.iter_mut().for_each(|(number, field)| *number &= (1 << field.width) - 1);
    }
    if random.percent(3) {
        cut_closing_pair(random, &mut entries);
    }
    let mut value = packed(&entries);
    if random.percent(40) {
        hurt(random, &mut value);
    }
    value
}

/// A good record of a kind whose records begin with an element and have no list.
fn record_entries(random: &mut Random, kind: u32, element: u32) -> Vec<Entry> {
    let mut entries = Vec::new();
    put_record(random, kind, 0, &mut entries);
    entries[0].0 = element;
    entries
}

/// The numbers of such a record.
pub fn record_of(random: &mut Random, kind: u32, element: u32) -> Vec<u32> {
    numbers(&record_entries(random, kind, element))
}

/// One number of a record replaced by one that its field refuses.
pub fn spoil_record(random: &mut Random, kind: u32, record: &mut [u32]) {
    let fields = fields(kind).1;
    let at = random.below(fields.len());
    record[at] = bad_number(random, fields[at]);
}

/// A value of such a kind, with a record for each of these elements: good, or with faults as any value may have.
pub fn value_of(random: &mut Random, kind: u32, elements: &[u32], good: bool) -> Vec<u8> {
    let mut entries = Vec::new();
    put_fields(random, fields(kind).0, 0, &mut entries);
    elements.iter().for_each(|&element| entries.extend(record_entries(random, kind, element)));
    if good {
        packed(&entries)
    } else {
        packed_or_hurt(random, entries)
    }
}

/// A record as bytes, of each number the bits that its field has.
pub fn record_bytes(kind: u32, record: &[u32]) -> Vec<u8> {
    let entries = record.iter().zip(fields(kind).1).map(|(number, field)| (*number, *field));
    packed(&entries.collect::<Vec<Entry>>())
}

/// The records of a good value of such a kind.
pub fn records_in(kind: u32, value: &[u8]) -> Vec<Vec<u32>> {
    let (start, record) = fields(kind);
    let size = |fields: &[Field]| fields.iter().map(|field| field.width).sum::<usize>();
    let bit = |at: usize| u32::from(value[at / 8] >> (7 - at % 8) & 1);
    let mut at = size(start);
    let mut records = Vec::new();
    while 8 * value.len() >= at + size(record) {
        let number = |field: &Field| {
            at += field.width;
            (at - field.width..at).fold(0, |number, place| number << 1 | bit(place))
        };
        records.push(record.iter().map(number).collect());
    }
    records
}

fn hurt(random: &mut Random, value: &mut Vec<u8>) {
    let at = random.below(value.len());
    match random.below(10) {
        0 | 1 => value.truncate(at),
        2 => value.push(0),
        3 => value.extend(random.bytes(3)),
        4 => value[at] ^= 1 << random.below(8),
        5 => *value.last_mut().expect("a value has bytes") |= 1 << random.below(8),
        6 => value[at] = 0,
        7 => {
            *value = {
                let size = random.below(12);
                random.bytes(size)
            }
        }
        8 if random.percent(5) => value.resize(random.between(VALUE_MAX, VALUE_MAX + 2), 0x11),
        _ => value[at] = random.byte(),
    }
}

/// A list of numbers, good or with faults.
pub fn any_list(random: &mut Random, kind: u32) -> Vec<u32> {
    let mut entries = any_entries(random, kind);
    for _ in 0..random.pick(&[0, 0, 0, 1, 2]) {
        spoil(random, &mut entries);
    }
    if random.percent(3) {
        cut_closing_pair(random, &mut entries);
    }
    let mut list = numbers(&entries);
    match random.below(12) {
        0 | 1 => list.truncate(random.below(list.len())),
        2 => list.push(random.between(0, 2) as u32),
        3 => list.extend(random.numbers(3)),
        4 => {
            let at = random.below(list.len());
            list.remove(at);
        }
        5 => {
            let at = random.below(list.len());
            // A flag that no longer fits what follows it, or a list that ends elsewhere.
            list[at] = random.pick(&[0, 0, 1]);
        }
        _ => {}
    }
    list
}
