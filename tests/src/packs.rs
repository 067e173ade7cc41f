//! Packs: what one says (`Said`), the same in a random dress of tags, mappings, length forms and CRC (`Pack`), and its
//! bytes. A `Pack` need not be right: `damage` works on it before it is laid out.

use crate::random::Random;

pub type Label = [u8; 16];

pub const KEY: Label = [0x06, 0x0E, 0x2B, 0x34, 0x02, 0x7F, 0x01, 0x01, 0x0C, 0x04, 0x01, 0, 0, 0, 0, 0];
pub const PACK_MAX: usize = 32_768;
pub const ITEMS_MAX: usize = 64;
pub const MAPPINGS_MAX: usize = 32;
pub const TAG_MAX: u32 = 268_435_455;

/// The label of Config (1), Sync (2) or CRC (3); those of PMD payloads follow in the same list.
pub fn listed_label(nn: u8) -> Label {
    [0x06, 0x0E, 0x2B, 0x34, 0x04, 0x01, 0x01, 0x0D, 0x04, 0x04, 0x02, nn, 0, 0, 0, 0]
}

fn is_utility(label: &Label) -> bool {
    (1..=3).any(|nn| *label == listed_label(nn))
}

#[derive(Clone, Copy, Debug, PartialEq, Eq)]
pub enum Name {
    Label(Label),
    Number(u32),
}

#[derive(Clone, Debug, PartialEq, Eq)]
pub struct Payload {
    pub name: Name,
    pub value: Vec<u8>,
}

#[derive(Clone, Debug, PartialEq, Eq)]
pub enum Item {
    Single(Payload),
    Sync { offset: u16, duration: u16, inside: Vec<Payload> },
}

/// What a pack says, whatever its dress. Numbers of 16 bits are kept as their bits.
#[derive(Clone, Debug, PartialEq, Eq)]
pub struct Said {
    pub offset: u16,
    pub items: Vec<Item>,
}

/// The number that 16 bits stand for in two's complement.
pub fn signed(bits: u16) -> i64 {
    (bits as i16).into()
}

impl Said {
    pub fn payloads(&self) -> impl Iterator<Item = &Payload> {
        self.with_totals().map(|(payload, _)| payload)
    }

    /// The payloads in byte order, each with its total offset: the pack's alone, or the sum of that and its Sync's.
    pub fn with_totals(&self) -> impl Iterator<Item = (&Payload, i64)> {
        self.items.iter().flat_map(|item| {
            let (payloads, of_sync) = match item {
                Item::Single(payload) => (std::slice::from_ref(payload), 0),
                Item::Sync { offset, inside, .. } => (&inside[..], signed(*offset)),
            };
            let total = signed(self.offset) + of_sync;
            payloads.iter().map(move |payload| (payload, total))
        })
    }

    /// The total offsets alone.
    pub fn totals(&self) -> Vec<i64> {
        self.with_totals().map(|(_, total)| total).collect()
    }

    /// Items and inner payloads together.
    pub fn count(&self) -> usize {
        self.items.iter().map(|item| if let Item::Sync { inside, .. } = item { 1 + inside.len() } else { 1 }).sum()
    }

    /// The labels in the order they first appear.
    pub fn labels(&self) -> Vec<Label> {
        let mut labels = Vec::new();
        for payload in self.payloads() {
            if let Name::Label(label) = payload.name {
                if !labels.contains(&label) {
                    labels.push(label);
                }
            }
        }
        labels
    }

    pub fn numbers(&self) -> Vec<u32> {
        let number = |payload: &Payload| if let Name::Number(number) = payload.name { Some(number) } else { None };
        self.payloads().filter_map(number).collect()
    }
}

/// A pack in its dress.
#[derive(Clone, Debug)]
pub struct Pack {
    pub key: Label,
    pub length: Length,
    pub parts: Vec<Part>,
    /// Bytes after the pack's value.
    pub tail: Vec<u8>,
}

#[derive(Clone, Debug)]
pub struct Part {
    pub tag: Vec<u8>,
    pub length: Length,
    pub value: Value,
}

#[derive(Clone, Debug)]
pub enum Value {
    Plain(Vec<u8>),
    Sync {
        head: Vec<u8>,
        inside: Vec<Part>,
    },
    Config {
        head: Vec<u8>,
        mappings: Vec<(Vec<u8>, Vec<u8>)>,
    },
    /// What the right CRC is changed by.
    Crc(u32),
}

/// How a length is written.
#[derive(Clone, Debug)]
pub enum Length {
    /// In at least so many bytes after the first, 0 for the shortest form.
    Form(usize),
    /// So much more or less than it is.
    Lie(i64),
    /// These bytes, whatever it is.
    Bytes(Vec<u8>),
}

impl Length {
    fn bytes(&self, length: usize) -> Vec<u8> {
        match self {
            Self::Form(least) => length_bytes(length as u32, *least),
            Self::Lie(lie) => length_bytes((length as i64 + lie).max(0) as u32, 0),
            Self::Bytes(bytes) => bytes.clone(),
        }
    }
}

/// A length in its shortest form, or in a longer one of `least` bytes after the first.
pub fn length_bytes(length: u32, least: usize) -> Vec<u8> {
    let shortest = if length < 0x80 { 0 } else { 4 - length.leading_zeros() as usize / 8 };
    let count = shortest.max(least);
    if count == 0 {
        return vec![length as u8];
    }
    [&[0x80 | count as u8], &length.to_be_bytes()[4 - count..]].concat()
}

/// A tag in groups of seven bits.
pub fn tag_bytes(tag: u32) -> Vec<u8> {
    let mut bytes = vec![tag as u8 & 0x7F];
    let mut rest = tag >> 7;
    while rest > 0 {
        bytes.insert(0, rest as u8 & 0x7F | 0x80);
        rest >>= 7;
    }
    bytes
}

/// The CRC a bit at a time by a table of bytes.
pub fn crc(bytes: &[u8]) -> u32 {
    const TABLE: [u32; 256] = table();
    bytes.iter().fold(u32::MAX, |crc, byte| crc << 8 ^ TABLE[usize::from((crc >> 24) as u8 ^ byte)])
}

const fn table() -> [u32; 256] {
    let mut table = [0; 256];
    let mut byte = 0;
    while byte < 256 {
        let mut crc = (byte as u32) << 24;
        let mut bit = 0;
        while bit < 8 {
            crc = crc << 1 ^ if crc >> 31 == 1 { 0x04C1_1DB7 } else { 0 };
            bit += 1;
        }
        table[byte] = crc;
        byte += 1;
    }
    table
}

impl Pack {
    /// The labels that its Config maps, whether a payload has them or not.
    pub fn mapped(&self) -> Vec<Label> {
        match self.parts.first() {
            Some(Part { value: Value::Config { mappings, .. }, .. }) => {
                mappings.iter().filter_map(|(_, label)| Label::try_from(&label[..]).ok()).collect()
            }
            _ => vec![],
        }
    }

    /// The pack's bytes. A CRC is that of the bytes before it, as they come to stand.
    pub fn bytes(&self) -> Vec<u8> {
        let mut value = Vec::new();
        let mut crcs = Vec::new();
        self.parts.iter().for_each(|part| part.put(&mut value, &mut crcs));
        let length = self.length.bytes(value.len());
        let first = KEY.len() + length.len();
        let mut bytes = [&self.key[..], &length, &value, &self.tail].concat();
        for (at, change) in crcs {
            let right = crc(&bytes[..first + at]) ^ change;
            bytes[first + at..][..4].copy_from_slice(&right.to_be_bytes());
        }
        bytes
    }
}

impl Part {
    pub fn new(tag: u32, length: Length, value: Value) -> Self {
        Self { tag: tag_bytes(tag), length, value }
    }

    /// Appends the part, and the places in `out` where a CRC is to stand.
    fn put(&self, out: &mut Vec<u8>, crcs: &mut Vec<(usize, u32)>) {
        let mut inner_crcs = Vec::new();
        let value = match &self.value {
            Value::Plain(bytes) => bytes.clone(),
            Value::Sync { head, inside } => {
                let mut bytes = head.clone();
                inside.iter().for_each(|part| part.put(&mut bytes, &mut inner_crcs));
                bytes
            }
            Value::Config { head, mappings } => {
                let mappings = mappings.iter().flat_map(|(tag, label)| tag.iter().chain(label));
                head.iter().chain(mappings).copied().collect()
            }
            Value::Crc(change) => {
                inner_crcs.push((0, *change));
                vec![0; 4]
            }
        };
        out.extend(&self.tag);
        out.extend(self.length.bytes(value.len()));
        crcs.extend(inner_crcs.iter().map(|(at, change)| (out.len() + at, *change)));
        out.extend(value);
    }
}

/// Any accepted form, the shortest most often.
pub fn any_form(random: &mut Random) -> Length {
    Length::Form(if random.percent(60) { 0 } else { random.between(1, 4) })
}

/// A tag of an audio payload; those that a scrub gives to labels, 64 and up, come often.
pub fn any_tag(random: &mut Random) -> u32 {
    match random.below(10) {
        0..=2 => random.between(4, 127) as u32,
        3..=6 => random.between(64, 72) as u32,
        7 => random.between(128, 16_383) as u32,
        8 => random.between(16_384, TAG_MAX as usize) as u32,
        _ => random.pick(&[4, 5, 63, 127, 128, 129, 16_383, 16_384, 2_097_151, 2_097_152, TAG_MAX - 1, TAG_MAX]),
    }
}

/// A label that is not one of the three of the fixed tags, but may differ from one, or from others, in a single byte.
pub fn any_label(random: &mut Random) -> Label {
    let mut label = match random.below(4) {
        0 => random.bytes(16).try_into().expect("16 bytes"),
        1 => listed_label(random.between(4, 17) as u8),
        _ => listed_label(random.between(1, 6) as u8),
    };
    if random.percent(50) || is_utility(&label) {
        let at = random.pick(&[0, 7, 8, 12, 15]);
        label[at] ^= 1 << random.between(1, 7);
    }
    label
}

/// One of these labels but for a bit or two, and not one of the three.
pub fn near(random: &mut Random, labels: &[Label]) -> Label {
    let mut label = random.pick(labels);
    let any = random.below(16);
    let at = random.pick(&[15, 15, 12, any]);
    label[at] ^= 1 << random.below(8);
    if is_utility(&label) {
        label[at] ^= 0x80;
    }
    label
}

fn any_name(random: &mut Random, labels: &[Label]) -> Name {
    if labels.is_empty() || random.percent(50) {
        Name::Number(any_tag(random))
    } else {
        Name::Label(random.pick(labels))
    }
}

/// A size of value, with those around a change of length form.
fn any_size(random: &mut Random) -> usize {
    match random.below(40) {
        0..=31 => random.below(12),
        32..=36 => random.below(60),
        37 => random.between(120, 132),
        38 => random.between(250, 260),
        _ => random.pick(&[0, 4, 16, 127, 128, 255, 256, 1000]),
    }
}

fn any_payload(random: &mut Random, labels: &[Label]) -> Payload {
    let name = any_name(random, labels);
    let size = any_size(random);
    Payload { name, value: random.bytes(size) }
}

pub fn any_u16(random: &mut Random) -> u16 {
    if random.percent(40) {
        random.pick(&[0, 0, 1, 0x7FFF, 0x8000, 0xFFFF])
    } else {
        random.next() as u16
    }
}

/// How many items: few as a rule, around the cap now and then.
fn any_count(random: &mut Random) -> usize {
    match random.below(20) {
        0..=13 => random.below(5),
        14..=18 => random.between(5, 16),
        _ => random.between(58, ITEMS_MAX),
    }
}

/// Labels for the payloads of a pack: few as a rule, around the cap of mappings now and then.
pub fn any_labels(random: &mut Random) -> Vec<Label> {
    let distinct = if random.percent(4) { random.between(28, MAPPINGS_MAX) } else { random.below(5) };
    let mut labels: Vec<Label> = Vec::new();
    for _ in 0..distinct {
        let label = if labels.is_empty() || random.percent(70) { any_label(random) } else { near(random, &labels) };
        labels.push(label);
    }
    labels
}

/// What an accepted pack can say.
pub fn any_said(random: &mut Random) -> Said {
    let labels = any_labels(random);
    said_with(random, &labels)
}

/// The same with these labels, or some of them.
pub fn said_with(random: &mut Random, labels: &[Label]) -> Said {
    let count = any_count(random);
    let mut said = Said { offset: any_u16(random), items: Vec::new() };
    let mut left = count;
    while left > 0 {
        if left >= 2 && random.percent(30) {
            let inside = random.between(1, (left - 1).min(6));
            let inside: Vec<Payload> = (0..inside).map(|_| any_payload(random, labels)).collect();
            left -= 1 + inside.len();
            said.items.push(Item::Sync { offset: any_u16(random), duration: any_u16(random), inside });
        } else {
            left -= 1;
            said.items.push(Item::Single(any_payload(random, labels)));
        }
    }
    said
}

/// Tags for labels: none of them a tag that the pack uses as a number.
fn tags_for(random: &mut Random, labels: &[Label], numbers: &[u32]) -> Vec<(u32, Label)> {
    let mut taken = numbers.to_vec();
    let mut mappings = Vec::new();
    for &label in labels {
        let mut tag = any_tag(random);
        while taken.contains(&tag) {
            tag = random.between(4, 500) as u32;
        }
        taken.push(tag);
        mappings.push((tag, label));
    }
    mappings
}

/// Puts what a pack says into a dress of its own. The pack is accepted if it is not above its cap.
pub fn dressed(random: &mut Random, said: &Said) -> Pack {
    let unused = if random.percent(30) { random.below(3) } else { 0 };
    let unused: Vec<Label> = (0..unused).map(|_| any_label(random)).collect();
    dressed_with(random, said, &unused)
}

/// The same with mappings of these labels too, as many as there may be.
pub fn dressed_with(random: &mut Random, said: &Said, more: &[Label]) -> Pack {
    let mut labels = said.labels();
    for label in more {
        if labels.len() < MAPPINGS_MAX && !labels.contains(label) {
            labels.push(*label);
        }
    }
    random.shuffle(&mut labels);
    let mappings = tags_for(random, &labels, &said.numbers());
    let mut parts = Vec::new();
    if said.offset != 0 || !mappings.is_empty() || random.percent(30) {
        let head = said.offset.to_be_bytes().to_vec();
        let mappings = mappings.iter().map(|(tag, label)| (tag_bytes(*tag), label.to_vec())).collect();
        parts.push(Part::new(1, any_form(random), Value::Config { head, mappings }));
    }
    for item in &said.items {
        parts.push(dressed_item(random, item, &mappings));
    }
    if random.percent(50) {
        parts.push(Part::new(3, any_form(random), Value::Crc(0)));
    }
    Pack { key: KEY, length: any_form(random), parts, tail: vec![] }
}

fn dressed_item(random: &mut Random, item: &Item, mappings: &[(u32, Label)]) -> Part {
    match item {
        Item::Single(payload) => dressed_payload(random, payload, mappings),
        Item::Sync { offset, duration, inside } => {
            let head = [offset.to_be_bytes(), duration.to_be_bytes()].concat();
            let inside = inside.iter().map(|payload| dressed_payload(random, payload, mappings)).collect();
            Part::new(2, any_form(random), Value::Sync { head, inside })
        }
    }
}

fn dressed_payload(random: &mut Random, payload: &Payload, mappings: &[(u32, Label)]) -> Part {
    let tag = match payload.name {
        Name::Number(tag) => tag,
        Name::Label(label) => mappings.iter().find(|mapping| mapping.1 == label).expect("each label is mapped").0,
    };
    Part::new(tag, any_form(random), Value::Plain(payload.value.clone()))
}

/// Stretches a payload's value so that the pack comes out at `size` bytes or close to it.
pub fn stretch(pack: &mut Pack, size: usize) {
    for _ in 0..3 {
        let missing = size as i64 - pack.bytes().len() as i64;
        let plain = pack.parts.iter_mut().find_map(|part| match &mut part.value {
            Value::Plain(bytes) => Some(bytes),
            _ => None,
        });
        let Some(bytes) = plain else { return };
        bytes.resize((bytes.len() as i64 + missing).max(0) as usize, 0x5A);
    }
}

/// A pack as it comes: mostly small, now and then around its cap.
pub fn any_pack(random: &mut Random) -> (Said, Pack) {
    let mut said = any_said(random);
    let mut pack = dressed(random, &said);
    if random.below(200) == 0 {
        stretch(&mut pack, random.between(PACK_MAX - 12, PACK_MAX));
        // What it says is of use for its names alone from here on.
        said.items.truncate(8);
    }
    (said, pack)
}
