//! The archive, called through the bridge process that links it.

use std::io::{Read, Write};
use std::process::{Child, ChildStdin, ChildStdout, Command, Stdio};

use crate::objects::Entry;

/// A call of one export. Buffers hold what is in them before the call.
#[derive(Clone, Debug)]
pub enum Call {
    Check { pack: Vec<u8> },
    Read { pack: Vec<u8>, rows: Vec<u32> },
    Scrub { sheet: Vec<u8>, pack: Vec<u8>, out: Vec<u8> },
    SheetCheck { sheet: Vec<u8> },
    Lookup { main: Vec<u8>, backup: Vec<u8>, label: Vec<u8> },
    PmdRead { kind: u32, value: Vec<u8>, numbers: Vec<u32> },
    PmdWrite { kind: u32, numbers: Vec<u32>, out: Vec<u8> },
    Gain { gain: u32 },
    ObjectsApply { kind: u32, value: Vec<u8>, table: Vec<Entry> },
    ObjectsClear { element: u32, table: Vec<Entry> },
}

/// What C gets: for `bw_gain`, `value` holds `muted` in its upper half and `half_db` in its lower.
#[derive(Clone, Copy, Debug, PartialEq, Eq)]
pub struct Answer {
    pub number: u64,
    pub value: u64,
}

/// An answer and the buffer after the call, numbers as four bytes each. For `bw_lookup`, which is lent none, the buffer
/// is that of `found_buffer`.
#[derive(Clone, Debug, PartialEq, Eq)]
pub struct Outcome {
    pub answer: Answer,
    pub buffer: Vec<u8>,
}

impl Outcome {
    /// The buffer as numbers.
    pub fn numbers(&self) -> Vec<u32> {
        self.buffer.as_chunks().0.iter().map(|&four| u32::from_le_bytes(four)).collect()
    }

    /// The buffer as a table of objects.
    pub fn table(&self) -> Vec<Entry> {
        self.numbers().as_chunks().0.to_vec()
    }

    /// What a look-up has beside its answer.
    pub fn beside(&self) -> Beside {
        let mut rest = &self.buffer[..];
        Beside {
            from: u64::from_le_bytes(take(&mut rest)),
            start: u64::from_le_bytes(take(&mut rest)),
            total: i64::from_le_bytes(take(&mut rest)),
        }
    }
}

/// The numbers of a look-up beside its answer: which pack, where the value starts, and its payload's total offset.
#[derive(Clone, Copy, Debug, Default, PartialEq, Eq)]
pub struct Beside {
    pub from: u64,
    pub start: u64,
    pub total: i64,
}

impl Beside {
    /// Those of a refusal, of which only the pack at fault is told.
    pub fn refused(from: u64) -> Self {
        Self { from, ..Self::default() }
    }
}

/// What C gets of a look-up beside its answer: its numbers of eight bytes each, and the value as it stands where
/// `bw_found_value` points; then zeros, for as long as a value in one of these packs could be.
pub fn found_buffer(main: &[u8], backup: &[u8], beside: Beside, value: &[u8]) -> Vec<u8> {
    let Beside { from, start, total } = beside;
    let mut buffer = [&from.to_le_bytes(), &start.to_le_bytes(), &total.to_le_bytes(), value].concat();
    buffer.resize(24 + main.len().max(backup.len()), 0);
    buffer
}

/// A running bridge.
pub struct Archive {
    bridge: Child,
    calls: ChildStdin,
    outcomes: ChildStdout,
    batch: Vec<u8>,
}

impl Archive {
    pub fn start() -> Self {
        let mut words = env!("BRIDGE_RUN").split_whitespace().chain([env!("BRIDGE")]);
        let mut command = Command::new(words.next().expect("the bridge has a path"));
        let spawned = command.args(words).stdin(Stdio::piped()).stdout(Stdio::piped()).spawn();
        let mut bridge = spawned.expect("the bridge can be run");
        let calls = bridge.stdin.take().expect("its input is piped");
        let outcomes = bridge.stdout.take().expect("its output is piped");
        Self { bridge, calls, outcomes, batch: Vec::new() }
    }

    /// One call.
    pub fn outcome(&mut self, call: &Call) -> Outcome {
        self.outcomes(std::slice::from_ref(call)).remove(0)
    }

    /// A batch of calls. Guards stand after the ranges and before them in turn.
    pub fn outcomes(&mut self, calls: &[Call]) -> Vec<Outcome> {
        self.send(calls);
        self.receive(calls)
    }

    /// Sends a batch, whose outcomes must be received before the next one.
    pub fn send(&mut self, calls: &[Call]) {
        self.batch.clear();
        self.batch.extend([0; 4]);
        for (index, call) in calls.iter().enumerate() {
            encode(call, index % 4 != 3, &mut self.batch);
        }
        let size = self.batch.len() as u32 - 4;
        self.batch[..4].copy_from_slice(&size.to_le_bytes());
        self.calls.write_all(&self.batch).expect("the bridge takes calls");
    }

    /// The outcomes of the batch that was sent.
    pub fn receive(&mut self, calls: &[Call]) -> Vec<Outcome> {
        let mut size = [0; 4];
        self.outcomes.read_exact(&mut size).expect("the bridge answers");
        self.batch.resize(u32::from_le_bytes(size) as usize, 0);
        self.outcomes.read_exact(&mut self.batch).expect("the bridge answers");
        let mut rest = &self.batch[..];
        let outcomes = calls.iter().map(|call| decode(call, &mut rest)).collect();
        assert!(rest.is_empty(), "the bridge answers each call once");
        outcomes
    }
}

impl Drop for Archive {
    fn drop(&mut self) {
        // Killing a bridge that has ended already is an error of no interest.
        let _ = self.bridge.kill();
        let _ = self.bridge.wait();
    }
}

/// Appends a call in the bridge's form.
fn encode(call: &Call, guard_after: bool, batch: &mut Vec<u8>) {
    let list;
    let (function, scalar, read, buffer): (u32, u32, [&[u8]; 3], Vec<u8>) = match call {
        Call::Check { pack } => (0, 0, [pack, &[], &[]], vec![]),
        Call::Read { pack, rows } => (1, 0, [pack, &[], &[]], four_each(rows)),
        Call::Scrub { sheet, pack, out } => (2, 0, [sheet, pack, &[]], out.clone()),
        Call::SheetCheck { sheet } => (3, 0, [sheet, &[], &[]], vec![]),
        // Ranges that are only read may overlap: packs that are the same are lent as one.
        Call::Lookup { main, backup, label } => {
            (4, u32::from(main == backup), [main, backup, label], found_buffer(main, backup, Beside::default(), &[]))
        }
        Call::PmdRead { kind, value, numbers } => (5, *kind, [value, &[], &[]], four_each(numbers)),
        Call::PmdWrite { kind, numbers, out } => {
            list = four_each(numbers);
            (6, *kind, [&list, &[], &[]], out.clone())
        }
        Call::Gain { gain } => (7, *gain, [&[]; 3], vec![]),
        Call::ObjectsApply { kind, value, table } => (8, *kind, [value, &[], &[]], four_each(table.as_flattened())),
        Call::ObjectsClear { element, table } => (9, *element, [&[]; 3], four_each(table.as_flattened())),
    };
    let sizes = [read[0].len(), read[1].len(), read[2].len(), buffer.len()].map(|size| size as u32);
    let header = [&[function, scalar, u32::from(guard_after)], &sizes[..]].concat();
    batch.extend(header.iter().flat_map(|number| number.to_le_bytes()));
    batch.extend(read.concat());
    batch.extend(buffer);
}

/// Takes the outcome of `call` from the front of `rest`.
fn decode(call: &Call, rest: &mut &[u8]) -> Outcome {
    let number = u64::from_le_bytes(take(rest));
    let value = u64::from_le_bytes(take(rest));
    let trouble = u32::from_le_bytes(take(rest));
    let size = u32::from_le_bytes(take(rest)) as usize;
    let (buffer, after) = rest.split_at(size);
    *rest = after;
    assert!(trouble == 0, "{} in {}", trouble_named(trouble), shown(call));
    Outcome { answer: Answer { number, value }, buffer: buffer.to_vec() }
}

fn take<const N: usize>(rest: &mut &[u8]) -> [u8; N] {
    let (taken, after) = rest.split_first_chunk().expect("an outcome is whole");
    *rest = after;
    *taken
}

fn trouble_named(trouble: u32) -> String {
    let names =
        ["a byte outside the lent ranges was touched", "a byte beside a range was overwritten", "an input was changed"];
    let named = names.iter().enumerate().filter(|(bit, _)| trouble >> bit & 1 == 1);
    named.map(|(_, name)| *name).collect::<Vec<_>>().join(", ")
}

pub fn four_each(numbers: &[u32]) -> Vec<u8> {
    numbers.iter().flat_map(|number| number.to_le_bytes()).collect()
}

/// A call as text that names all its inputs.
pub fn shown(call: &Call) -> String {
    match call {
        Call::Check { pack } => format!("bw_check\n  pack {}", hex(pack)),
        Call::Read { pack, rows } => format!("bw_read\n  pack {}\n  room for {} numbers", hex(pack), rows.len()),
        Call::Scrub { sheet, pack, out } => {
            format!("bw_scrub\n  sheet {}\n  pack {}\n  room for {} bytes", hex(sheet), hex(pack), out.len())
        }
        Call::SheetCheck { sheet } => format!("bw_sheet_check\n  sheet {}", hex(sheet)),
        Call::Lookup { main, backup, label } => {
            format!("bw_lookup\n  main {}\n  backup {}\n  label {}", hex(main), hex(backup), hex(label))
        }
        Call::PmdRead { kind, value, numbers } => {
            format!("bw_pmd_read\n  kind {kind}\n  value {}\n  room for {} numbers", hex(value), numbers.len())
        }
        Call::PmdWrite { kind, numbers, out } => {
            format!("bw_pmd_write\n  kind {kind}\n  numbers {numbers:?}\n  room for {} bytes", out.len())
        }
        Call::Gain { gain } => format!("bw_gain {gain}"),
        Call::ObjectsApply { kind, value, table } => {
            format!("bw_objects_apply\n  kind {kind}\n  value {}\n  table {table:?}", hex(value))
        }
        Call::ObjectsClear { element, table } => format!("bw_objects_clear\n  element {element}\n  table {table:?}"),
    }
}

pub fn hex(bytes: &[u8]) -> String {
    bytes.iter().map(|byte| format!("{byte:02X}")).collect()
}
