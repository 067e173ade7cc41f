//! The reference implementation's outcome of a call.

use reference::{Found, Gain, LookupRefusal, Mark, Object, Refusal};

use crate::archive::{found_buffer, four_each, Answer, Beside, Call, Outcome};
use crate::objects::Entry;

pub fn outcome(call: &Call) -> Outcome {
    match call {
        Call::Check { pack } => told(reference::check(pack), vec![]),
        Call::Read { pack, rows } => {
            let mut rows = rows.clone();
            told(reference::rows(pack, &mut rows), four_each(&rows))
        }
        Call::Scrub { sheet, pack, out } => {
            let mut out = out.clone();
            told(reference::scrub(sheet, pack, &mut out), out)
        }
        Call::SheetCheck { sheet } => told(reference::sheet_check(sheet), vec![]),
        Call::Lookup { main, backup, label } => lookup_told(main, backup, label),
        Call::PmdRead { kind, value, numbers } => {
            let mut numbers = numbers.clone();
            told(reference::pmd_read(*kind, value, &mut numbers), four_each(&numbers))
        }
        Call::PmdWrite { kind, numbers, out } => {
            let mut out = out.clone();
            told(reference::pmd_write(*kind, numbers, &mut out), out)
        }
        Call::Gain { gain } => gain_told(reference::gain(*gain)),
        Call::ObjectsApply { kind, value, table } => {
            table_told(table, |table| reference::objects_apply(*kind, value, table))
        }
        Call::ObjectsClear { element, table } => table_told(table, |table| reference::objects_clear(*element, table)),
    }
}

// The answer is worked out before the buffer is handed over, so both are of after the call.
fn told(result: Result<usize, Refusal>, buffer: Vec<u8>) -> Outcome {
    let answer = match result {
        Ok(count) => Answer { number: 0, value: count as u64 },
        Err(refusal) => Answer { number: refusal.number.into(), value: refusal.place as u64 },
    };
    Outcome { answer, buffer }
}

fn lookup_told(main: &[u8], backup: &[u8], label: &[u8]) -> Outcome {
    let from = |mark| match mark {
        Mark::Main => 1,
        Mark::Backup => 2,
    };
    match reference::lookup(main, backup, label) {
        Ok(Found { mark, start, value, total }) => {
            let beside = Beside { from: from(mark), start: start as u64, total: total.into() };
            told(Ok(value.len()), found_buffer(main, backup, beside, value))
        }
        Err(LookupRefusal { refusal, mark }) => {
            told(Err(refusal), found_buffer(main, backup, Beside::refused(mark.map_or(0, from)), &[]))
        }
    }
}

fn table_told(before: &[Entry], call: impl FnOnce(&mut [Object]) -> Result<usize, Refusal>) -> Outcome {
    let mut table: Vec<Object> = before.iter().map(|&entry| entry.into()).collect();
    let result = call(&mut table);
    let after: Vec<Entry> = table.into_iter().map(Entry::from).collect();
    told(result, four_each(after.as_flattened()))
}

fn gain_told(result: Result<Gain, Refusal>) -> Outcome {
    let (number, value) = match result {
        Ok(Gain::Muted) => (0, 1 << 32),
        Ok(Gain::HalfDecibels(half)) => (0, u64::from(half as u32)),
        Err(refusal) => (refusal.number.into(), 0),
    };
    Outcome { answer: Answer { number, value }, buffer: vec![] }
}
