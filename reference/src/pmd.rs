//! Values of seven PMD payload kinds, read into and written from lists of numbers.
//!
//! Both ways a first pass judges everything and finds the size, and a second one, which can't
//! fail, stores. All four passes go through the same walk.

use std::convert::Infallible;

use crate::bits::{fetch, Pen};
use crate::grammar::{grammar, Field, Grammar, CARRIED, EXISTS, PARAMETERS};
use crate::{Reason, Refusal};

/// Bytes in a PMD value (house cap).
pub const MAX_VALUE: usize = 4_096;

/// Reads a value of `kind` into `numbers`; returns how many there are.
pub fn pmd_read(kind: u32, value: &[u8], numbers: &mut [u32]) -> Result<usize, Refusal> {
    let grammar = grammar(kind)?;
    let count = judge_value(grammar, value)?;
    let numbers = numbers.get_mut(..count).ok_or(Reason::NoRoom.at(0))?;
    let mut reader = Reader {
        value,
        at: 0,
        numbers,
        next: 0,
    };
    let Ok(()) = walk(grammar, &mut reader);
    Ok(count)
}

/// Writes `numbers` as a value of `kind` into `out`; returns how many bytes it has.
pub fn pmd_write(kind: u32, numbers: &[u32], out: &mut [u8]) -> Result<usize, Refusal> {
    let grammar = grammar(kind)?;
    let size = judge_numbers(grammar, numbers)?.div_ceil(8);
    if size > out.len() || size > MAX_VALUE {
        return Err(Reason::NoRoom.at(0));
    }
    let pen = Pen::new(&mut out[..size]);
    let mut writer = Writer {
        numbers,
        next: 0,
        pen,
    };
    let Ok(()) = walk(grammar, &mut writer);
    writer.pen.finish();
    Ok(size)
}

/// Judges a value, its size first and then its fields in bit order, and counts its numbers.
pub(crate) fn judge_value(grammar: &Grammar, value: &[u8]) -> Result<usize, Refusal> {
    if value.len() > MAX_VALUE {
        return Err(Reason::Big.at(0));
    }
    let end = 8 * value.len();
    let mut judge = ValueJudge {
        value,
        end,
        at: 0,
        count: 0,
    };
    walk(grammar, &mut judge)?;
    let left = (end - judge.at) as u32;
    if fetch(value, judge.at, left) != 0 {
        return Err(Reason::Pad.at(judge.at));
    }
    Ok(judge.count)
}

/// Judges a list of numbers in its order and counts the bits of its value.
fn judge_numbers(grammar: &Grammar, numbers: &[u32]) -> Result<usize, Refusal> {
    let mut judge = ListJudge {
        numbers,
        next: 0,
        bits: 0,
    };
    walk(grammar, &mut judge)?;
    Ok(judge.bits)
}

/// What a walk does at each field.
trait Pass {
    type Fault;

    /// Deals with the next number, one of `field`, and returns it.
    fn number(&mut self, field: Field) -> Result<u32, Self::Fault>;

    /// Whether another record follows.
    fn more(&self) -> bool;
}

/// Takes a pass through the fields of all records, of which there is at least one.
#[inline(always)]
fn walk<P: Pass>(grammar: &Grammar, pass: &mut P) -> Result<(), P::Fault> {
    walk_fields(grammar.start, pass)?;
    loop {
        walk_fields(grammar.record, pass)?;
        for fields in grammar.deliverables {
            walk_deliverable(fields, pass)?;
        }
        if !pass.more() {
            return Ok(());
        }
    }
}

#[inline(always)]
fn walk_fields<P: Pass>(fields: &[Field], pass: &mut P) -> Result<(), P::Fault> {
    for &field in fields {
        loop {
            let number = pass.number(field)?;
            if number == 0 || !field.until_zero {
                break;
            }
        }
    }
    Ok(())
}

/// A deliverable: nothing but a 0, or its fields and its presentations.
#[inline(always)]
fn walk_deliverable<P: Pass>(fields: &[Field], pass: &mut P) -> Result<(), P::Fault> {
    if pass.number(EXISTS)? == 0 {
        return Ok(());
    }
    walk_fields(fields, pass)?;
    walk_pairs(pass)
}

/// Presentations, each with its parameter set. The pair that closes the list has one too.
#[inline(always)]
fn walk_pairs<P: Pass>(pass: &mut P) -> Result<(), P::Fault> {
    loop {
        let presentation = pass.number(CARRIED)?;
        pass.number(PARAMETERS)?;
        if presentation == 0 {
            return Ok(());
        }
    }
}

/// Reading, first pass.
struct ValueJudge<'a> {
    value: &'a [u8],
    /// The place after the last bit.
    end: usize,
    at: usize,
    count: usize,
}

impl Pass for ValueJudge<'_> {
    type Fault = Refusal;

    #[inline(always)]
    fn number(&mut self, field: Field) -> Result<u32, Refusal> {
        let width = field.width as usize;
        if self.end - self.at < width {
            return Err(Reason::Bits.at(self.at));
        }
        let number = fetch(self.value, self.at, field.width);
        if !field.takes(number) {
            return Err(Reason::Field.at(self.at));
        }
        self.at += width;
        self.count += 1;
        Ok(number)
    }

    #[inline(always)]
    fn more(&self) -> bool {
        self.end - self.at >= 8
    }
}

/// Reading, second pass; the value is judged, and `numbers` are exactly as many.
struct Reader<'a> {
    value: &'a [u8],
    at: usize,
    numbers: &'a mut [u32],
    next: usize,
}

impl Pass for Reader<'_> {
    type Fault = Infallible;

    #[inline(always)]
    fn number(&mut self, field: Field) -> Result<u32, Infallible> {
        let number = fetch(self.value, self.at, field.width);
        self.numbers[self.next] = number;
        self.at += field.width as usize;
        self.next += 1;
        Ok(number)
    }

    #[inline(always)]
    fn more(&self) -> bool {
        self.next < self.numbers.len()
    }
}

/// Writing, first pass. A list may be too long for any count of bits; the count then stays at
/// the top, which has no room anywhere.
struct ListJudge<'a> {
    numbers: &'a [u32],
    next: usize,
    bits: usize,
}

impl Pass for ListJudge<'_> {
    type Fault = Refusal;

    #[inline(always)]
    fn number(&mut self, field: Field) -> Result<u32, Refusal> {
        let Some(&number) = self.numbers.get(self.next) else {
            return Err(Reason::Bits.at(self.numbers.len()));
        };
        if !field.takes(number) {
            return Err(Reason::Field.at(self.next));
        }
        self.next += 1;
        self.bits = self.bits.saturating_add(field.width as usize);
        Ok(number)
    }

    #[inline(always)]
    fn more(&self) -> bool {
        self.next < self.numbers.len()
    }
}

/// Writing, second pass; the numbers are judged, and the pen has room for exactly their value.
struct Writer<'a> {
    numbers: &'a [u32],
    next: usize,
    pen: Pen<'a>,
}

impl Pass for Writer<'_> {
    type Fault = Infallible;

    #[inline(always)]
    fn number(&mut self, field: Field) -> Result<u32, Infallible> {
        let number = self.numbers[self.next];
        self.pen.put(number, field.width);
        self.next += 1;
        Ok(number)
    }

    #[inline(always)]
    fn more(&self) -> bool {
        self.next < self.numbers.len()
    }
}
