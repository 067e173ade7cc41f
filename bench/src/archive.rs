//! The archive's functions, each wrapped once.

use reference::{LookupRefusal, Mark, Object, Refusal};

/// Number 0 and a count, or a refusal's number and its place.
#[repr(C)]
#[derive(Clone, Copy, PartialEq, Eq, Debug)]
pub struct Answer {
    pub number: u64,
    pub value: u64,
}

/// Number 0, and a value's size, pack, start and total offset; or a refusal's number, its place and the pack at fault.
#[repr(C)]
#[derive(Clone, Copy, PartialEq, Eq, Debug)]
pub struct Found {
    pub number: u64,
    pub value: u64,
    pub from: u64,
    pub start: u64,
    pub total: i64,
}

extern "C" {
    fn bw_check(pack: *const u8, pack_len: usize) -> Answer;
    fn bw_read(pack: *const u8, pack_len: usize, rows: *mut u32, rows_len: usize) -> Answer;
    fn bw_scrub(sheet: *const u8, sheet_len: usize, pack: *const u8, pack_len: usize, out: *mut u8, out_len: usize) -> Answer;
    fn bw_sheet_check(sheet: *const u8, sheet_len: usize) -> Answer;
    fn bw_lookup(main: *const u8, main_len: usize, backup: *const u8, backup_len: usize, label: *const u8, label_len: usize) -> Found;
    fn bw_pmd_read(kind: u32, value: *const u8, value_len: usize, numbers: *mut u32, numbers_len: usize) -> Answer;
    fn bw_pmd_write(kind: u32, numbers: *const u32, numbers_len: usize, out: *mut u8, out_len: usize) -> Answer;
    fn bw_objects_apply(kind: u32, value: *const u8, value_len: usize, table: *mut Object, table_len: usize) -> Answer;
    fn bw_objects_clear(element: u32, table: *mut Object, table_len: usize) -> Answer;
}

pub fn check(pack: &[u8]) -> Answer {
    // SAFETY: the range is that of a slice, and the function only reads it.
    unsafe { bw_check(pack.as_ptr(), pack.len()) }
}

pub fn read(pack: &[u8], rows: &mut [u32]) -> Answer {
    // SAFETY: both ranges are those of slices, and only the second, which nothing else holds, is written.
    unsafe { bw_read(pack.as_ptr(), pack.len(), rows.as_mut_ptr(), rows.len()) }
}

pub fn scrub(sheet: &[u8], pack: &[u8], out: &mut [u8]) -> Answer {
    // SAFETY: the ranges are those of slices, and only the last, which nothing else holds, is written.
    unsafe { bw_scrub(sheet.as_ptr(), sheet.len(), pack.as_ptr(), pack.len(), out.as_mut_ptr(), out.len()) }
}

pub fn sheet_check(sheet: &[u8]) -> Answer {
    // SAFETY: the range is that of a slice, and the function only reads it.
    unsafe { bw_sheet_check(sheet.as_ptr(), sheet.len()) }
}

pub fn lookup(main: &[u8], backup: &[u8], label: &[u8]) -> Found {
    // SAFETY: the ranges are those of slices, and the function only reads them.
    unsafe { bw_lookup(main.as_ptr(), main.len(), backup.as_ptr(), backup.len(), label.as_ptr(), label.len()) }
}

pub fn pmd_read(kind: u32, value: &[u8], numbers: &mut [u32]) -> Answer {
    // SAFETY: both ranges are those of slices, and only the second, which nothing else holds, is written.
    unsafe { bw_pmd_read(kind, value.as_ptr(), value.len(), numbers.as_mut_ptr(), numbers.len()) }
}

pub fn pmd_write(kind: u32, numbers: &[u32], out: &mut [u8]) -> Answer {
    // SAFETY: both ranges are those of slices, and only the second, which nothing else holds, is written.
    unsafe { bw_pmd_write(kind, numbers.as_ptr(), numbers.len(), out.as_mut_ptr(), out.len()) }
}

pub fn objects_apply(kind: u32, value: &[u8], table: &mut [Object]) -> Answer {
    // SAFETY: both ranges are those of slices, and only the second, which nothing else holds, is written; the
    // reference's entry is laid out as the header's.
    unsafe { bw_objects_apply(kind, value.as_ptr(), value.len(), table.as_mut_ptr(), table.len()) }
}

pub fn objects_clear(element: u32, table: &mut [Object]) -> Answer {
    // SAFETY: the range is that of a slice that nothing else holds; the reference's entry is laid out as the header's.
    unsafe { bw_objects_clear(element, table.as_mut_ptr(), table.len()) }
}

/// The reference's answer in the archive's form.
pub fn told(answer: Result<usize, Refusal>) -> Answer {
    match answer {
        Ok(count) => Answer { number: 0, value: count as u64 },
        Err(refusal) => Answer { number: refusal.number.into(), value: refusal.place as u64 },
    }
}

/// The reference's look-up in the archive's form.
pub fn found(answer: Result<reference::Found, LookupRefusal>) -> Found {
    let from = |mark| match mark {
        Mark::Main => 1,
        Mark::Backup => 2,
    };
    match answer {
        Ok(found) => {
            Found { number: 0, value: found.value.len() as u64, from: from(found.mark), start: found.start as u64, total: found.total.into() }
        }
        Err(LookupRefusal { refusal, mark }) => {
            Found { number: refusal.number.into(), value: refusal.place as u64, from: mark.map_or(0, from), start: 0, total: 0 }
        }
    }
}
