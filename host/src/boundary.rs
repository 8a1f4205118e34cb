//! The six exported functions, each with its slices. Nothing checks these declarations against the library but the tests.
//! An answer has the number in bits 32 to 39 and the detail in bits 0 to 31.

mod c {
    extern "C" {
        pub fn wgsl_unary(
            op: u8,
            stage: u8,
            operand: *const u8,
            operand_len: usize,
            slot: *mut u8,
            slot_len: usize,
        ) -> u64;
        pub fn wgsl_binary(
            op: u8,
            stage: u8,
            left: *const u8,
            left_len: usize,
            right: *const u8,
            right_len: usize,
            slot: *mut u8,
            slot_len: usize,
        ) -> u64;
        pub fn sheet_check(sheet: *const u8, sheet_len: usize) -> u64;
        pub fn sheet_fresh(sheet: *const u8, sheet_len: usize, results: *mut u8, results_len: usize) -> u64;
        pub fn sheet_change(
            sheet: *const u8,
            sheet_len: usize,
            results: *mut u8,
            results_len: usize,
            entry: u64,
            ty: u8,
            bits: u64,
        ) -> u64;
        pub fn sheet_change_marks(
            sheet: *const u8,
            sheet_len: usize,
            results: *mut u8,
            results_len: usize,
            entry: u64,
            ty: u8,
            bits: u64,
            marks: *mut u8,
            marks_len: usize,
        ) -> u64;
    }
}

/// `wgsl_unary` as it is: any codes, any bytes, a slot of any length.
pub fn raw_unary(op: u8, stage: u8, operand: &[u8], slot: &mut [u8]) -> u64 {
    // SAFETY: live slices with their lengths; the one that is written to overlaps no other, being a `&mut`.
    unsafe { c::wgsl_unary(op, stage, operand.as_ptr(), operand.len(), slot.as_mut_ptr(), slot.len()) }
}

/// `wgsl_binary` as it is.
pub fn raw_binary(op: u8, stage: u8, left: &[u8], right: &[u8], slot: &mut [u8]) -> u64 {
    // SAFETY: as in `raw_unary`; left and right may be the same, as both are only read.
    unsafe {
        c::wgsl_binary(op, stage, left.as_ptr(), left.len(), right.as_ptr(), right.len(), slot.as_mut_ptr(), slot.len())
    }
}

/// `sheet_check` as it is.
pub fn raw_check(sheet: &[u8]) -> u64 {
    // SAFETY: a live slice with its length.
    unsafe { c::sheet_check(sheet.as_ptr(), sheet.len()) }
}

/// `sheet_fresh` as it is.
pub fn raw_fresh(sheet: &[u8], results: &mut [u8]) -> u64 {
    // SAFETY: as in `raw_unary`.
    unsafe { c::sheet_fresh(sheet.as_ptr(), sheet.len(), results.as_mut_ptr(), results.len()) }
}

/// `sheet_change` as it is.
pub fn raw_change(sheet: &[u8], results: &mut [u8], entry: u64, ty: u8, bits: u64) -> u64 {
    // SAFETY: as in `raw_unary`.
    unsafe { c::sheet_change(sheet.as_ptr(), sheet.len(), results.as_mut_ptr(), results.len(), entry, ty, bits) }
}

/// `sheet_change_marks` as it is: marks of any length.
pub fn raw_change_marks(sheet: &[u8], results: &mut [u8], entry: u64, ty: u8, bits: u64, marks: &mut [u8]) -> u64 {
    let (results_len, marks_len) = (results.len(), marks.len());
    let (results, marks) = (results.as_mut_ptr(), marks.as_mut_ptr());
    // SAFETY: as in `raw_unary`; the two that are written to overlap neither each other nor the sheet.
    unsafe {
        c::sheet_change_marks(sheet.as_ptr(), sheet.len(), results, results_len, entry, ty, bits, marks, marks_len)
    }
}
