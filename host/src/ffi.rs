//! The two functions of the static library. Nothing else in this package is unsafe.

/// The C declarations, as `include/temsroi.h` has them. A slice is its pointer and its length.
mod c {
    unsafe extern "C" {
        pub fn temsroi_new(sheet: *mut u8, sheet_len: usize) -> u64;

        pub fn temsroi_call(
            line: *const u8,
            line_len: usize,
            sheet: *mut u8,
            sheet_len: usize,
            answer: *mut u8,
            answer_len: usize,
        ) -> u64;
    }
}

pub fn new(sheet: &mut [u8]) -> u64 {
    // SAFETY: the pointer of a slice is not null, it may be read and written for the slice's
    // length, which is at most isize::MAX, and while the slice is lent nobody else uses it.
    unsafe { c::temsroi_new(sheet.as_mut_ptr(), sheet.len()) }
}

pub fn call(line: &[u8], sheet: &mut [u8], answer: &mut [u8]) -> u64 {
    // SAFETY: as above; and slices that are lent to be written overlap no other.
    unsafe {
        c::temsroi_call(
            line.as_ptr(),
            line.len(),
            sheet.as_mut_ptr(),
            sheet.len(),
            answer.as_mut_ptr(),
            answer.len(),
        )
    }
}
