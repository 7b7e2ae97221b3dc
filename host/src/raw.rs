//! The library's two calls on buffers that the caller lends, of any length.
//!
//! [`Driver`](crate::Driver) is made of them. They are for a host that keeps sheets in memory of
//! its own, or that wants no allocation at all.
//!
//! ```
//! use temsroi::raw;
//!
//! let mut sheet = [0; temsroi::SHEET_BYTES];
//! let mut answer = [0; temsroi::ANSWER_BYTES];
//! assert_eq!(raw::new(&mut sheet), raw::DONE);
//! assert_eq!(raw::call(b"(stats)", &mut sheet, &mut answer), raw::DONE);
//! assert_eq!(raw::answer_in(&answer), Some(b"(stats 0 0 0 0 0 0 0 0)".as_slice()));
//!
//! // To keep the sheet, keep these bytes. To go on from it, put a zero byte behind them.
//! let kept = raw::sheet_in(&sheet).to_vec();
//! sheet[..kept.len()].copy_from_slice(&kept);
//! sheet[kept.len()] = 0;
//! assert_eq!(raw::call(b"(heads)", &mut sheet, &mut answer), raw::DONE);
//! assert_eq!(raw::answer_in(&answer), Some(b"(heads none none none)".as_slice()));
//! ```

use crate::ffi;

/// The call was made: the sheet buffer and the front of the answer buffer are written.
pub const DONE: u64 = 0;

/// A buffer is too short, and no buffer was changed.
pub const SHORT_BUFFER: u64 = 4;

/// The sheet buffer holds no sheet that is taken, and no buffer was changed.
pub const SHEET_NOT_TAKEN: u64 = 5;

/// Write the sheet of a new driver, and zeros behind it to the buffer's end.
///
/// Returns [`DONE`], or [`SHORT_BUFFER`] where the buffer has under
/// [`SHEET_BYTES`](crate::SHEET_BYTES) bytes, and then keeps every byte.
#[must_use]
pub fn new(sheet: &mut [u8]) -> u64 {
    ffi::new(sheet)
}

/// Make the call that `line` is on the driver that the sheet gives.
///
/// The sheet is the bytes of its buffer up to the first zero byte, or to the end. The line is given
/// without its line feed. Returns
///
/// - [`SHORT_BUFFER`] where the sheet buffer has under [`SHEET_BYTES`](crate::SHEET_BYTES) bytes
///   or the answer buffer under [`ANSWER_BYTES`](crate::ANSWER_BYTES);
/// - else [`SHEET_NOT_TAKEN`] where the bytes are no sheet that is taken;
/// - else [`DONE`]. The new sheet is written, with zeros behind it to the buffer's end, and the
///   answer line with its line feed at the front of the answer buffer, whose other bytes stay.
///   So it is with a refusal by another number too: the answer is its line.
///
/// Where it is not [`DONE`], all buffers keep every byte. `(sheet)` answers `(done)`: the sheet
/// stands in its buffer. A line feed inside the line is a byte that no call has: refusal 1.
#[must_use]
pub fn call(line: &[u8], sheet: &mut [u8], answer: &mut [u8]) -> u64 {
    ffi::call(line, sheet, answer)
}

/// The sheet in a sheet buffer: its bytes up to the first zero byte, or to the end.
///
/// These are the bytes to keep. Whether they are a sheet that is taken is not asked.
#[must_use]
pub fn sheet_in(buffer: &[u8]) -> &[u8] {
    let end = buffer.iter().position(|byte| *byte == 0);
    &buffer[..end.unwrap_or(buffer.len())]
}

/// The answer in an answer buffer: its bytes up to the first line feed, without it.
///
/// What stands behind the line feed may be of an older answer. Where there is no line feed there is
/// no answer; after a call that was [`DONE`] there is one.
#[must_use]
pub fn answer_in(buffer: &[u8]) -> Option<&[u8]> {
    let end = buffer.iter().position(|byte| *byte == b'\n')?;
    Some(&buffer[..end])
}
