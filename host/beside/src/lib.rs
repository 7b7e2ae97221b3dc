//! The library's C call as the two programs make it.

use temsroi::{raw, ANSWER_BYTES, SHEET_BYTES};

/// The buffers of one driver.
pub struct Buffers {
    sheet: [u8; SHEET_BYTES],
    answer: [u8; ANSWER_BYTES],
}

impl Default for Buffers {
    /// Those of a new driver.
    fn default() -> Self {
        let mut sheet = [0; SHEET_BYTES];
        assert_eq!(raw::new(&mut sheet), raw::DONE);
        let answer = [0; ANSWER_BYTES];
        Self { sheet, answer }
    }
}

impl Buffers {
    /// Those with these bytes for a sheet, whether it is taken or not.
    ///
    /// # Panics
    ///
    /// If there are more than the buffer has.
    #[must_use]
    pub fn with_sheet(bytes: &[u8]) -> Self {
        let mut sheet = [0; SHEET_BYTES];
        sheet[..bytes.len()].copy_from_slice(bytes);
        let answer = [0; ANSWER_BYTES];
        Self { sheet, answer }
    }

    /// Make the call that the line is, whatever comes of it.
    pub fn call(&mut self, line: &[u8]) -> u64 {
        raw::call(line, &mut self.sheet, &mut self.answer)
    }

    /// Make a new driver.
    pub fn renew(&mut self) -> u64 {
        raw::new(&mut self.sheet)
    }

    /// The line at the front of the answer buffer, its line feed with.
    #[must_use]
    pub fn answer(&self) -> &[u8] {
        let feed = self.answer.iter().position(|byte| *byte == b'\n');
        &self.answer[..feed.map_or(ANSWER_BYTES, |feed| feed + 1)]
    }

    /// The bytes up to the first zero byte.
    #[must_use]
    pub fn sheet(&self) -> &[u8] {
        raw::sheet_in(&self.sheet)
    }
}
