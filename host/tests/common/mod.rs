//! What the tests share: random numbers, random lines, and buffers read as text.

// Each test is a program of its own and uses a part of this.
#![allow(dead_code, unused_imports)]

mod lines;

pub use self::lines::Lines;

use temsroi::{raw, ANSWER_BYTES, SHEET_BYTES};

/// A small generator of random numbers (SplitMix64): the same seed gives the same numbers on every
/// machine.
pub struct Random(u64);

impl Random {
    pub const fn new(seed: u64) -> Self {
        Self(seed)
    }

    pub fn number(&mut self) -> u64 {
        self.0 = self.0.wrapping_add(0x9e37_79b9_7f4a_7c15);
        let mut mixed = self.0;
        mixed = (mixed ^ (mixed >> 30)).wrapping_mul(0xbf58_476d_1ce4_e5b9);
        mixed = (mixed ^ (mixed >> 27)).wrapping_mul(0x94d0_49bb_1331_11eb);
        mixed ^ (mixed >> 31)
    }

    /// A number below `limit`, which is at least 1.
    pub fn below(&mut self, limit: usize) -> usize {
        (self.number() % limit as u64) as usize
    }

    /// True `percent` times in a hundred.
    pub fn chance(&mut self, percent: usize) -> bool {
        self.below(100) < percent
    }

    pub fn pick<T: Copy>(&mut self, choices: &[T]) -> T {
        choices[self.below(choices.len())]
    }

    pub fn bytes(&mut self, length: usize) -> Vec<u8> {
        (0..length).map(|_| self.number() as u8).collect()
    }
}

/// The sheet of a new driver.
pub const NEW_SHEET: &str = "(count 0 0 0 0 0 0 0 0 0)\n\
    (current none)\n\
    (superseded none)\n\
    (installed none)\n\
    (previous none)\n";

/// Two buffers, called by the library's own functions.
pub struct Buffers {
    pub sheet: [u8; SHEET_BYTES],
    pub answer: [u8; ANSWER_BYTES],
}

impl Buffers {
    /// Those of a new driver.
    pub fn new() -> Self {
        let mut sheet = [0; SHEET_BYTES];
        assert_eq!(raw::new(&mut sheet), 0);
        let answer = [0; ANSWER_BYTES];
        Self { sheet, answer }
    }

    /// Make a call that has an answer: its line, the line feed with.
    pub fn call(&mut self, line: &[u8]) -> &[u8] {
        assert_eq!(raw::call(line, &mut self.sheet, &mut self.answer), 0);
        let feed = self.answer.iter().position(|byte| *byte == b'\n');
        &self.answer[..=feed.expect("an answer ends in a line feed")]
    }

    pub fn sheet(&self) -> &[u8] {
        up_to_zero(&self.sheet)
    }
}

/// The bytes up to the first zero byte, or to the end.
pub fn up_to_zero(buffer: &[u8]) -> &[u8] {
    let end = buffer.iter().position(|byte| *byte == 0);
    &buffer[..end.unwrap_or(buffer.len())]
}

/// A driver with everything in it that makes a sheet long: all three blocks with hashes and great
/// numbers, and sixteen waiters whose preparation was given up.
pub fn full_sheet() -> Vec<u8> {
    let mut buffers = Buffers::new();
    let hash = |digit: &str| format!("0x{}", digit.repeat(64));
    let anchor = |below: u64, digit: &str| format!("({} {})", u64::MAX - below, hash(digit));
    let great = u64::MAX;
    let mut answered = |line: String, begin: &str| {
        let answer = buffers.call(line.as_bytes());
        assert!(answer.starts_with(begin.as_bytes()), "{line}");
    };
    for (below, digit, parent, outcome) in [
        (3, "a", "9", "(settled (cold no-parent none))"),
        (2, "b", "a", "(settled (carried "),
    ] {
        let (anchor, seq) = (anchor(below, digit), 4 - below);
        answered(
            format!("(deliver {anchor} {} {great})", hash(parent)),
            "(ticket ",
        );
        answered(
            format!("(apply {anchor} {seq} {anchor} none {great} {great} {great})"),
            outcome,
        );
    }
    let (replaced, head) = (anchor(1, "c"), anchor(1, "d"));
    answered(
        format!("(deliver {replaced} {} {great})", hash("b")),
        "(ticket 3)",
    );
    answered(
        format!("(deliver {head} {} {great})", hash("b")),
        "(ticket 4)",
    );
    answered(format!("(claim {head} 4)"), "(claimed 1)");
    for waiter in 0..16 {
        answered(format!("(wait {waiter} {head} 0)"), "(parked)");
    }
    answered("(release 4 1)".to_owned(), "(done)");
    // Counters and settle numbers as only a long life or another sheet brings them.
    let sheet = String::from_utf8(buffers.sheet().to_vec()).expect("a sheet is text");
    let (_, lines) = sheet.split_once('\n').expect("a sheet has lines");
    let great = great - 1;
    let count = format!("(count{})\n", format!(" {great}").repeat(9));
    let lines = lines.replace(" 2 ready)", &format!(" {great} ready)"));
    let lines = lines.replace(" 1 (cold", &format!(" {great} (cold"));
    (count + &lines).into_bytes()
}
