//! A hash read: `0x` and 64 hex digits, of either case on a line, lowercase in a sheet.

use crate::fault::Fault;
use crate::read::{Form, Place, Reader};
use crate::state::Hash;

/// The digits of a hash.
const DIGITS: usize = 64;

/// The bytes next to the ranges of digits, and the faults that each take one of them for a digit.
const NEXT_TO_DIGITS: [(u8, Fault); 6] = [
    (b'/', Fault::SlashIsDigit),
    (b':', Fault::ColonIsDigit),
    (b'@', Fault::AtSignIsDigit),
    (b'G', Fault::CapitalGIsDigit),
    (b'`', Fault::BackquoteIsDigit),
    (b'g', Fault::SmallGIsDigit),
];

impl Reader {
    /// The digits of the hash that the form is, in lowercase.
    pub(crate) fn hash(&self, form: &Form) -> Option<Hash> {
        let Form::Word(word) = form else {
            return None;
        };
        let mut hash = self.all_digits(self.behind_0x(word)?)?;
        if !hash.iter().all(|byte| self.is_digit(*byte)) || self.is_mixed_and_refused(&hash) {
            return None;
        }
        if self.has(Fault::CapitalOneAbove) {
            for digit in &mut hash {
                if matches!(*digit, b'A'..=b'E') {
                    *digit += 1;
                }
            }
        }
        if self.has(Fault::CapitalsWritten) {
            hash.make_ascii_uppercase();
        } else if !self.has(Fault::HashAsWritten) && !self.has(Fault::CaseCompared) {
            hash.make_ascii_lowercase();
        }
        Some(hash)
    }

    /// What stands behind `0x`.
    fn behind_0x<'a>(&self, word: &'a [u8]) -> Option<&'a [u8]> {
        let (bare, capital) = match self.place {
            Place::Line => (Fault::BareHash, Fault::CapitalX),
            Place::Sheet => (Fault::SheetBareHash, Fault::SheetCapitalX),
        };
        match word.strip_prefix(b"0x") {
            None if self.has(bare) => Some(word),
            None if self.has(capital) => word.strip_prefix(b"0X"),
            digits => digits,
        }
    }

    /// The digits, if they are 64.
    fn all_digits(&self, digits: &[u8]) -> Option<Hash> {
        let (one_less, one_more) = match self.place {
            Place::Line => (Fault::DigitMissing, Fault::DigitTooMany),
            Place::Sheet => (Fault::SheetDigitMissing, Fault::SheetDigitTooMany),
        };
        if digits.len() == DIGITS - 1 && self.has(one_less) {
            return [b"0", digits].concat().try_into().ok();
        }
        if digits.len() == DIGITS + 1 && self.has(one_more) {
            return digits[1..].try_into().ok();
        }
        digits.try_into().ok()
    }

    fn is_digit(&self, byte: u8) -> bool {
        if b"0123456789abcdef".contains(&byte) {
            return true;
        }
        if b"ABCDEF".contains(&byte) {
            return match self.place {
                Place::Line if self.has(Fault::CapitalRefused) => false,
                Place::Line => byte != b'F' || !self.has(Fault::CapitalFRefused),
                Place::Sheet => self.has(Fault::SheetCapital),
            };
        }
        let next_to_digits = |(next, fault)| next == byte && self.has(fault);
        self.place == Place::Line && NEXT_TO_DIGITS.into_iter().any(next_to_digits)
    }

    /// Whether the digits have letters of both cases, and a planted fault refuses these.
    fn is_mixed_and_refused(&self, hash: &Hash) -> bool {
        let small = hash.iter().any(u8::is_ascii_lowercase);
        let capital = hash.iter().any(u8::is_ascii_uppercase);
        small && capital && self.has(Fault::MixedRefused)
    }
}

#[cfg(test)]
mod tests {
    use super::*;

    const LINE: Reader = Reader {
        fault: None,
        place: Place::Line,
    };

    const SHEET: Reader = Reader {
        fault: None,
        place: Place::Sheet,
    };

    const LOWERCASE: &str = "00112233445566778899aabbccddeeff0123456789abcdefabcdefabcdefabcd";

    fn read(reader: Reader, word: &str) -> Option<Hash> {
        reader.hash(&Form::Word(word.as_bytes()))
    }

    #[test]
    fn a_line_has_digits_of_either_case() {
        let hash = LOWERCASE.as_bytes().try_into().ok();
        let capital = LOWERCASE.to_ascii_uppercase();
        let (one, other) = (&LOWERCASE[..20], &capital[20..]);
        assert!(hash.is_some());
        assert_eq!(read(LINE, &format!("0x{LOWERCASE}")), hash);
        assert_eq!(read(LINE, &format!("0x{capital}")), hash);
        assert_eq!(read(LINE, &format!("0x{one}{other}")), hash);
    }

    #[test]
    fn a_sheet_has_lowercase_digits() {
        let hash = LOWERCASE.as_bytes().try_into().ok();
        assert_eq!(read(SHEET, &format!("0x{LOWERCASE}")), hash);
        for (at, byte) in LOWERCASE.bytes().enumerate() {
            let mut digits = LOWERCASE.to_owned();
            digits[at..=at].make_ascii_uppercase();
            let taken = read(SHEET, &format!("0x{digits}")).is_some();
            assert_eq!(taken, byte.is_ascii_digit(), "{at}");
        }
    }

    #[test]
    fn nothing_else_is_a_hash() {
        for reader in [LINE, SHEET] {
            for word in [
                LOWERCASE.to_owned(),
                format!("0X{LOWERCASE}"),
                format!("x{LOWERCASE}"),
                format!("00{LOWERCASE}"),
                format!("0x0x{LOWERCASE}"),
                format!("0x{}", &LOWERCASE[1..]),
                format!("0x0{LOWERCASE}"),
                format!("0x{}", &LOWERCASE[2..]),
                "0x".to_owned(),
                "none".to_owned(),
            ] {
                assert_eq!(read(reader, &word), None, "{word}");
            }
        }
    }

    #[test]
    fn each_byte_is_a_digit_or_none() {
        for byte in 0..=u8::MAX {
            let hexadecimal = byte.is_ascii_hexdigit();
            assert_eq!(LINE.is_digit(byte), hexadecimal);
            let capital = byte.is_ascii_uppercase();
            assert_eq!(SHEET.is_digit(byte), hexadecimal && !capital);
        }
    }

    #[test]
    fn a_byte_next_to_the_digits_is_one_under_its_fault_only() {
        for (next, fault) in NEXT_TO_DIGITS {
            let spoilt = Reader {
                fault: Some(fault),
                ..LINE
            };
            assert!(!LINE.is_digit(next));
            let other = (0..=u8::MAX).filter(|byte| spoilt.is_digit(*byte) != LINE.is_digit(*byte));
            assert_eq!(other.collect::<Vec<_>>(), [next]);
        }
    }
}
