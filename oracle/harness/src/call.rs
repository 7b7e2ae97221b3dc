//! Document 01's thirteen calls: their lines read and written.

use crate::text::{
    put_anchor, put_hash, put_number, put_optional_anchor, put_skip, Skip, HEX_PREFIX,
};
use alloy::primitives::B256;
use degenbot_simulation::sim::storage_memo::ReadAnchor;

/// The most bytes a line has before its line feed.
pub const LONGEST_LINE: usize = 512;

#[derive(Clone, Copy, Debug, PartialEq, Eq)]
pub enum Call {
    Deliver {
        anchor: ReadAnchor,
        parent_hash: B256,
        handle: u64,
    },
    Claim {
        anchor: ReadAnchor,
        seq: u64,
    },
    Release {
        seq: u64,
        epoch: u64,
    },
    Apply(Apply),
    Snapshot {
        anchor: ReadAnchor,
        handle: u64,
    },
    Wait {
        waiter: u64,
        anchor: ReadAnchor,
        handle: u64,
    },
    Resume {
        waiter: u64,
        handle: u64,
    },
    Completion {
        anchor: ReadAnchor,
    },
    Link {
        parent: Option<ReadAnchor>,
        child: ReadAnchor,
        parent_hash: B256,
    },
    Report,
    Stats,
    Heads,
    Sheet,
}

/// The parts of an `apply`: ticket, prepared list, and the host's numbers.
#[derive(Clone, Copy, Debug, PartialEq, Eq)]
pub struct Apply {
    pub anchor: ReadAnchor,
    pub seq: u64,
    pub list: ReadAnchor,
    pub skip: Skip,
    pub handle: u64,
    pub carried: u64,
    pub report: u64,
}

impl Call {
    /// The call that `line` is, if it is one.
    #[must_use]
    pub fn read(line: &[u8]) -> Option<Self> {
        if line.len() > LONGEST_LINE {
            return None;
        }
        let mut reader = Reader { rest: line };
        let call = reader.call()?;
        reader.rest.is_empty().then_some(call)
    }

    /// Write the call's line, without a line feed. Its hashes are lowercase.
    pub fn write(&self, out: &mut Vec<u8>) {
        let mut writer = Writer { out };
        match *self {
            Self::Deliver {
                anchor,
                parent_hash,
                handle,
            } => {
                writer.open("deliver").anchor(anchor).hash(parent_hash);
                writer.number(handle)
            }
            Self::Claim { anchor, seq } => writer.open("claim").anchor(anchor).number(seq),
            Self::Release { seq, epoch } => writer.open("release").number(seq).number(epoch),
            Self::Apply(apply) => writer.open("apply").apply(&apply),
            Self::Snapshot { anchor, handle } => {
                writer.open("snapshot").anchor(anchor).number(handle)
            }
            Self::Wait {
                waiter,
                anchor,
                handle,
            } => {
                writer.open("wait").number(waiter).anchor(anchor);
                writer.number(handle)
            }
            Self::Resume { waiter, handle } => writer.open("resume").number(waiter).number(handle),
            Self::Completion { anchor } => writer.open("completion").anchor(anchor),
            Self::Link {
                parent,
                child,
                parent_hash,
            } => {
                writer.open("link").optional_anchor(parent).anchor(child);
                writer.hash(parent_hash)
            }
            Self::Report => writer.open("report"),
            Self::Stats => writer.open("stats"),
            Self::Heads => writer.open("heads"),
            Self::Sheet => writer.open("sheet"),
        };
        out.push(b')');
    }
}

/// Writes a call's parts, each after a space.
struct Writer<'a> {
    out: &'a mut Vec<u8>,
}

impl Writer<'_> {
    fn open(&mut self, name: &str) -> &mut Self {
        self.out.push(b'(');
        self.out.extend_from_slice(name.as_bytes());
        self
    }

    fn part(&mut self, put: impl FnOnce(&mut Vec<u8>)) -> &mut Self {
        self.out.push(b' ');
        put(self.out);
        self
    }

    fn number(&mut self, number: u64) -> &mut Self {
        self.part(|out| put_number(out, number))
    }

    fn hash(&mut self, hash: B256) -> &mut Self {
        self.part(|out| put_hash(out, hash))
    }

    fn anchor(&mut self, anchor: ReadAnchor) -> &mut Self {
        self.part(|out| put_anchor(out, anchor))
    }

    fn optional_anchor(&mut self, anchor: Option<ReadAnchor>) -> &mut Self {
        self.part(|out| put_optional_anchor(out, anchor))
    }

    fn apply(&mut self, apply: &Apply) -> &mut Self {
        self.anchor(apply.anchor)
            .number(apply.seq)
            .anchor(apply.list)
            .part(|out| put_skip(out, apply.skip))
            .number(apply.handle)
            .number(apply.carried)
            .number(apply.report)
    }
}

/// Reads a call's parts from the front of a line.
struct Reader<'a> {
    rest: &'a [u8],
}

impl Reader<'_> {
    fn call(&mut self) -> Option<Call> {
        self.text(b"(")?;
        let name = self.take_while(u8::is_ascii_lowercase);
        let call = match name {
            b"deliver" => Call::Deliver {
                anchor: self.anchor()?,
                parent_hash: self.hash()?,
                handle: self.number()?,
            },
            b"claim" => Call::Claim {
                anchor: self.anchor()?,
                seq: self.number()?,
            },
            b"release" => Call::Release {
                seq: self.number()?,
                epoch: self.number()?,
            },
            b"apply" => Call::Apply(self.apply()?),
            b"snapshot" => Call::Snapshot {
                anchor: self.anchor()?,
                handle: self.number()?,
            },
            b"wait" => Call::Wait {
                waiter: self.number()?,
                anchor: self.anchor()?,
                handle: self.number()?,
            },
            b"resume" => Call::Resume {
                waiter: self.number()?,
                handle: self.number()?,
            },
            b"completion" => Call::Completion {
                anchor: self.anchor()?,
            },
            b"link" => Call::Link {
                parent: self.optional_anchor()?,
                child: self.anchor()?,
                parent_hash: self.hash()?,
            },
            b"report" => Call::Report,
            b"stats" => Call::Stats,
            b"heads" => Call::Heads,
            b"sheet" => Call::Sheet,
            _ => return None,
        };
        self.text(b")")?;
        Some(call)
    }

    fn apply(&mut self) -> Option<Apply> {
        Some(Apply {
            anchor: self.anchor()?,
            seq: self.number()?,
            list: self.anchor()?,
            skip: self.skip()?,
            handle: self.number()?,
            carried: self.number()?,
            report: self.number()?,
        })
    }

    /// Take `text` if it comes next.
    fn text(&mut self, text: &[u8]) -> Option<()> {
        self.rest = self.rest.strip_prefix(text)?;
        Some(())
    }

    fn take_while(&mut self, fits: impl Fn(&u8) -> bool) -> &[u8] {
        let length = self.rest.iter().take_while(|byte| fits(byte)).count();
        let (taken, rest) = self.rest.split_at(length);
        self.rest = rest;
        taken
    }

    /// A part that is one number.
    fn number(&mut self) -> Option<u64> {
        self.text(b" ")?;
        self.decimal()
    }

    /// Digits without a leading zero, at most 2^64 - 1.
    fn decimal(&mut self) -> Option<u64> {
        let digits = self.take_while(u8::is_ascii_digit);
        if digits.is_empty() || (digits.len() > 1 && digits[0] == b'0') {
            return None;
        }
        digits.iter().try_fold(0_u64, |number, digit| {
            number.checked_mul(10)?.checked_add(u64::from(digit - b'0'))
        })
    }

    /// A part that is one hash.
    fn hash(&mut self) -> Option<B256> {
        self.text(b" ")?;
        self.hex()
    }

    /// `0x` and 64 hex digits of either case.
    fn hex(&mut self) -> Option<B256> {
        self.text(HEX_PREFIX)?;
        let (digits, rest) = self.rest.split_at_checked(64)?;
        let mut hash = B256::default();
        for (byte, pair) in hash.0.iter_mut().zip(digits.chunks_exact(2)) {
            *byte = hex_value(pair[0])? << 4 | hex_value(pair[1])?;
        }
        self.rest = rest;
        Some(hash)
    }

    /// A part that is one anchor.
    fn anchor(&mut self) -> Option<ReadAnchor> {
        self.text(b" (")?;
        let number = self.decimal()?;
        self.text(b" ")?;
        let hash = match self.text(b"none") {
            Some(()) => None,
            None => Some(self.hex()?),
        };
        self.text(b")")?;
        Some(ReadAnchor { number, hash })
    }

    /// A part that is an anchor or `none`; the inner `None` is the word.
    fn optional_anchor(&mut self) -> Option<Option<ReadAnchor>> {
        match self.text(b" none") {
            Some(()) => Some(None),
            None => self.anchor().map(Some),
        }
    }

    /// A part that is one skip.
    fn skip(&mut self) -> Option<Skip> {
        if self.text(b" none").is_some() {
            return Some(Skip::None);
        }
        if self.text(b" no-hash").is_some() {
            return Some(Skip::NoHash);
        }
        let skip = if self.text(b" (rpc ").is_some() {
            Skip::Rpc(self.decimal()?)
        } else {
            self.text(b" (decode ")?;
            Skip::Decode(self.decimal()?)
        };
        self.text(b")")?;
        Some(skip)
    }
}

fn hex_value(digit: u8) -> Option<u8> {
    match digit {
        b'0'..=b'9' => Some(digit - b'0'),
        b'a'..=b'f' => Some(digit - b'a' + 10),
        b'A'..=b'F' => Some(digit - b'A' + 10),
        _ => None,
    }
}

#[cfg(test)]
mod tests {
    use super::*;

    const LOWERCASE: &str = "00112233445566778899aabbccddeeff0123456789abcdefabcdefabcdefabcd";

    /// The hash that a line has as its parent hash.
    fn read(hash: &str) -> Option<B256> {
        let line = format!("(deliver (7 none) {hash} 50)");
        match Call::read(line.as_bytes()) {
            Some(Call::Deliver { parent_hash, .. }) => Some(parent_hash),
            _ => None,
        }
    }

    #[test]
    fn a_hash_is_0x_and_64_digits_of_either_case() {
        let capital = LOWERCASE.to_ascii_uppercase();
        let (one, other) = (&LOWERCASE[..32], &capital[32..]);
        let hash = read(&format!("0x{LOWERCASE}"));
        assert!(hash.is_some_and(|hash| hash.0[10..12] == [0xaa, 0xbb]));
        assert_eq!(read(&format!("0x{capital}")), hash);
        assert_eq!(read(&format!("0x{one}{other}")), hash);
    }

    #[test]
    fn nothing_else_is_a_hash() {
        for digits in [LOWERCASE, &LOWERCASE.to_ascii_uppercase()] {
            for none in [
                digits.to_owned(),
                format!("0X{digits}"),
                format!("x{digits}"),
                format!("00{digits}"),
                format!("0x0x{digits}"),
                format!("0x{}", &digits[1..]),
                format!("0x0{digits}"),
                format!("0x{}", &digits[2..]),
                "0x".to_owned(),
                "none".to_owned(),
                String::new(),
            ] {
                assert_eq!(read(&none), None, "{none}");
            }
        }
    }

    #[test]
    fn each_byte_is_a_digit_or_none() {
        for byte in 0..=u8::MAX {
            let mut line = format!("(completion (7 0x{LOWERCASE}))").into_bytes();
            let last = line.len() - 3;
            line[last] = byte;
            let expected = char::from(byte).to_digit(16);
            let anchor = match Call::read(&line) {
                Some(Call::Completion { anchor }) => anchor.hash,
                _ => None,
            };
            let digit = anchor.map(|hash| u32::from(hash.0[31] & 15));
            assert_eq!(digit, expected, "{byte}");
        }
    }

    #[test]
    fn a_call_is_written_in_lowercase() {
        let capital = LOWERCASE.to_ascii_uppercase();
        let line = format!("(link (7 0x{capital}) (8 none) 0x{capital})");
        let mut written = Vec::new();
        let call = Call::read(line.as_bytes()).expect("the line is a call");
        call.write(&mut written);
        let expected = format!("(link (7 0x{LOWERCASE}) (8 none) 0x{LOWERCASE})");
        assert_eq!(written, expected.as_bytes());
    }

    #[test]
    fn no_other_word_may_have_a_capital() {
        for line in [
            "(Stats)",
            "(STATS)",
            "(completion (7 None))",
            "(completion (7 NONE))",
            "(link None (7 none) 0x$)",
            "(apply (7 none) 1 (7 none) No-hash 60 0 90)",
            "(apply (7 0x$) 1 (7 0x$) (Rpc 1) 60 0 90)",
            "(apply (7 0x$) 1 (7 0x$) (decodE 1) 60 0 90)",
        ] {
            let line = line.replace('$', LOWERCASE);
            assert_eq!(Call::read(line.as_bytes()), None, "{line}");
            let lowercase = line.to_ascii_lowercase();
            assert!(Call::read(lowercase.as_bytes()).is_some(), "{lowercase}");
        }
    }

    #[test]
    fn the_longest_call_has_301_bytes() {
        let anchor = ReadAnchor {
            number: u64::MAX,
            hash: Some(B256::default()),
        };
        let longest = Call::Apply(Apply {
            anchor,
            seq: u64::MAX,
            list: anchor,
            skip: Skip::Decode(u64::MAX),
            handle: u64::MAX,
            carried: u64::MAX,
            report: u64::MAX,
        });
        let mut line = Vec::new();
        longest.write(&mut line);
        assert_eq!(line.len(), 301);
    }
}
