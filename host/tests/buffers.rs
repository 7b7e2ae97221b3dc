//! Buffers of many lengths: which bytes are written, and that all others stay.

mod common;

use common::{full_sheet, Buffers, Random, NEW_SHEET};
use temsroi::{raw, ANSWER_BYTES, SHEET_BYTES};

const LENGTHS: [usize; 8] = [0, 1, 511, 512, 4_095, 4_096, 4_097, 65_536];

/// So many bytes on each side of a buffer, which nobody may write.
const GUARD: usize = 64;

/// A buffer between guards.
struct Guarded {
    whole: Vec<u8>,
    before: Vec<u8>,
}

impl Guarded {
    /// A buffer that begins with these bytes, or as many of them as it has room for; all others,
    /// those of the guards too, are noise without a zero byte.
    fn new(length: usize, begin: &[u8], random: &mut Random) -> Self {
        let mut whole = random.bytes(length + 2 * GUARD);
        let zeros = whole.iter_mut().filter(|byte| **byte == 0);
        zeros.for_each(|byte| *byte = 0xa5);
        let room = begin.len().min(length);
        whole[GUARD..GUARD + room].copy_from_slice(&begin[..room]);
        let before = whole.clone();
        Self { whole, before }
    }

    fn buffer(&mut self) -> &mut [u8] {
        let end = self.whole.len() - GUARD;
        &mut self.whole[GUARD..end]
    }

    /// The buffer is now written from its front with these bytes, and with zeros to its end if
    /// asked; every other byte is what it was.
    fn is_written(&self, written: &[u8], zeros: bool) {
        let mut expected = self.before.clone();
        let end = expected.len() - GUARD;
        let buffer = &mut expected[GUARD..end];
        buffer[..written.len()].copy_from_slice(written);
        if zeros {
            buffer[written.len()..].fill(0);
        }
        let pairs = self.whole.iter().zip(&expected);
        let other = pairs.clone().position(|(is, should)| is != should);
        let at = other.map(|at| at as isize - GUARD as isize);
        assert_eq!(at, None, "byte that is other than it should be");
        assert_eq!(self.whole.len(), expected.len());
    }

    fn is_kept(&self) {
        self.is_written(b"", false);
    }
}

/// A sheet, a call, its answer and the sheet after it, written from the manual.
struct Case {
    sheet: String,
    line: &'static str,
    answer: &'static str,
    after: String,
}

fn zeros() -> String {
    format!("0x{}", "0".repeat(64))
}

/// The manual's example, after the calls before its `(sheet)`.
fn manuals_sheet(discarded: u64, cold_views: u64) -> String {
    let zeros = zeros();
    format!(
        "(count 1 0 0 1 0 {discarded} 0 {cold_views} 2)\n\
         (current settled (7 none) {zeros} ((cold no-parent no-hash) 90))\n\
         (superseded none)\n\
         (installed (7 none) 60 1 (cold no-parent no-hash))\n\
         (previous none)\n\
         (wait 3 abandoned (7 none))\n"
    )
}

fn cases() -> Vec<Case> {
    let new = |line, answer| Case {
        sheet: NEW_SHEET.to_owned(),
        line,
        answer,
        after: NEW_SHEET.to_owned(),
    };
    let manuals = |line, answer, discarded, cold_views| Case {
        sheet: manuals_sheet(0, 2),
        line,
        answer,
        after: manuals_sheet(discarded, cold_views),
    };
    let deliver = "(deliver (7 none) \
        0x0000000000000000000000000000000000000000000000000000000000000000 50)";
    let delivered = format!(
        "(count 1 0 0 0 0 0 0 0 0)\n\
         (current unclaimed (7 none) {} 50 open)\n\
         (superseded none)\n\
         (installed none)\n\
         (previous none)\n",
        zeros()
    );
    let apply_to_8 = "(apply (8 none) 1 (8 none) no-hash 60 0 90)";
    let cold = "(view installed 60 1 (cold no-parent no-hash))\n";
    let abandoned = "(view installed 60 1 abandoned)\n";
    let freed = manuals_sheet(0, 3).replace("(wait 3 abandoned (7 none))\n", "");
    vec![
        new("(stats)", "(stats 0 0 0 0 0 0 0 0)\n"),
        new("(sheet)", "(done)\n"),
        new("", "(refused 1)\n"),
        new("(stats)\n", "(refused 1)\n"),
        new("(resume 3 1)", "(refused 16)\n"),
        new("(resume 16 1)", "(refused 3)\n"),
        new("(claim (7 none) 1)", "(refused 11 (7 none))\n"),
        Case {
            sheet: NEW_SHEET.to_owned(),
            line: deliver,
            answer: "(ticket 1)\n",
            after: delivered,
        },
        manuals("(sheet)", "(done)\n", 0, 2),
        manuals("(snapshot (7 none) 1)", cold, 0, 3),
        manuals(apply_to_8, "(refused 11 (7 none))\n", 1, 2),
        Case {
            after: freed,
            ..manuals("(resume 3 70)", abandoned, 0, 3)
        },
    ]
}

/// Make the call of a case in buffers of these lengths, `behind` standing behind the sheet.
fn call(case: &Case, lengths: [usize; 2], behind: &[u8], random: &mut Random) {
    let begin = [case.sheet.as_bytes(), behind].concat();
    let mut line = Guarded::new(case.line.len(), case.line.as_bytes(), random);
    let mut sheet = Guarded::new(lengths[0], &begin, random);
    let mut answer = Guarded::new(lengths[1], b"", random);
    let number = raw::call(line.buffer(), sheet.buffer(), answer.buffer());
    line.is_kept();
    if lengths[0] < SHEET_BYTES || lengths[1] < ANSWER_BYTES {
        assert_eq!(number, 4, "{lengths:?}");
        sheet.is_kept();
        answer.is_kept();
    } else if behind.first() != Some(&0) {
        assert_eq!(number, 5, "{lengths:?}");
        sheet.is_kept();
        answer.is_kept();
    } else {
        assert_eq!(number, 0, "{lengths:?}");
        sheet.is_written(case.after.as_bytes(), true);
        answer.is_written(case.answer.as_bytes(), false);
    }
}

#[test]
fn a_sheet_ends_at_the_first_zero_byte() {
    let mut random = Random::new(1);
    for case in cases() {
        for sheet in LENGTHS {
            for answer in LENGTHS {
                // Zeros, or noise, or what would be another waiter stands behind the zero byte.
                let behind = [&[0; 9][..], b"\0", b"\0(wait 9 ended (7 none))\n"];
                for behind in behind {
                    call(&case, [sheet, answer], behind, &mut random);
                }
                // Nothing ends the sheet, so that what follows it is read too.
                for behind in [&b""[..], b"\n", b"(wait 3 parked)\n"] {
                    call(&case, [sheet, answer], behind, &mut random);
                }
            }
        }
    }
}

/// The number for a sheet that is taken or not in buffers of these lengths, all of which are kept.
fn refused(begin: &[u8], lengths: [usize; 2], random: &mut Random) {
    let mut line = Guarded::new(7, b"(stats)", random);
    let mut sheet = Guarded::new(lengths[0], begin, random);
    let mut answer = Guarded::new(lengths[1], b"", random);
    let short = lengths[0] < SHEET_BYTES || lengths[1] < ANSWER_BYTES;
    let expected = if short { 4 } else { 5 };
    let number = raw::call(line.buffer(), sheet.buffer(), answer.buffer());
    assert_eq!(number, expected, "{lengths:?}");
    [line, sheet, answer].iter().for_each(Guarded::is_kept);
}

#[test]
fn bytes_that_are_no_sheet() {
    let mut random = Random::new(2);
    let long = full_sheet();
    let zeros = [0; 65_536];
    let mut with_feed = NEW_SHEET.as_bytes().to_vec();
    with_feed.extend_from_slice(b"\n\0");
    let mut without_feed = NEW_SHEET.as_bytes().to_vec();
    *without_feed.last_mut().unwrap() = 0;
    let begins = [
        &b""[..],
        &zeros,
        b"\0",
        &with_feed,
        &without_feed,
        &long[1..],
    ];
    for sheet in LENGTHS {
        for answer in LENGTHS {
            for begin in begins {
                refused(begin, [sheet, answer], &mut random);
            }
            // A valid sheet that begins at the second byte, or at the last ones.
            for front in [&b"\n"[..], b"\0", b" "] {
                refused(
                    &[front, NEW_SHEET.as_bytes(), b"\0"].concat(),
                    [sheet, answer],
                    &mut random,
                );
            }
            let noise = random.bytes(sheet.saturating_sub(NEW_SHEET.len()));
            refused(
                &[&noise, NEW_SHEET.as_bytes()].concat(),
                [sheet, answer],
                &mut random,
            );
        }
    }
    // A sheet that a zero byte cuts short, at each of its bytes.
    for end in 0..NEW_SHEET.len() {
        let cut = [&NEW_SHEET.as_bytes()[..end], b"\0"].concat();
        refused(&cut, [SHEET_BYTES, ANSWER_BYTES], &mut random);
    }
}

#[test]
fn a_long_sheet() {
    let mut random = Random::new(3);
    let long = full_sheet();
    assert!(long.len() > 2_500, "{} bytes", long.len());
    for length in LENGTHS.into_iter().filter(|length| *length >= SHEET_BYTES) {
        // A call that changes nothing, and one that makes the sheet shorter.
        for (line, after) in [("(stats)", &long), ("(resume 15 1)", &shortened(&long))] {
            let mut sheet = Guarded::new(length, &[&long[..], b"\0"].concat(), &mut random);
            let mut answer = Guarded::new(ANSWER_BYTES, b"", &mut random);
            assert_eq!(
                raw::call(line.as_bytes(), sheet.buffer(), answer.buffer()),
                0
            );
            sheet.is_written(after, true);
        }
    }
}

/// Sheets with one byte changed. Some are taken, and then written as they were.
#[test]
fn one_byte_changes() {
    let mut random = Random::new(5);
    let mut counts = [0, 0];
    for sheet in [manuals_sheet(0, 2).into_bytes(), full_sheet()] {
        for at in 0..sheet.len() {
            let other = random.pick(b"0123456789abcdef()gx\r\t\xff");
            for byte in [b' ', b'1', b'a', b'\n', other] {
                let mut begin = [&sheet[..], b"\0"].concat();
                begin[at] = byte;
                let mut sheet = Guarded::new(SHEET_BYTES, &begin, &mut random);
                let mut answer = Guarded::new(ANSWER_BYTES, b"", &mut random);
                match raw::call(b"(heads)", sheet.buffer(), answer.buffer()) {
                    0 => {
                        sheet.is_written(&begin, true);
                        counts[0] += 1;
                    }
                    5 => {
                        sheet.is_kept();
                        answer.is_kept();
                        counts[1] += 1;
                    }
                    number => panic!("{number}"),
                }
            }
        }
    }
    assert!(
        counts.iter().all(|count| *count > 1_000),
        "taken, refused: {counts:?}"
    );
}

/// The full sheet after its last waiter was answered: without that waiter, one more cold view.
fn shortened(long: &[u8]) -> Vec<u8> {
    let text = String::from_utf8(long.to_vec()).unwrap();
    let lines: Vec<&str> = text.split_inclusive('\n').collect();
    let mut count: Vec<_> = lines[0].split(' ').map(str::to_owned).collect();
    let cold_views: u64 = count[8].parse().unwrap();
    count[8] = (cold_views + 1).to_string();
    let kept = lines[1..lines.len() - 1].concat();
    [count.join(" "), kept].concat().into_bytes()
}

#[test]
fn a_new_driver() {
    let mut random = Random::new(4);
    for length in LENGTHS {
        let mut sheet = Guarded::new(length, b"", &mut random);
        let number = raw::new(sheet.buffer());
        if length < SHEET_BYTES {
            assert_eq!(number, 4, "{length}");
            sheet.is_kept();
        } else {
            assert_eq!(number, 0, "{length}");
            sheet.is_written(NEW_SHEET.as_bytes(), true);
        }
    }
}

#[test]
fn one_call_after_another_leaves_nothing_of_a_longer_answer_but_behind_it() {
    let mut buffers = Buffers::new();
    buffers.call(b"(stats)");
    assert_eq!(buffers.call(b"(sheet)"), b"(done)\n");
    assert!(buffers.answer.starts_with(b"(done)\n0 0 0 0 0 0 0 0)\n\0"));
}
