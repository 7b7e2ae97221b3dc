//! Every length of every buffer: nothing else checks that the declaration in `src/ffi.rs` is the
//! library's, and a length that is swapped with another or narrowed would show here.

mod common;

use common::{Buffers, NEW_SHEET};
use temsroi::{raw, ANSWER_BYTES, SHEET_BYTES};

/// The lengths from 0 to 5,000, and some around powers of two; narrowed to 16 bits, those from
/// 65,536 on would be short.
fn lengths() -> impl Iterator<Item = usize> {
    let near = |power: usize| power - 3..power + 600;
    (0..=5_000)
        .chain(near(1 << 13))
        .chain(near(1 << 15))
        .chain(near(1 << 16))
        .chain(near((1 << 16) + SHEET_BYTES))
        .chain(near(1 << 17))
}

#[test]
fn lines() {
    // A call stands at the front, so that a length narrowed to 8 or 16 bits would give it.
    let mut line = [b' '; 70_001];
    line[..7].copy_from_slice(b"(stats)");
    let mut buffers = Buffers::new();
    for length in 0..=70_000 {
        let expected: &[u8] = match length {
            7 => b"(stats 0 0 0 0 0 0 0 0)\n",
            _ => b"(refused 1)\n",
        };
        assert_eq!(buffers.call(&line[..length]), expected, "{length}");
    }
    assert_eq!(buffers.sheet(), NEW_SHEET.as_bytes());
}

#[test]
fn calls_of_every_length() {
    let mut buffers = Buffers::new();
    // Spaces before, behind or within make a call none; a call's own length is what counts.
    for digits in 1..=20 {
        let number = "1".repeat(digits);
        let line = format!("(resume 0 {number})");
        assert_eq!(buffers.call(line.as_bytes()), b"(refused 16)\n", "{line}");
        let line = format!("(claim ({number} none) {number})");
        let answer = format!("(refused 11 ({number} none))\n");
        assert_eq!(buffers.call(line.as_bytes()), answer.as_bytes(), "{line}");
    }
}

#[test]
fn lines_with_a_line_feed() {
    let mut buffers = Buffers::new();
    let zeros = format!("0x{}", "0".repeat(64));
    let line = format!("(deliver (7 {zeros}) {zeros} 50)").into_bytes();
    for at in 0..=line.len() {
        let mut line = line.clone();
        line.insert(at, b'\n');
        assert_eq!(buffers.call(&line), b"(refused 1)\n", "{at}");
    }
    for at in 0..line.len() {
        let mut line = line.clone();
        line[at] = b'\n';
        assert_eq!(buffers.call(&line), b"(refused 1)\n", "{at}");
    }
    for length in 1..=600 {
        assert_eq!(
            buffers.call(&vec![b'\n'; length]),
            b"(refused 1)\n",
            "{length}"
        );
    }
    assert_eq!(buffers.call(b"(stats)\n(stats)"), b"(refused 1)\n");
    assert_eq!(buffers.sheet(), NEW_SHEET.as_bytes());
}

#[test]
fn sheets() {
    let mut answer = [0; ANSWER_BYTES];
    let mut buffer = vec![0; (1 << 17) + 1_000];
    for length in lengths() {
        let sheet = &mut buffer[..length];
        sheet.fill(1);
        assert_eq!(
            raw::new(sheet),
            if length < SHEET_BYTES { 4 } else { 0 },
            "{length}"
        );
        if length < SHEET_BYTES {
            assert!(sheet.iter().all(|byte| *byte == 1), "{length}");
            assert_eq!(raw::call(b"(stats)", sheet, &mut answer), 4, "{length}");
            continue;
        }
        // The zeros go to the end, and what is no zero there is outside.
        assert!(sheet.starts_with(NEW_SHEET.as_bytes()), "{length}");
        assert!(
            sheet[NEW_SHEET.len()..].iter().all(|byte| *byte == 0),
            "{length}"
        );
        sheet[NEW_SHEET.len() + 1..].fill(1);
        assert_eq!(raw::call(b"(stats)", sheet, &mut answer), 0, "{length}");
        assert!(
            sheet[NEW_SHEET.len()..].iter().all(|byte| *byte == 0),
            "{length}"
        );
        // Without a zero byte the sheet goes to the buffer's end.
        sheet[NEW_SHEET.len()..].fill(b'\n');
        assert_eq!(raw::call(b"(stats)", sheet, &mut answer), 5, "{length}");
    }
}

#[test]
fn answers() {
    let mut sheet = Buffers::new().sheet;
    let mut buffer = vec![1; (1 << 17) + 1_000];
    let expected = b"(stats 0 0 0 0 0 0 0 0)\n";
    for length in lengths() {
        let (answer, _) = buffer.split_at_mut(length);
        let number = raw::call(b"(stats)", &mut sheet, answer);
        assert_eq!(
            number,
            if length < ANSWER_BYTES { 4 } else { 0 },
            "{length}"
        );
        let written = if length < ANSWER_BYTES {
            0
        } else {
            expected.len()
        };
        assert_eq!(&buffer[..written], &expected[..written], "{length}");
        assert!(buffer[written..].iter().all(|byte| *byte == 1), "{length}");
        buffer[..written].fill(1);
    }
}

/// No two of the three lengths are exchanged: each is other than the two beside it.
#[test]
fn each_length_is_its_own() {
    let expected = |sheet: usize, answer: usize| {
        if sheet < SHEET_BYTES || answer < ANSWER_BYTES {
            4
        } else {
            0
        }
    };
    let lengths = [0, 7, 511, 512, 513, 4_095, 4_096, 4_097];
    let mut line = [b' '; 4_097];
    line[..7].copy_from_slice(b"(stats)");
    for line_length in lengths {
        for sheet_length in lengths {
            for answer_length in lengths {
                let mut sheet = vec![0; sheet_length];
                let number = raw::new(&mut sheet);
                assert_eq!(number, expected(sheet_length, ANSWER_BYTES));
                let mut answer = vec![0; answer_length];
                let number = raw::call(&line[..line_length], &mut sheet, &mut answer);
                assert_eq!(number, expected(sheet_length, answer_length));
                let made = number == 0 && line_length == 7;
                assert_eq!(answer.starts_with(b"(stats 0"), made);
                let refused = number == 0 && line_length != 7;
                assert_eq!(answer.starts_with(b"(refused 1)\n"), refused);
            }
        }
    }
}
