//! What stands in the buffers, and a sheet that is kept and gone on from.

mod common;

use common::{full_sheet, up_to_zero, Buffers, Lines, NEW_SHEET};
use temsroi::{raw, SHEET_BYTES};

#[test]
fn the_sheet_ends_before_the_first_zero_byte() {
    for (buffer, sheet) in [
        (b"".as_slice(), b"".as_slice()),
        (b"\0", b""),
        (b"\0a", b""),
        (b"a", b"a"),
        (b"a\n", b"a\n"),
        (b"a\n\0", b"a\n"),
        (b"a\n\0b\0", b"a\n"),
    ] {
        assert_eq!(raw::sheet_in(buffer), sheet, "{buffer:?}");
    }
}

#[test]
fn the_answer_ends_before_the_first_line_feed() {
    for (buffer, answer) in [
        (b"".as_slice(), None),
        (b"a", None),
        (b"a\0\r", None),
        (b"\n", Some(b"".as_slice())),
        (b"a\n", Some(b"a")),
        (b"a\nb\n", Some(b"a")),
        (b"\0\n\n", Some(b"\0")),
    ] {
        assert_eq!(raw::answer_in(buffer), answer, "{buffer:?}");
    }
}

#[test]
fn buffers_of_random_lines() {
    let mut lines = Lines::new(4_000);
    let mut buffers = Buffers::new();
    for _ in 0..5_000 {
        let line = lines.line(5);
        let answer = buffers.call(&line).to_vec();
        lines.hear(&answer);
        let read = raw::answer_in(&buffers.answer).expect("an answer");
        assert_eq!([read, b"\n"].concat(), answer);
        assert_eq!(raw::sheet_in(&buffers.sheet), up_to_zero(&buffers.sheet));
    }
}

/// In a buffer where a longer sheet stood: with a zero byte behind it the shorter one is taken, and
/// without one what follows is read as part of it.
#[test]
fn going_on_from_a_kept_sheet() {
    let longer = full_sheet();
    let kept = NEW_SHEET.as_bytes();
    let mut buffers = Buffers::new();
    let mut called = |zero: bool| {
        let mut sheet = [0; SHEET_BYTES];
        sheet[..longer.len()].copy_from_slice(&longer);
        sheet[..kept.len()].copy_from_slice(kept);
        if zero {
            sheet[kept.len()] = 0;
        }
        let number = raw::call(b"(heads)", &mut sheet, &mut buffers.answer);
        (number, raw::sheet_in(&sheet).len())
    };
    assert_eq!(called(true), (raw::DONE, kept.len()));
    assert_eq!(called(false), (raw::SHEET_NOT_TAKEN, longer.len()));
}
