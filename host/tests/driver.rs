//! The type that owns its sheet.

mod common;

use common::{full_sheet, Buffers, Lines, NEW_SHEET};
use temsroi::{Answer, CallError, Driver, Refusal, SHEET_BYTES};

fn may_go_to_threads<T: Send + Sync>() {}

#[test]
fn a_new_driver() {
    may_go_to_threads::<Driver>();
    let driver = Driver::new();
    assert_eq!(driver.sheet(), NEW_SHEET);
    assert_eq!(driver, Driver::default());
    assert_eq!(
        format!("{driver:?}"),
        "Driver { sheet: [\"(count 0 0 0 0 0 0 0 0 0)\", \"(current none)\", \
         \"(superseded none)\", \"(installed none)\", \"(previous none)\"] }"
    );
}

#[test]
fn a_clone_goes_its_own_way() {
    let mut driver = Driver::new();
    let clone = driver.clone();
    let view = driver.call("(snapshot (7 none) 51)").unwrap();
    assert_eq!(view.to_string(), "(view spare 51 undelivered)");
    assert_ne!(driver, clone);
    assert_eq!(clone, Driver::new());
}

#[test]
fn a_refusal_is_an_answer() {
    let mut driver = Driver::new();
    let refused = |refusal| Ok(Answer::Refused(refusal));
    assert_eq!(driver.call(""), refused(Refusal::NoCall));
    assert_eq!(driver.call(b"\xff\0\n"), refused(Refusal::NoCall));
    assert_eq!(driver.call(vec![b' '; 1 << 20]), refused(Refusal::NoCall));
    assert_eq!(driver.call("(resume 16 1)"), refused(Refusal::NoSuchWaiter));
    assert_eq!(driver, Driver::new());
}

#[test]
fn the_sheet_is_no_answer() {
    let mut driver = Driver::new();
    assert_eq!(driver.call("(sheet)"), Ok(Answer::Done));
    assert_eq!(driver.call_text("(sheet)").as_deref(), Ok("(done)"));
}

#[test]
fn sheets_that_are_not_taken() {
    let mut padded = NEW_SHEET.as_bytes().to_vec();
    padded.resize(SHEET_BYTES, 0);
    let with_zero = NEW_SHEET.replacen(' ', "\0", 1);
    let long = "(".repeat(SHEET_BYTES + 1);
    let sheets: [&[u8]; 9] = [
        b"",
        b"\0",
        b"\n",
        &padded,
        with_zero.as_bytes(),
        &[NEW_SHEET.as_bytes(), b"\0"].concat(),
        &NEW_SHEET.as_bytes()[..NEW_SHEET.len() - 1],
        long.as_bytes(),
        &long.as_bytes()[1..],
    ];
    for sheet in sheets {
        assert_eq!(Driver::from_sheet(sheet), Err(CallError::SheetNotTaken));
    }
    assert!(Driver::from_sheet(NEW_SHEET).is_ok());
    assert!(Driver::from_sheet(full_sheet()).is_ok());
}

#[test]
fn errors_say_what_happened() {
    for (error, says) in [
        (CallError::ShortBuffer, "refused 4"),
        (CallError::SheetNotTaken, "refused 5"),
        (CallError::SheetNotTaken, "a hash without 0x"),
        (
            CallError::SheetNotTaken,
            "docs/HEADSCRIPT.md, \"Putting a box back\"",
        ),
        (CallError::Number(17), "returned 17"),
        (
            CallError::Unreadable("(ticket x)".to_owned()),
            "\"(ticket x)\"",
        ),
    ] {
        let error: Box<dyn std::error::Error> = Box::new(error);
        assert!(error.to_string().contains(says), "{error}");
        // A `main` that returns an error prints this.
        assert_eq!(format!("{error:?}"), error.to_string());
    }
}

/// A driver and lent buffers take the same lines, and every hundredth the driver is put back.
#[test]
fn random_lines() {
    for seed in 1..=20 {
        let mut lines = Lines::new(3_000 + seed);
        let mut buffers = Buffers::new();
        let mut driver = Driver::new();
        let mut texts = Driver::new();
        for count in 0..5_000 {
            let line = lines.line(5);
            let expected = buffers.call(&line);
            lines.hear(expected);
            let answer = driver.call(&line).expect("an answer");
            assert_eq!(format!("{answer}\n").as_bytes(), expected);
            let text = texts.call_text(&line).expect("an answer");
            assert_eq!(format!("{text}\n").as_bytes(), expected);
            assert_eq!(driver.sheet().as_bytes(), buffers.sheet());
            if count % 100 == 0 {
                let back = Driver::from_sheet(driver.sheet()).expect("a driver's sheet is taken");
                assert_eq!(back, driver);
                driver = back;
            }
        }
        assert_eq!(driver, texts);
    }
}
