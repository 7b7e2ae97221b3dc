//! Answers, anchors and hashes read and written: every form of the manual, and what is none.

mod common;

use common::{Buffers, Lines, Random};
use std::collections::BTreeMap;
use temsroi::{
    Anchor, Answer, Cold, End, Hash, Heads, Link, Outcome, Readiness, Refusal, Report, Skip,
    Source, Stats, View,
};

const BARE: Anchor = Anchor {
    number: 7,
    hash: None,
};

const NO_PARENT: Cold = Cold {
    link: Link::NoParent,
    skip: Skip::NoHash,
};

/// The bytes 0x00 to 0x1f.
fn hashed() -> Anchor {
    let mut hash = Hash::default();
    for (byte, value) in hash.0.iter_mut().zip(0..) {
        *byte = value;
    }
    Anchor {
        number: u64::MAX,
        hash: Some(hash),
    }
}

const HASHED: &str = "(18446744073709551615 \
    0x000102030405060708090a0b0c0d0e0f101112131415161718191a1b1c1d1e1f)";

const fn view(source: Source, readiness: Readiness) -> Answer {
    let handle = 60;
    Answer::View(View {
        source,
        handle,
        readiness,
    })
}

const fn cold(link: Link, skip: Skip) -> Answer {
    Answer::Settled(Outcome::Cold(Cold { link, skip }))
}

const fn report(outcome: Outcome) -> Answer {
    let number = 90;
    Answer::Report(Some(Report { outcome, number }))
}

/// Every form with its text; HASHED stands for an anchor with a hash.
fn samples() -> Vec<(Answer, String)> {
    let settle = u64::MAX;
    let head = hashed();
    let samples = [
        (Answer::Ticket(0), "(ticket 0)"),
        (Answer::Ticket(u64::MAX), "(ticket 18446744073709551615)"),
        (Answer::Claimed(10), "(claimed 10)"),
        (Answer::Done, "(done)"),
        (Answer::Parked, "(parked)"),
        (
            Answer::Settled(Outcome::Carried(5)),
            "(settled (carried 5))",
        ),
        (
            Answer::Settled(Outcome::Cold(NO_PARENT)),
            "(settled (cold no-parent no-hash))",
        ),
        (
            cold(Link::Linked, Skip::NoHash),
            "(settled (cold none no-hash))",
        ),
        (
            cold(Link::NotConsecutive, Skip::None),
            "(settled (cold not-consecutive none))",
        ),
        (
            cold(Link::HashUnknown, Skip::Rpc(4)),
            "(settled (cold hash-unknown (rpc 4)))",
        ),
        (
            cold(Link::HashMismatch, Skip::Decode(u64::MAX)),
            "(settled (cold hash-mismatch (decode 18446744073709551615)))",
        ),
        (
            view(Source::Installed { settle: 1 }, Readiness::Ready),
            "(view installed 60 1 ready)",
        ),
        (
            view(Source::Installed { settle }, Readiness::Cold(NO_PARENT)),
            "(view installed 60 18446744073709551615 (cold no-parent no-hash))",
        ),
        (
            view(Source::Previous { settle: 2 }, Readiness::Abandoned),
            "(view previous 60 2 abandoned)",
        ),
        (
            view(Source::Provisional, Readiness::Unprepared),
            "(view provisional 60 unprepared)",
        ),
        (
            view(Source::Provisional, Readiness::Abandoned),
            "(view provisional 60 abandoned)",
        ),
        (
            view(Source::Spare, Readiness::Superseded),
            "(view spare 60 superseded)",
        ),
        (
            view(Source::Spare, Readiness::Undelivered),
            "(view spare 60 undelivered)",
        ),
        (Answer::Completion(End::None), "(completion none)"),
        (Answer::Completion(End::Settled), "(completion settled)"),
        (Answer::Completion(End::Abandoned), "(completion abandoned)"),
        (Answer::Link(Link::Linked), "(link linked)"),
        (Answer::Link(Link::NoParent), "(link no-parent)"),
        (Answer::Link(Link::NotConsecutive), "(link not-consecutive)"),
        (Answer::Link(Link::HashUnknown), "(link hash-unknown)"),
        (Answer::Link(Link::HashMismatch), "(link hash-mismatch)"),
        (Answer::Report(None), "(report none)"),
        (report(Outcome::Carried(5)), "(report ((carried 5) 90))"),
        (
            report(Outcome::Cold(NO_PARENT)),
            "(report ((cold no-parent no-hash) 90))",
        ),
        (
            Answer::Stats(Stats {
                delivered: 1,
                repeated: 2,
                superseded: 3,
                settled: 4,
                already_current: 5,
                discarded: 6,
                ready_views: 7,
                cold_views: u64::MAX,
            }),
            "(stats 1 2 3 4 5 6 7 18446744073709551615)",
        ),
        (Answer::Heads(Heads::default()), "(heads none none none)"),
        (
            Answer::Heads(Heads {
                current: Some(BARE),
                installed: Some(head),
                previous: None,
            }),
            "(heads (7 none) HASHED none)",
        ),
        (
            Answer::Heads(Heads {
                current: Some(head),
                installed: Some(head),
                previous: Some(head),
            }),
            "(heads HASHED HASHED HASHED)",
        ),
        (Answer::Refused(Refusal::NoCall), "(refused 1)"),
        (Answer::Refused(Refusal::ListAtOdds), "(refused 2)"),
        (Answer::Refused(Refusal::NoSuchWaiter), "(refused 3)"),
        (
            Answer::Refused(Refusal::Superseded { head: BARE }),
            "(refused 11 (7 none))",
        ),
        (
            Answer::Refused(Refusal::Superseded { head }),
            "(refused 11 HASHED)",
        ),
        (
            Answer::Refused(Refusal::Foreign {
                list: head,
                head: BARE,
            }),
            "(refused 12 HASHED (7 none))",
        ),
        (Answer::Refused(Refusal::AlreadySettled), "(refused 13)"),
        (Answer::Refused(Refusal::InFlight), "(refused 14)"),
        (Answer::Refused(Refusal::WaiterNotFree), "(refused 15)"),
        (Answer::Refused(Refusal::WaiterFree), "(refused 16)"),
    ];
    samples
        .map(|(answer, text)| (answer, text.replace("HASHED", HASHED)))
        .to_vec()
}

#[test]
fn every_form_is_read_and_written() {
    for (answer, text) in samples() {
        assert_eq!(answer.to_string(), text);
        assert_eq!(text.parse(), Ok(answer), "{text}");
    }
}

/// Whatever is read is written as it was: so there is one way to write an answer.
fn read_is_written(text: &str) {
    if let Ok(answer) = text.parse::<Answer>() {
        assert_eq!(answer.to_string(), text);
    }
}

#[test]
fn one_byte_changes() {
    for (_, text) in samples() {
        for at in 0..text.len() {
            let (before, rest) = text.split_at(at);
            let after = &rest[1..];
            read_is_written(&format!("{before}{after}"));
            for byte in 0..=127 {
                let byte = char::from(byte);
                read_is_written(&format!("{before}{byte}{after}"));
                read_is_written(&format!("{before}{byte}{rest}"));
            }
        }
        for behind in ["\n", " ", ")", "(", "\0", "\r\n"] {
            assert!(
                format!("{text}{behind}").parse::<Answer>().is_err(),
                "{text}"
            );
            assert!(
                format!("{behind}{text}").parse::<Answer>().is_err(),
                "{text}"
            );
        }
        let capital = text.to_ascii_uppercase();
        assert!(capital.parse::<Answer>().is_err(), "{capital}");
        for end in 0..text.len() {
            assert!(text[..end].parse::<Answer>().is_err(), "{text}");
        }
        let doubled = text.replace(' ', "  ");
        assert!(
            doubled == text || doubled.parse::<Answer>().is_err(),
            "{doubled}"
        );
    }
}

#[test]
fn near_misses() {
    let texts = [
        "(ticket)",
        "(ticket 01)",
        "(ticket +1)",
        "(ticket -1)",
        "(ticket 18446744073709551616)",
        "(ticket 1 2)",
        "(ticket \u{661})",
        "(done )",
        "(settled ready)",
        "(settled (carried))",
        "(settled (cold linked none))",
        "(settled (cold none linked))",
        "(settled (cold none))",
        "(settled (cold none (rpc)))",
        "(settled (cold none (rpc 1) none))",
        "(settled (cold none rpc 1))",
        "(view installed 60 ready)",
        "(view previous 60 (cold none none))",
        "(view provisional 60 1 unprepared)",
        "(view spare 60 1 undelivered)",
        "(view installed 60 1 (carried 5))",
        "(view installed 60 1 none)",
        "(view other 60 ready)",
        "(completion superseded)",
        "(completion open)",
        "(link none)",
        "(link (cold none none))",
        "(report)",
        "(report (carried 5))",
        "(report ((carried 5)))",
        "(report ((carried 5) none))",
        "(report none none)",
        "(stats 1 2 3 4 5 6 7)",
        "(stats 1 2 3 4 5 6 7 8 9)",
        "(stats)",
        "(heads none none)",
        "(heads none none none none)",
        "(heads 7 none none)",
        "(heads (7) none none)",
        "(heads (7 0x00) none none)",
        "(refused 0)",
        "(refused 4)",
        "(refused 5)",
        "(refused 6)",
        "(refused 10)",
        "(refused 11)",
        "(refused 11 none)",
        "(refused 11 (7 none) (7 none))",
        "(refused 12 (7 none))",
        "(refused 13 (7 none))",
        "(refused 17)",
        "(refused 1) (refused 1)",
        "(sheet)",
        "()",
        "",
        "ticket 1",
    ];
    for text in texts {
        assert!(text.parse::<Answer>().is_err(), "{text}");
    }
    let digits = "0123456789abcdef".repeat(4);
    let heads = |hash: String| format!("(heads (7 {hash}) none none)").parse::<Answer>();
    assert!(heads(format!("0x{digits}")).is_ok());
    for hash in [
        digits.clone(),
        format!("0X{digits}"),
        format!("0x{}", digits.to_ascii_uppercase()),
        format!("0x{}", &digits[1..]),
        format!("0x{digits}0"),
        format!("0x{}g", &digits[1..]),
        format!("0x{}\u{e9}", &digits[2..]),
    ] {
        assert!(heads(hash.clone()).is_err(), "{hash}");
    }
}

#[test]
fn anchors_and_hashes_are_read_and_written() {
    let hash = hashed().hash.expect("it has one");
    let digits = hash.to_string();
    assert_eq!(digits.parse(), Ok(hash));
    for (anchor, text) in [(BARE, "(7 none)"), (hashed(), HASHED)] {
        assert_eq!(anchor.to_string(), text);
        assert_eq!(text.parse(), Ok(anchor));
    }
    let error = "7".parse::<Anchor>().expect_err("no anchor");
    assert_eq!(Err(error), "7".parse::<Hash>());
    assert!(error.to_string().contains("not written as"), "{error}");
}

/// Whatever is read as an anchor or a hash is written as it was.
fn only_as_written(text: &str) {
    if let Ok(anchor) = text.parse::<Anchor>() {
        assert_eq!(anchor.to_string(), text);
    }
    if let Ok(hash) = text.parse::<Hash>() {
        assert_eq!(hash.to_string(), text);
    }
}

#[test]
fn near_misses_of_anchors_and_hashes() {
    let hash = hashed().hash.expect("it has one").to_string();
    for text in [&hash, "(7 none)", HASHED] {
        for at in 0..text.len() {
            let (before, rest) = text.split_at(at);
            let after = &rest[1..];
            only_as_written(&format!("{before}{after}"));
            assert!(before.parse::<Anchor>().is_err(), "{before}");
            assert!(before.parse::<Hash>().is_err(), "{before}");
            for byte in 0..=127 {
                let byte = char::from(byte);
                only_as_written(&format!("{before}{byte}{after}"));
                only_as_written(&format!("{before}{byte}{rest}"));
            }
        }
        for other in ["\n", " ", ")", "(", "\0", "\r\n", "0", "\u{e9}"] {
            for text in [format!("{text}{other}"), format!("{other}{text}")] {
                assert!(text.parse::<Anchor>().is_err(), "{text}");
                assert!(text.parse::<Hash>().is_err(), "{text}");
            }
        }
        let capital = text.to_ascii_uppercase();
        assert!(capital.parse::<Anchor>().is_err(), "{capital}");
        assert!(capital.parse::<Hash>().is_err(), "{capital}");
    }
    for text in [
        "",
        "none",
        "7",
        "(7)",
        "()",
        "(none)",
        "(none none)",
        "(07 none)",
        "(+7 none)",
        "(-7 none)",
        "(18446744073709551616 none)",
        "(7 none none)",
        "(7 0x00)",
        "(7 0x)",
        "7 none",
        "0x",
        "0x00",
    ] {
        assert!(text.parse::<Anchor>().is_err(), "{text}");
        assert!(text.parse::<Hash>().is_err(), "{text}");
    }
    // One form is none of the other.
    assert!(hash.parse::<Anchor>().is_err());
    assert!(HASHED.parse::<Hash>().is_err());
    // The digits' number and case.
    let digits = hash.trim_start_matches("0x");
    for text in [
        digits.to_owned(),
        format!("0X{digits}"),
        format!("0x{}", digits.to_ascii_uppercase()),
        format!("0x{}", &digits[1..]),
        format!("0x{digits}0"),
        format!("0x{}g", &digits[1..]),
        format!("0x{}\u{e9}", &digits[2..]),
    ] {
        assert!(text.parse::<Hash>().is_err(), "{text}");
        assert!(format!("(7 {text})").parse::<Anchor>().is_err(), "{text}");
    }
}

#[test]
fn text_that_is_none() {
    let mut random = Random::new(5);
    for (_, text) in samples() {
        for _ in 0..200 {
            let mut bytes = text.clone().into_bytes();
            for _ in 0..=random.below(3) {
                let at = random.below(bytes.len());
                bytes[at] = random.number() as u8;
            }
            read_is_written(&String::from_utf8_lossy(&bytes));
        }
    }
}

/// The answer's name, with a refusal's number.
fn kind(answer: &str) -> &str {
    let mut ends = answer.match_indices([' ', ')']).map(|(at, _)| at);
    let count = if answer.starts_with("(refused") { 2 } else { 1 };
    &answer[..ends.nth(count - 1).expect("an answer has an end")]
}

#[test]
fn answers_of_random_lines() {
    let mut counts = BTreeMap::new();
    for seed in 1..=20 {
        let mut lines = Lines::new(2_000 + seed);
        let mut buffers = Buffers::new();
        for _ in 0..5_000 {
            let line = lines.line(2);
            let answer = buffers.call(&line);
            lines.hear(answer);
            let text = String::from_utf8(answer.to_vec()).expect("an answer is text");
            let text = text.trim_end_matches('\n');
            let read: Answer = text.parse().expect(text);
            assert_eq!(read.to_string(), text);
            *counts.entry(kind(text).to_owned()).or_insert(0) += 1;
        }
    }
    assert_eq!(
        counts.len(),
        11 + 9,
        "every name and every refusal: {counts:?}"
    );
    assert!(counts.values().all(|count| *count >= 100), "{counts:?}");
}
