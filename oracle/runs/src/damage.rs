//! The ways a sheet is damaged, each with the verdict on a sheet so damaged where that is sure.

use crate::damage_by_rule::{self as rule, nothing};
use crate::damage_of_text as text;
use crate::random::Random;
use model::{NotTaken, Shown};

/// A damage: what is done to what a sheet shows, then to its text.
pub(crate) struct Damage {
    pub(crate) name: &'static str,
    /// Whether the sheet is taken; none where it depends.
    pub(crate) verdict: Option<Result<(), NotTaken>>,
    pub(crate) shown: fn(&mut Shown, &mut Random),
    pub(crate) text: fn(&mut Vec<u8>, &mut Random),
}

/// A damage to the text only, whatever comes of it.
const fn text(name: &'static str, text: fn(&mut Vec<u8>, &mut Random)) -> Damage {
    Damage {
        name,
        verdict: None,
        shown: nothing,
        text,
    }
}

/// A sheet that keeps every rule.
const fn taken(name: &'static str, shown: fn(&mut Shown, &mut Random)) -> Damage {
    Damage {
        name,
        verdict: Some(Ok(())),
        shown,
        text: |_, _| {},
    }
}

/// A sheet that breaks a rule, and none that stands before it.
const fn broken(
    name: &'static str,
    rule: &'static str,
    shown: fn(&mut Shown, &mut Random),
) -> Damage {
    Damage {
        name,
        verdict: Some(Err(NotTaken::Rule(rule))),
        shown,
        text: |_, _| {},
    }
}

/// A text that is not in sheet form.
const fn ill_formed(
    name: &'static str,
    shown: fn(&mut Shown, &mut Random),
    text: fn(&mut Vec<u8>, &mut Random),
) -> Damage {
    Damage {
        name,
        verdict: Some(Err(NotTaken::Form)),
        shown,
        text,
    }
}

pub(crate) const DAMAGES: &[Damage] = &[
    taken("none", nothing),
    text("byte-changed", |sheet, random| {
        text::byte_changed(sheet, random)
    }),
    text("byte-dropped", text::byte_dropped),
    text("byte-doubled", text::byte_doubled),
    text("byte-put-in", text::byte_put_in),
    text("digit-changed", |sheet, random| {
        text::digit_changed(sheet, random)
    }),
    text("lines-swapped", text::lines_swapped),
    text("line-dropped", text::line_dropped),
    text("line-doubled", text::line_doubled),
    text("last-line-dropped", text::last_line_dropped),
    text("number-one-above", text::number_one_above),
    text("number-one-below", text::number_one_below),
    text("number-2-64-less-1", text::number_at_end),
    text("number-zero", text::number_zero),
    text("word-replaced", text::word_replaced),
    text("cut-short", text::cut_short),
    ill_formed("number-2-64-or-above", nothing, text::number_over_end),
    ill_formed(
        "number-leading-zero",
        nothing,
        text::number_with_leading_zero,
    ),
    ill_formed("empty-line", nothing, text::line_put_in),
    ill_formed("space-doubled", nothing, text::space_doubled),
    ill_formed("return-before-feed", nothing, text::return_before_feed),
    ill_formed("last-feed-dropped", nothing, text::last_feed_dropped),
    text("bytes-after", text::bytes_after),
    ill_formed("bytes-before", nothing, text::bytes_before),
    ill_formed("lengthened", nothing, text::lengthened),
    ill_formed("twice", nothing, text::twice),
    ill_formed("capital-letter", nothing, |sheet, random| {
        text::capital_letter(sheet, random)
    }),
    ill_formed("capital-digit", rule::with_letters, |sheet, random| {
        text::capital_digit(sheet, random)
    }),
    ill_formed("hash-bare", rule::with_letters, text::hash_bare),
    ill_formed("hash-with-0X", rule::with_letters, |sheet, random| {
        text::hash_with_capital_x(sheet, random)
    }),
    ill_formed(
        "hash-of-63-digits",
        rule::with_letters,
        text::hash_of_63_digits,
    ),
    ill_formed(
        "hash-of-65-digits",
        rule::with_letters,
        text::hash_of_65_digits,
    ),
    ill_formed(
        "hash-ill-written",
        rule::with_letters,
        text::hash_ill_written,
    ),
    ill_formed("none-in-capitals", rule::no_head, |sheet, random| {
        text::capital_none(sheet, random)
    }),
    ill_formed(
        "settle-numbers-struck",
        rule::with_previous,
        text::settle_numbers_struck,
    ),
    ill_formed("waiter-16", rule::waiters_some, text::waiter_16),
    ill_formed("waiter-twice", rule::waiters_some, text::last_line_doubled),
    ill_formed(
        "waiters-descending",
        rule::waiters_some,
        text::last_lines_swapped,
    ),
    ill_formed(
        "waiter-ill-written",
        rule::waiters_some,
        text::waiter_ill_written,
    ),
    ill_formed(
        "linked-in-cold",
        rule::installed_cold_by_skip,
        text::linked_in_cold,
    ),
    ill_formed(
        "readiness-word",
        rule::with_previous,
        text::readiness_of_no_generation,
    ),
    ill_formed("end-of-preparing", rule::preparing, text::end_of_preparing),
    taken("waiters-far", rule::waiters_far),
    taken("waiters-all", rule::waiters_all),
    taken("longest", rule::longest),
    taken("hash-with-letters", rule::with_letters),
    taken("no-head", rule::no_head),
    taken("no-head-waiters", rule::no_head_waiters),
    broken("no-head-superseded", "no-head", rule::no_head_superseded),
    broken("no-head-installed", "no-head", rule::no_head_installed),
    broken("no-head-previous", "no-head", rule::no_head_previous),
    broken("no-head-both", "no-head", rule::no_head_both),
    broken("no-head-parked", "parked", rule::no_head_parked),
    taken("settled", rule::settled),
    broken(
        "settled-other-number",
        "settled",
        rule::settled_other_number,
    ),
    broken("settled-other-hash", "settled", rule::settled_other_hash),
    broken(
        "settled-none-installed",
        "settled",
        rule::settled_none_installed,
    ),
    taken("report-none", rule::report_none),
    taken("report-fits", rule::report_fits),
    broken(
        "report-carried-of-cold",
        "report",
        rule::report_carried_of_cold,
    ),
    broken("report-cold-of-ready", "report", rule::report_cold_of_ready),
    broken("report-other-link", "report", rule::report_other_link),
    broken("report-other-skip", "report", rule::report_other_skip),
    taken("unsettled-other-number", rule::unsettled_other_number),
    taken("unsettled-same-number", rule::unsettled_same_number),
    taken("unsettled-is-previous", rule::unsettled_is_previous),
    broken(
        "unsettled-installed",
        "unsettled",
        rule::unsettled_installed,
    ),
    taken("previous", rule::with_previous),
    taken("previous-at-end", rule::previous_at_end),
    taken("previous-without-hash", rule::previous_without_hash),
    taken("previous-of-cold", rule::previous_of_cold),
    broken("previous-alone", "previous", rule::previous_alone),
    broken(
        "previous-same-number",
        "previous-number",
        rule::previous_same_number,
    ),
    broken(
        "previous-two-lower",
        "previous-number",
        rule::previous_two_lower,
    ),
    broken(
        "previous-one-higher",
        "previous-number",
        rule::previous_one_higher,
    ),
    broken(
        "previous-other-number",
        "previous-number",
        rule::previous_other_number,
    ),
    broken(
        "previous-over-end",
        "previous-number",
        rule::previous_over_end,
    ),
    taken("cold-by-link", rule::cold_by_link_only),
    taken("cold-by-skip", rule::cold_by_skip_only),
    taken("skip-at-odds", rule::skip_at_odds),
    broken(
        "cold-installed-no-fault",
        "cold",
        rule::cold_installed_without_fault,
    ),
    broken(
        "cold-previous-no-fault",
        "cold",
        rule::cold_previous_without_fault,
    ),
    broken(
        "cold-report-no-fault",
        "cold",
        rule::cold_report_without_fault,
    ),
    taken("parked-preparing", rule::parked_preparing),
    broken("parked-unclaimed", "parked", rule::parked_unclaimed),
    broken("parked-settled", "parked", rule::parked_settled),
    taken("preparing-epoch-1", rule::preparing_epoch_1),
    taken("abandoned-epoch-1", rule::abandoned_epoch_1),
    taken("open-epoch-0", rule::open_epoch_0),
    taken("settled-epoch-0", rule::settled_epoch_0),
    taken("epoch-above-delivered", rule::epoch_above_delivered),
    broken("preparing-epoch-0", "epoch", rule::preparing_epoch_0),
    broken("abandoned-epoch-0", "epoch", rule::abandoned_epoch_0),
    taken("superseded-previous", rule::superseded_previous_unsettled),
    taken("superseded-installed", rule::superseded_installed),
    taken("superseded-near-current", rule::superseded_near_current),
    taken("superseded-near-previous", rule::superseded_near_previous),
    broken("superseded-current", "superseded", rule::superseded_current),
    broken(
        "superseded-masked",
        "superseded",
        rule::superseded_previous_settled,
    ),
    taken("settle-numbers-delivered", rule::settle_numbers_delivered),
    taken(
        "previous-settled-later",
        rule::previous_number_above_installed,
    ),
    taken("delivered-0", rule::delivered_0),
    taken("settled-count-0", rule::settled_0),
    broken(
        "installed-number-above",
        "settle-number",
        rule::installed_number_above,
    ),
    broken(
        "previous-number-above",
        "settle-number",
        rule::previous_number_above,
    ),
];

#[cfg(test)]
mod tests {
    use super::*;
    use crate::damaged::Sources;
    use model::Model;

    #[test]
    fn the_verdicts_are_the_models() {
        let mut random = Random::new(7);
        for start in [0, u64::MAX - 20] {
            let sources = Sources::new(1, start);
            for round in 0..20 {
                for damage in DAMAGES {
                    let sheet = sources.damaged(&[damage], &mut random);
                    let Some(verdict) = damage.verdict else {
                        continue;
                    };
                    let taken = Model::from_sheet(&sheet, None).map(|_| ());
                    let name = damage.name;
                    let text = sheet.escape_ascii();
                    assert_eq!(taken, verdict, "{name}, round {round}: {text}");
                }
            }
        }
    }

    #[test]
    fn the_longest_sheet_has_2694_bytes() {
        let mut shown = Model::new([0; 9], None).shown();
        rule::longest(&mut shown, &mut Random::new(1));
        let sheet = shown.to_string().into_bytes();
        assert_eq!(sheet.len(), 2_694);
        assert!(Model::from_sheet(&sheet, None).is_ok());
    }

    #[test]
    fn no_name_stands_twice() {
        let mut names: Vec<_> = DAMAGES.iter().map(|damage| damage.name).collect();
        names.sort_unstable();
        names.dedup();
        assert_eq!(names.len(), DAMAGES.len());
    }
}
