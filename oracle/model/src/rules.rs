//! The rules of Job 2: which sheets in sheet form are taken. Each stands under its sentence.

use crate::fault::Fault;
use crate::spoilt::spoilt;
use crate::state::{Generation, Link, Outcome, Readiness, Shown, Skip, Stage, Waiter, DELIVERED};

/// A rule: what it is called, whether a sheet keeps it, and the fault that leaves it out.
struct Rule {
    name: &'static str,
    keeps: fn(&Shown) -> bool,
    left_out: Fault,
}

const fn rule(name: &'static str, keeps: fn(&Shown) -> bool, left_out: Fault) -> Rule {
    Rule {
        name,
        keeps,
        left_out,
    }
}

/// The rules in their order.
const RULES: [Rule; 11] = [
    rule("no-head", no_head, Fault::AnyWithoutHead),
    rule("settled", settled, Fault::SettledAnywhere),
    rule("report", report, Fault::AnyReport),
    rule("unsettled", unsettled, Fault::UnsettledInstalled),
    rule("previous", previous, Fault::PreviousAlone),
    rule("previous-number", previous_number, Fault::PreviousAnyNumber),
    rule("cold", cold, Fault::ColdWithoutFault),
    rule("parked", parked, Fault::ParkedAnywhere),
    rule("epoch", epoch, Fault::AttemptWithoutEpoch),
    rule("superseded", superseded, Fault::SupersededUnmasked),
    rule("settle-number", settle_number, Fault::AnySettleNumber),
];

/// The first rule that the sheet breaks.
pub(crate) fn broken(shown: &Shown, fault: Option<Fault>) -> Option<&'static str> {
    let kept = |rule: &Rule| match spoilt(rule.name, fault) {
        Some(keeps) => keeps(shown),
        None => fault == Some(rule.left_out) || (rule.keeps)(shown),
    };
    RULES.iter().find(|rule| !kept(rule)).map(|rule| rule.name)
}

/// "With no current head, superseded, installed and previous are none."
fn no_head(shown: &Shown) -> bool {
    let nothing =
        shown.superseded.is_none() && shown.installed.is_none() && shown.previous.is_none();
    shown.current.is_some() || nothing
}

/// "A settled current head is the installed one".
fn settled(shown: &Shown) -> bool {
    let installed = shown.installed.map(|held| held.anchor);
    shown.settled().is_none_or(|head| installed == Some(head))
}

/// "and its report, if any, gives the installed readiness."
fn report(shown: &Shown) -> bool {
    match (reported(shown), shown.installed) {
        (Some(outcome), Some(installed)) => readiness_by(outcome) == installed.readiness,
        _ => true,
    }
}

/// "An unsettled one is not installed."
fn unsettled(shown: &Shown) -> bool {
    let installed = shown.installed.map(|held| held.anchor);
    shown.unsettled().is_none_or(|head| installed != Some(head))
}

/// "Previous needs installed",
fn previous(shown: &Shown) -> bool {
    shown.previous.is_none() || shown.installed.is_some()
}

/// "with a block number one higher."
fn previous_number(shown: &Shown) -> bool {
    match (shown.previous, shown.installed) {
        (Some(previous), Some(installed)) => {
            previous.anchor.number.checked_add(1) == Some(installed.anchor.number)
        }
        _ => true,
    }
}

/// "A cold outcome or readiness names a fault in at least one part."
fn cold(shown: &Shown) -> bool {
    let reported = reported(shown).map(readiness_by);
    let held = generations(shown).map(|held| held.readiness);
    held.chain(reported).all(names_a_fault)
}

/// "Parked waiters need a preparing head."
fn parked(shown: &Shown) -> bool {
    let stage = shown.current.map(|head| head.stage);
    matches!(stage, Some(Stage::Preparing { .. })) || !shown.waiters.contains(&Waiter::Parked)
}

/// "A current head preparing or abandoned needs an epoch of at least 1."
fn epoch(shown: &Shown) -> bool {
    let attempted = match shown.current.map(|head| head.stage) {
        Some(Stage::Preparing { .. }) => true,
        Some(Stage::Unclaimed { abandoned, .. }) => abandoned,
        Some(Stage::Settled { .. }) | None => false,
    };
    !attempted || shown.epoch >= 1
}

/// "The superseded line follows document 01's rule", which is: "The superseded anchor is written
/// `none` when it is the current anchor, or when the current head is settled and it is the previous
/// anchor."
fn superseded(shown: &Shown) -> bool {
    let Some(anchor) = shown.superseded else {
        return true;
    };
    let is_current = shown.current.is_some_and(|head| head.anchor == anchor);
    let is_previous = shown.previous.is_some_and(|held| held.anchor == anchor);
    let masked = is_current || (shown.settled().is_some() && is_previous);
    !masked
}

/// "Settle numbers don't exceed delivered."
fn settle_number(shown: &Shown) -> bool {
    generations(shown).all(|held| held.number <= shown.counters[DELIVERED])
}

/// The outcome that the current head's report gives.
pub(crate) fn reported(shown: &Shown) -> Option<Outcome> {
    match shown.current?.stage {
        Stage::Settled { report } => report.map(|(outcome, _)| outcome),
        _ => None,
    }
}

/// The readiness of a generation that settled so.
pub(crate) fn readiness_by(outcome: Outcome) -> Readiness {
    match outcome {
        Outcome::Carried(_) => Readiness::Ready,
        Outcome::Cold(link, skip) => Readiness::Cold(link, skip),
    }
}

pub(crate) fn generations(shown: &Shown) -> impl Iterator<Item = Generation> {
    shown.installed.into_iter().chain(shown.previous)
}

pub(crate) fn names_a_fault(readiness: Readiness) -> bool {
    readiness != Readiness::Cold(Link::Linked, Skip::None)
}
