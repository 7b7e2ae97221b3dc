//! The planted faults that put another rule in a rule's place.

use crate::fault::Fault;
use crate::rules::{generations, names_a_fault, readiness_by, reported};
use crate::state::{Link, Readiness, Shown, Skip, Stage, Waiter, DELIVERED};

/// What stands in the place of the rule of that name under that fault.
pub(crate) fn spoilt(rule: &str, fault: Option<Fault>) -> Option<fn(&Shown) -> bool> {
    let (spoilt, keeps): (_, fn(&Shown) -> bool) = match fault? {
        Fault::WaitersNeedHead => ("no-head", |shown| {
            let nothing = shown.superseded.or(shown.installed.map(|held| held.anchor));
            let waiter = shown.waiters.iter().any(|waiter| *waiter != Waiter::Free);
            let alone = nothing.is_none() && shown.previous.is_none() && !waiter;
            shown.current.is_some() || alone
        }),
        Fault::SettledByNumber => ("settled", |shown| {
            let installed = shown.installed.map(|held| held.anchor.number);
            let settled = shown.settled();
            settled.is_none_or(|head| installed == Some(head.number))
        }),
        Fault::UnsettledByNumber => ("unsettled", |shown| {
            let installed = shown.installed.map(|held| held.anchor.number);
            let unsettled = shown.unsettled();
            unsettled.is_none_or(|head| installed != Some(head.number))
        }),
        Fault::PreviousWraps => ("previous-number", |shown| {
            let pair = shown.previous.zip(shown.installed);
            pair.is_none_or(|(previous, installed)| {
                previous.anchor.number.wrapping_add(1) == installed.anchor.number
            })
        }),
        Fault::PreviousNeedsReady => ("previous", |shown| {
            let readiness = shown.installed.map(|held| held.readiness);
            shown.previous.is_none() || readiness == Some(Readiness::Ready)
        }),
        Fault::ReportColdOnly => ("report", |shown| {
            let reported = reported(shown).map(readiness_by);
            let installed = shown.installed.map(|held| held.readiness);
            let ready = reported == Some(Readiness::Ready);
            reported.is_none() || ready || reported == installed
        }),
        Fault::ColdInstalledOnly => ("cold", |shown| {
            let installed = shown.installed;
            installed.is_none_or(|held| names_a_fault(held.readiness))
        }),
        Fault::ColdNeedsBoth => ("cold", |shown| {
            generations(shown).all(|held| match held.readiness {
                Readiness::Cold(link, skip) => link != Link::Linked && skip != Skip::None,
                _ => true,
            })
        }),
        Fault::ParkedNeedHead => ("parked", |shown| {
            shown.current.is_some() || !shown.waiters.contains(&Waiter::Parked)
        }),
        Fault::EpochOfPreparing => ("epoch", |shown| {
            let stage = shown.current.map(|head| head.stage);
            !matches!(stage, Some(Stage::Preparing { .. })) || shown.epoch >= 1
        }),
        Fault::OpenNeedsEpoch => ("epoch", |shown| {
            shown.unsettled().is_none() || shown.epoch >= 1
        }),
        Fault::CurrentUnmasked => ("superseded", |shown| {
            let previous = shown.previous.map(|held| held.anchor);
            let masked = shown.settled().is_some() && shown.superseded == previous;
            shown.superseded.is_none() || !masked
        }),
        Fault::PreviousMasks => ("superseded", |shown| {
            let current = shown.current.map(|head| head.anchor);
            let previous = shown.previous.map(|held| held.anchor);
            let masked = shown.superseded == current || shown.superseded == previous;
            shown.superseded.is_none() || !masked
        }),
        Fault::InstalledMasks => ("superseded", |shown| {
            let held = [
                shown.current.map(|head| head.anchor),
                shown.installed.map(|held| held.anchor),
                shown
                    .previous
                    .filter(|_| shown.settled().is_some())
                    .map(|held| held.anchor),
            ];
            shown.superseded.is_none() || !held.contains(&shown.superseded)
        }),
        Fault::InstalledNumberOnly => ("settle-number", |shown| {
            let installed = shown.installed;
            installed.is_none_or(|held| held.number <= shown.counters[DELIVERED])
        }),
        Fault::NumberBelow => ("settle-number", |shown| {
            generations(shown).all(|held| held.number < shown.counters[DELIVERED])
        }),
        Fault::PreviousSettledEarlier => ("settle-number", |shown| {
            let delivered = shown.counters[DELIVERED];
            let latest = shown.installed.map_or(delivered, |held| held.number);
            generations(shown).all(|held| held.number <= latest.min(delivered))
        }),
        Fault::EpochWithinDelivered => ("epoch", |shown| {
            let open = shown.epoch >= 1 || shown.unsettled().is_none();
            open && shown.epoch <= shown.counters[DELIVERED]
        }),
        _ => return None,
    };
    (spoilt == rule).then_some(keeps)
}
