//! Sheets on either side of each rule of Job 2: what a sheet shows, led to where the rule matters,
//! then kept or broken.

use crate::random::Random;
use model::{Anchor, Generation, Link, Outcome, Readiness, Shown, ShownHead, Skip, Stage, Waiter};

const DELIVERED: usize = 0;

const NONE_AT_ALL: Readiness = Readiness::Cold(Link::Linked, Skip::None);

pub(crate) fn nothing(_: &mut Shown, _: &mut Random) {}

// With no current head, superseded, installed and previous are none.

pub(crate) fn no_head(shown: &mut Shown, random: &mut Random) {
    unpark(shown, random);
    shown.current = None;
    shown.superseded = None;
    shown.installed = None;
    shown.previous = None;
}

pub(crate) fn no_head_superseded(shown: &mut Shown, random: &mut Random) {
    no_head(shown, random);
    shown.superseded = Some(anchor(random));
}

pub(crate) fn no_head_installed(shown: &mut Shown, random: &mut Random) {
    no_head(shown, random);
    shown.installed = Some(generation(shown, anchor(random), random));
}

pub(crate) fn no_head_previous(shown: &mut Shown, random: &mut Random) {
    no_head(shown, random);
    shown.previous = Some(generation(shown, anchor(random), random));
}

pub(crate) fn no_head_both(shown: &mut Shown, random: &mut Random) {
    with_previous(shown, random);
    unpark(shown, random);
    shown.current = None;
    shown.superseded = None;
}

pub(crate) fn no_head_waiters(shown: &mut Shown, random: &mut Random) {
    no_head(shown, random);
    far_waiters(shown, random);
}

pub(crate) fn no_head_parked(shown: &mut Shown, random: &mut Random) {
    no_head(shown, random);
    shown.waiters[random.below(16)] = Waiter::Parked;
}

// A settled current head is the installed one,

pub(crate) fn settled(shown: &mut Shown, random: &mut Random) {
    let anchor = current(shown, random);
    settle(shown, anchor, random);
}

pub(crate) fn settled_other_number(shown: &mut Shown, random: &mut Random) {
    settled(shown, random);
    shown.previous = None;
    if let Some(installed) = &mut shown.installed {
        installed.anchor.number ^= 1 << random.below(64);
    }
}

pub(crate) fn settled_other_hash(shown: &mut Shown, random: &mut Random) {
    settled(shown, random);
    if let Some(installed) = &mut shown.installed {
        installed.anchor.hash = other_hash(installed.anchor.hash, random);
    }
}

pub(crate) fn settled_none_installed(shown: &mut Shown, random: &mut Random) {
    settled(shown, random);
    shown.installed = None;
    shown.previous = None;
}

// and its report, if any, gives the installed readiness.

pub(crate) fn report_none(shown: &mut Shown, random: &mut Random) {
    settled(shown, random);
    put_report(shown, None);
}

pub(crate) fn report_fits(shown: &mut Shown, random: &mut Random) {
    settled(shown, random);
    put_readiness(shown, readiness(random));
    put_fitting_report(shown, random);
}

pub(crate) fn report_carried_of_cold(shown: &mut Shown, random: &mut Random) {
    settled(shown, random);
    put_readiness(shown, cold(random));
    put_report(shown, Some(Outcome::Carried(number(random))));
}

pub(crate) fn report_cold_of_ready(shown: &mut Shown, random: &mut Random) {
    settled(shown, random);
    put_readiness(shown, Readiness::Ready);
    put_report(shown, Some(outcome(cold(random), random)));
}

pub(crate) fn report_other_link(shown: &mut Shown, random: &mut Random) {
    settled(shown, random);
    let skip = Skip::Rpc(number(random));
    let one = random.below(LINKS.len());
    let other = (one + 1 + random.below(LINKS.len() - 1)) % LINKS.len();
    put_readiness(shown, Readiness::Cold(LINKS[one], skip));
    put_report(shown, Some(Outcome::Cold(LINKS[other], skip)));
}

pub(crate) fn report_other_skip(shown: &mut Shown, random: &mut Random) {
    settled(shown, random);
    let number = number(random);
    let skips = [
        Skip::None,
        Skip::NoHash,
        Skip::Rpc(number),
        Skip::Decode(number),
        Skip::Rpc(number ^ 1),
    ];
    let one = random.below(skips.len());
    let other = (one + 1 + random.below(skips.len() - 1)) % skips.len();
    put_readiness(shown, Readiness::Cold(Link::NoParent, skips[one]));
    put_report(shown, Some(Outcome::Cold(Link::NoParent, skips[other])));
}

// An unsettled one is not installed.

pub(crate) fn unsettled_installed(shown: &mut Shown, random: &mut Random) {
    unsettled(shown, random);
    let anchor = current(shown, random);
    shown.previous = None;
    shown.installed = Some(generation(shown, anchor, random));
}

pub(crate) fn unsettled_same_number(shown: &mut Shown, random: &mut Random) {
    unsettled(shown, random);
    let mut anchor = current(shown, random);
    anchor.hash = other_hash(anchor.hash, random);
    shown.previous = None;
    shown.installed = Some(generation(shown, anchor, random));
}

pub(crate) fn unsettled_other_number(shown: &mut Shown, random: &mut Random) {
    unsettled(shown, random);
    let mut anchor = current(shown, random);
    anchor.number ^= 1 << random.below(64);
    shown.previous = None;
    shown.installed = Some(generation(shown, anchor, random));
}

pub(crate) fn unsettled_is_previous(shown: &mut Shown, random: &mut Random) {
    with_previous(shown, random);
    if let Some(previous) = shown.previous {
        unsettle(shown, previous.anchor, random);
    }
}

// Previous needs installed, with a block number one higher.

pub(crate) fn previous_alone(shown: &mut Shown, random: &mut Random) {
    with_previous(shown, random);
    unsettled(shown, random);
    shown.installed = None;
}

pub(crate) fn previous_same_number(shown: &mut Shown, random: &mut Random) {
    previous_moved(shown, |number| number, random);
}

pub(crate) fn previous_two_lower(shown: &mut Shown, random: &mut Random) {
    previous_moved(shown, |number| number.saturating_sub(2), random);
}

pub(crate) fn previous_one_higher(shown: &mut Shown, random: &mut Random) {
    previous_moved(shown, |number| number + 1, random);
}

pub(crate) fn previous_other_number(shown: &mut Shown, random: &mut Random) {
    let bit = 1 << (1 + random.below(62));
    previous_moved(shown, |number| (number - 1) ^ bit, random);
}

/// The installed block's number lies between 4 and 2^64 - 4.
fn previous_moved(shown: &mut Shown, by: impl Fn(u64) -> u64, random: &mut Random) {
    let installed = Anchor {
        number: anchor(random).number.clamp(4, u64::MAX - 4),
        ..anchor(random)
    };
    previous_of(shown, installed, random);
    if let Some(previous) = &mut shown.previous {
        previous.anchor.number = by(installed.number);
    }
    unmask(shown);
}

pub(crate) fn previous_over_end(shown: &mut Shown, random: &mut Random) {
    let installed = Anchor {
        number: 0,
        ..anchor(random)
    };
    previous_of(shown, installed, random);
    if let Some(previous) = &mut shown.previous {
        previous.anchor.number = u64::MAX;
    }
    unmask(shown);
}

pub(crate) fn previous_at_end(shown: &mut Shown, random: &mut Random) {
    let installed = Anchor {
        number: random.pick(&[1, u64::MAX, u64::MAX - 1]),
        ..anchor(random)
    };
    previous_of(shown, installed, random);
}

pub(crate) fn previous_without_hash(shown: &mut Shown, random: &mut Random) {
    with_previous(shown, random);
    if let Some(previous) = &mut shown.previous {
        previous.anchor.hash = None;
    }
    unmask(shown);
}

pub(crate) fn previous_of_cold(shown: &mut Shown, random: &mut Random) {
    with_previous(shown, random);
    put_readiness(shown, cold(random));
    refit_report(shown, random);
}

// A cold outcome or readiness names a fault in at least one part.

pub(crate) fn cold_installed_without_fault(shown: &mut Shown, random: &mut Random) {
    with_previous(shown, random);
    put_readiness(shown, NONE_AT_ALL);
    put_report(shown, None);
}

pub(crate) fn cold_previous_without_fault(shown: &mut Shown, random: &mut Random) {
    with_previous(shown, random);
    if let Some(previous) = &mut shown.previous {
        previous.readiness = NONE_AT_ALL;
    }
}

pub(crate) fn cold_report_without_fault(shown: &mut Shown, random: &mut Random) {
    settled(shown, random);
    put_readiness(shown, NONE_AT_ALL);
    put_fitting_report(shown, random);
}

pub(crate) fn cold_by_link_only(shown: &mut Shown, random: &mut Random) {
    with_previous(shown, random);
    put_readiness(shown, Readiness::Cold(fault(random), Skip::None));
    refit_report(shown, random);
}

pub(crate) fn cold_by_skip_only(shown: &mut Shown, random: &mut Random) {
    with_previous(shown, random);
    put_readiness(shown, Readiness::Cold(Link::Linked, skip(random)));
    refit_report(shown, random);
}

/// A skip `no-hash` on an anchor with a hash, or another on one without.
pub(crate) fn skip_at_odds(shown: &mut Shown, random: &mut Random) {
    with_previous(shown, random);
    let hash = shown.installed.and_then(|held| held.anchor.hash);
    let skip = match hash {
        Some(_) => Skip::NoHash,
        None => Skip::Decode(number(random)),
    };
    put_readiness(shown, Readiness::Cold(fault(random), skip));
    refit_report(shown, random);
    if let Some(previous) = &mut shown.previous {
        previous.readiness = Readiness::Cold(fault(random), Skip::NoHash);
    }
}

// Parked waiters need a preparing head.

pub(crate) fn parked_preparing(shown: &mut Shown, random: &mut Random) {
    preparing(shown, random);
    shown.waiters[random.below(16)] = Waiter::Parked;
}

pub(crate) fn parked_unclaimed(shown: &mut Shown, random: &mut Random) {
    unclaimed(shown, random);
    shown.waiters[random.below(16)] = Waiter::Parked;
}

pub(crate) fn parked_settled(shown: &mut Shown, random: &mut Random) {
    settled(shown, random);
    shown.waiters[random.below(16)] = Waiter::Parked;
}

// A current head preparing or abandoned needs an epoch of at least 1.

pub(crate) fn preparing_epoch_0(shown: &mut Shown, random: &mut Random) {
    preparing(shown, random);
    shown.epoch = 0;
}

pub(crate) fn abandoned_epoch_0(shown: &mut Shown, random: &mut Random) {
    abandoned(shown, random);
    shown.epoch = 0;
}

pub(crate) fn preparing_epoch_1(shown: &mut Shown, random: &mut Random) {
    preparing(shown, random);
    shown.epoch = 1;
}

pub(crate) fn abandoned_epoch_1(shown: &mut Shown, random: &mut Random) {
    abandoned(shown, random);
    shown.epoch = 1;
}

pub(crate) fn open_epoch_0(shown: &mut Shown, random: &mut Random) {
    unclaimed(shown, random);
    put_stage(
        shown,
        Stage::Unclaimed {
            handle: number(random),
            abandoned: false,
        },
    );
    shown.epoch = 0;
}

pub(crate) fn settled_epoch_0(shown: &mut Shown, random: &mut Random) {
    settled(shown, random);
    shown.epoch = 0;
}

pub(crate) fn epoch_above_delivered(shown: &mut Shown, random: &mut Random) {
    unsettled(shown, random);
    shown.epoch = u64::MAX - random.number() % 2;
    shown.counters[DELIVERED] = shown.counters[DELIVERED].min(u64::MAX - 2);
    keep_settle_numbers(shown);
}

// The superseded line follows document 01's rule.

pub(crate) fn superseded_current(shown: &mut Shown, random: &mut Random) {
    if random.chance(50) {
        settled(shown, random);
    } else {
        unsettled(shown, random);
    }
    shown.superseded = Some(current(shown, random));
}

pub(crate) fn superseded_previous_settled(shown: &mut Shown, random: &mut Random) {
    with_previous(shown, random);
    settled_as_installed(shown, random);
    shown.superseded = shown.previous.map(|held| held.anchor);
}

pub(crate) fn superseded_previous_unsettled(shown: &mut Shown, random: &mut Random) {
    with_previous(shown, random);
    let mut head = anchor(random);
    let held = [shown.previous, shown.installed].map(|held| held.map(|held| held.anchor));
    while held.contains(&Some(head)) {
        head.number = head.number.wrapping_add(1);
    }
    unsettle(shown, head, random);
    shown.superseded = shown.previous.map(|held| held.anchor);
}

pub(crate) fn superseded_installed(shown: &mut Shown, random: &mut Random) {
    with_previous(shown, random);
    unsettled(shown, random);
    shown.superseded = shown.installed.map(|held| held.anchor);
}

pub(crate) fn superseded_near_current(shown: &mut Shown, random: &mut Random) {
    unsettled(shown, random);
    let mut near = current(shown, random);
    near.hash = other_hash(near.hash, random);
    shown.superseded = Some(near);
}

pub(crate) fn superseded_near_previous(shown: &mut Shown, random: &mut Random) {
    with_previous(shown, random);
    settled_as_installed(shown, random);
    shown.superseded = shown.previous.map(|held| Anchor {
        hash: other_hash(held.anchor.hash, random),
        ..held.anchor
    });
}

// Settle numbers don't exceed delivered.

pub(crate) fn installed_number_above(shown: &mut Shown, random: &mut Random) {
    below_end(shown, random);
    if let Some(installed) = &mut shown.installed {
        installed.number = above(shown.counters[DELIVERED], random);
    }
}

pub(crate) fn previous_number_above(shown: &mut Shown, random: &mut Random) {
    below_end(shown, random);
    if let Some(previous) = &mut shown.previous {
        previous.number = above(shown.counters[DELIVERED], random);
    }
}

/// One above, or far.
fn above(delivered: u64, random: &mut Random) -> u64 {
    random.pick(&[delivered + 1, delivered + 1, u64::MAX])
}

pub(crate) fn settle_numbers_delivered(shown: &mut Shown, random: &mut Random) {
    with_previous(shown, random);
    let delivered = shown.counters[DELIVERED];
    for held in [&mut shown.installed, &mut shown.previous]
        .into_iter()
        .flatten()
    {
        held.number = delivered;
    }
}

pub(crate) fn previous_number_above_installed(shown: &mut Shown, random: &mut Random) {
    with_previous(shown, random);
    shown.counters[DELIVERED] = shown.counters[DELIVERED].max(1);
    let delivered = shown.counters[DELIVERED];
    if let (Some(installed), Some(previous)) = (&mut shown.installed, &mut shown.previous) {
        installed.number = random.pick(&[0, delivered - 1]);
        previous.number = delivered;
    }
}

pub(crate) fn delivered_0(shown: &mut Shown, random: &mut Random) {
    if random.chance(50) {
        with_previous(shown, random);
    } else {
        unsettled(shown, random);
    }
    shown.counters[DELIVERED] = 0;
    keep_settle_numbers(shown);
}

pub(crate) fn settled_0(shown: &mut Shown, random: &mut Random) {
    with_previous(shown, random);
    shown.counters = [shown.counters[DELIVERED], 0, 0, 0, 0, 0, 0, 0];
}

// Waiters.

pub(crate) fn waiters_far(shown: &mut Shown, random: &mut Random) {
    unpark(shown, random);
    far_waiters(shown, random);
}

pub(crate) fn waiters_all(shown: &mut Shown, random: &mut Random) {
    preparing(shown, random);
    for number in 0..16 {
        shown.waiters[number] = match random.below(3) {
            0 => Waiter::Parked,
            1 => Waiter::Abandoned(anchor(random)),
            _ => Waiter::Ended(anchor(random)),
        };
    }
}

/// No sheet is longer: every number has 20 digits and every anchor a hash, under a settled head.
pub(crate) fn longest(shown: &mut Shown, random: &mut Random) {
    let block = |number, random: &mut Random| Anchor {
        number,
        hash: Some(hash(random)),
    };
    let (link, skip) = (Link::NotConsecutive, Skip::Decode(u64::MAX));
    let installed = Generation {
        anchor: block(u64::MAX, random),
        handle: u64::MAX,
        number: u64::MAX,
        readiness: Readiness::Cold(link, skip),
    };
    *shown = Shown {
        counters: [u64::MAX; 8],
        epoch: u64::MAX,
        current: Some(ShownHead {
            anchor: installed.anchor,
            parent: hash(random),
            stage: Stage::Settled {
                report: Some((Outcome::Cold(link, skip), u64::MAX)),
            },
        }),
        superseded: Some(block(u64::MAX - 2, random)),
        installed: Some(installed),
        previous: Some(Generation {
            anchor: block(u64::MAX - 1, random),
            ..installed
        }),
        waiters: [(); 16].map(|()| Waiter::Abandoned(block(u64::MAX, random))),
    };
}

/// A hash with a letter at least, for what the text does to it.
pub(crate) fn with_letters(shown: &mut Shown, random: &mut Random) {
    let mut hash = hash(random);
    hash[random.below(64)] = random.pick(b"abcdef");
    let anchor = Anchor {
        number: number(random),
        hash: Some(hash),
    };
    shown.waiters[random.below(16)] = Waiter::Ended(anchor);
}

/// Two waiters at least, for what the text does to them.
pub(crate) fn waiters_some(shown: &mut Shown, random: &mut Random) {
    unpark(shown, random);
    shown.waiters[random.below(8)] = Waiter::Ended(anchor(random));
    shown.waiters[8 + random.below(8)] = Waiter::Abandoned(anchor(random));
}

pub(crate) fn installed_cold_by_skip(shown: &mut Shown, random: &mut Random) {
    previous_of_cold(shown, random);
    put_readiness(shown, Readiness::Cold(Link::Linked, skip(random)));
    put_report(shown, None);
}

// The ways there. Each leaves a sheet that keeps every rule.

fn far_waiters(shown: &mut Shown, random: &mut Random) {
    for _ in 0..=random.below(4) {
        let anchor = anchor(random);
        shown.waiters[random.below(16)] = if random.chance(50) {
            Waiter::Abandoned(anchor)
        } else {
            Waiter::Ended(anchor)
        };
    }
}

fn unpark(shown: &mut Shown, random: &mut Random) {
    let anchor = current(shown, random);
    let parked = |waiter: &&mut Waiter| **waiter == Waiter::Parked;
    let waiters = shown.waiters.iter_mut();
    waiters
        .filter(parked)
        .for_each(|waiter| *waiter = Waiter::Ended(anchor));
}

/// Leave the superseded anchor out where document 01 does.
fn unmask(shown: &mut Shown) {
    let current = shown.current.map(|head| head.anchor);
    let previous = shown.previous.map(|held| held.anchor);
    let settled = is_settled(shown);
    let masked = shown.superseded == current || (settled && shown.superseded == previous);
    if masked {
        shown.superseded = None;
    }
}

fn is_settled(shown: &Shown) -> bool {
    let stage = shown.current.map(|head| head.stage);
    matches!(stage, Some(Stage::Settled { .. }))
}

/// The current anchor, or one where there is none.
fn current(shown: &Shown, random: &mut Random) -> Anchor {
    match shown.current {
        Some(head) => head.anchor,
        None => anchor(random),
    }
}

fn unclaimed(shown: &mut Shown, random: &mut Random) {
    unsettled(shown, random);
    unpark(shown, random);
    let stage = Stage::Unclaimed {
        handle: number(random),
        abandoned: random.chance(50),
    };
    put_stage(shown, stage);
}

fn abandoned(shown: &mut Shown, random: &mut Random) {
    unclaimed(shown, random);
    let stage = Stage::Unclaimed {
        handle: number(random),
        abandoned: true,
    };
    put_stage(shown, stage);
}

pub(crate) fn preparing(shown: &mut Shown, random: &mut Random) {
    unsettled(shown, random);
    let handle = number(random);
    put_stage(shown, Stage::Preparing { handle });
}

fn put_stage(shown: &mut Shown, stage: Stage) {
    if let Some(head) = &mut shown.current {
        head.stage = stage;
    }
}

/// A current head that is not settled.
fn unsettled(shown: &mut Shown, random: &mut Random) {
    let mut anchor = current(shown, random);
    if shown.installed.is_some_and(|held| held.anchor == anchor) {
        anchor.number = anchor.number.wrapping_add(1);
    }
    unsettle(shown, anchor, random);
}

fn unsettle(shown: &mut Shown, anchor: Anchor, random: &mut Random) {
    unpark(shown, random);
    let handle = number(random);
    let stage = match random.below(3) {
        0 => Stage::Preparing { handle },
        1 => Stage::Unclaimed {
            handle,
            abandoned: true,
        },
        _ => Stage::Unclaimed {
            handle,
            abandoned: false,
        },
    };
    let parent = parent(shown, random);
    shown.current = Some(ShownHead {
        anchor,
        parent,
        stage,
    });
    shown.epoch = shown.epoch.max(1);
    unmask(shown);
}

fn parent(shown: &Shown, random: &mut Random) -> [u8; 64] {
    let parents = [
        shown.current.map(|head| head.parent),
        shown.installed.and_then(|held| held.anchor.hash),
        Some(hash(random)),
    ];
    let parent = random.pick(&parents);
    parent.unwrap_or_else(|| hash(random))
}

/// A current head that is settled at the anchor.
fn settle(shown: &mut Shown, anchor: Anchor, random: &mut Random) {
    unpark(shown, random);
    if shown.installed.is_none_or(|held| held.anchor != anchor) {
        shown.installed = Some(generation(shown, anchor, random));
    }
    let below = anchor.number.checked_sub(1);
    shown.previous = shown
        .previous
        .filter(|held| Some(held.anchor.number) == below);
    settled_as_installed(shown, random);
}

/// The installed one becomes the current head, with a fitting report or none.
fn settled_as_installed(shown: &mut Shown, random: &mut Random) {
    let Some(installed) = shown.installed else {
        return;
    };
    unpark(shown, random);
    let parent = parent(shown, random);
    shown.current = Some(ShownHead {
        anchor: installed.anchor,
        parent,
        stage: Stage::Settled { report: None },
    });
    if random.chance(70) {
        put_fitting_report(shown, random);
    }
    unmask(shown);
}

/// An installed and a previous generation, under a head of any stage.
pub(crate) fn with_previous(shown: &mut Shown, random: &mut Random) {
    let mut installed = match shown.installed {
        Some(held) => held.anchor,
        None => anchor(random),
    };
    installed.number = installed.number.max(1);
    previous_of(shown, installed, random);
}

fn previous_of(shown: &mut Shown, installed: Anchor, random: &mut Random) {
    shown.previous = None;
    settle(shown, installed, random);
    let below = Anchor {
        number: installed.number.wrapping_sub(1),
        ..anchor(random)
    };
    shown.previous = Some(generation(shown, below, random));
    unmask(shown);
    if random.chance(50) {
        unsettled(shown, random);
    }
}

/// Delivered below its end, with both generations.
fn below_end(shown: &mut Shown, random: &mut Random) {
    with_previous(shown, random);
    shown.counters[DELIVERED] = shown.counters[DELIVERED].min(u64::MAX - 1);
    keep_settle_numbers(shown);
}

fn keep_settle_numbers(shown: &mut Shown) {
    let delivered = shown.counters[DELIVERED];
    for held in [&mut shown.installed, &mut shown.previous]
        .into_iter()
        .flatten()
    {
        held.number = held.number.min(delivered);
    }
}

fn put_readiness(shown: &mut Shown, readiness: Readiness) {
    if let Some(installed) = &mut shown.installed {
        installed.readiness = readiness;
    }
}

/// The settled head's report, with some number.
fn put_report(shown: &mut Shown, outcome: Option<Outcome>) {
    if is_settled(shown) {
        let report = outcome.map(|outcome| (outcome, shown.counters[DELIVERED]));
        put_stage(shown, Stage::Settled { report });
    }
}

fn put_fitting_report(shown: &mut Shown, random: &mut Random) {
    let readiness = shown.installed.map(|held| held.readiness);
    put_report(shown, readiness.map(|readiness| outcome(readiness, random)));
}

/// After the installed readiness changed: a report that fits it, or none.
fn refit_report(shown: &mut Shown, random: &mut Random) {
    put_report(shown, None);
    if random.chance(70) {
        put_fitting_report(shown, random);
    }
}

fn outcome(readiness: Readiness, random: &mut Random) -> Outcome {
    match readiness {
        Readiness::Cold(link, skip) => Outcome::Cold(link, skip),
        _ => Outcome::Carried(number(random)),
    }
}

fn generation(shown: &Shown, anchor: Anchor, random: &mut Random) -> Generation {
    let delivered = shown.counters[DELIVERED];
    let numbers = [0, delivered, delivered.saturating_sub(1), delivered / 2];
    Generation {
        anchor,
        handle: number(random),
        number: random.pick(&numbers),
        readiness: readiness(random),
    }
}

const LINKS: [Link; 5] = [
    Link::Linked,
    Link::NoParent,
    Link::NotConsecutive,
    Link::HashUnknown,
    Link::HashMismatch,
];

fn readiness(random: &mut Random) -> Readiness {
    if random.chance(50) {
        Readiness::Ready
    } else {
        cold(random)
    }
}

fn cold(random: &mut Random) -> Readiness {
    match random.below(3) {
        0 => Readiness::Cold(fault(random), Skip::None),
        1 => Readiness::Cold(Link::Linked, skip(random)),
        _ => Readiness::Cold(fault(random), skip(random)),
    }
}

/// A link that is a fault.
fn fault(random: &mut Random) -> Link {
    random.pick(&LINKS[1..])
}

/// A skip that is a fault.
fn skip(random: &mut Random) -> Skip {
    let number = number(random);
    random.pick(&[Skip::NoHash, Skip::Rpc(number), Skip::Decode(number)])
}

fn number(random: &mut Random) -> u64 {
    let any = random.number();
    random.pick(&[0, 1, 2, 50, u64::MAX, any])
}

fn anchor(random: &mut Random) -> Anchor {
    let hash = hash(random);
    Anchor {
        number: number(random),
        hash: random.chance(75).then_some(hash),
    }
}

fn hash(random: &mut Random) -> [u8; 64] {
    match random.below(4) {
        0 => [b'0'; 64],
        1 => [b'f'; 64],
        _ => [(); 64].map(|()| random.pick(b"0123456789abcdef")),
    }
}

/// Another hash, mostly one that differs in a digit only.
fn other_hash(hash: Option<[u8; 64]>, random: &mut Random) -> Option<[u8; 64]> {
    let Some(mut other) = hash else {
        return Some(self::hash(random));
    };
    if random.chance(25) {
        return None;
    }
    let at = random.below(64);
    other[at] = if other[at] == b'0' { b'1' } else { b'0' };
    Some(other)
}
