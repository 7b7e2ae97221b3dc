//! The probes that tell each part of a sheet: for two sheets that differ, calls
//! to which the two drivers must answer differently.

use crate::shown::Shown;

/// The part of a sheet that a probe tells.
#[derive(Clone, Copy, Debug, PartialEq, Eq, PartialOrd, Ord)]
pub(crate) enum Part {
    Counters,
    Anchors,
    Epoch,
    ParentHash,
    Report,
    Pose,
    End,
    Handle,
    Installed,
    InstalledNumber,
    Previous,
    PreviousNumber,
    Superseded,
    Waiter(usize),
}

/// Calls to make, one after another, and the part that their last answer tells.
pub(crate) struct Probe {
    pub(crate) part: Part,
    pub(crate) calls: Vec<String>,
}

const ZERO: &str = "0x0000000000000000000000000000000000000000000000000000000000000000";

impl Part {
    pub(crate) const fn name(self) -> &'static str {
        match self {
            Self::Counters => "counters",
            Self::Anchors => "anchors",
            Self::Epoch => "epoch",
            Self::ParentHash => "parent hash",
            Self::Report => "report",
            Self::Pose => "pose",
            Self::End => "end",
            Self::Handle => "provisional handle",
            Self::Installed => "installed",
            Self::InstalledNumber => "installed number",
            Self::Previous => "previous",
            Self::PreviousNumber => "previous number",
            Self::Superseded => "superseded",
            Self::Waiter(_) => "waiter",
        }
    }

    /// Every part, in the order in which they are told: a part's probe takes
    /// those before it as equal.
    fn all() -> impl Iterator<Item = Self> {
        let single = [
            Self::Counters,
            Self::Anchors,
            Self::Epoch,
            Self::ParentHash,
            Self::Report,
            Self::Pose,
            Self::End,
            Self::Handle,
            Self::Installed,
            Self::InstalledNumber,
            Self::Previous,
            Self::PreviousNumber,
            Self::Superseded,
        ];
        single.into_iter().chain((0..16).map(Self::Waiter))
    }

    fn differs(self, a: &Shown, b: &Shown) -> bool {
        match self {
            Self::Counters => a.counters != b.counters,
            Self::Anchors => anchors(a) != anchors(b),
            Self::Epoch => a.epoch != b.epoch,
            Self::ParentHash => a.parent_hash != b.parent_hash,
            Self::Report => a.report != b.report,
            Self::Pose => a.pose != b.pose,
            Self::End => a.end != b.end,
            Self::Handle => a.handle != b.handle,
            Self::Installed => a.installed.unnumbered() != b.installed.unnumbered(),
            Self::InstalledNumber => a.installed.number != b.installed.number,
            Self::Previous => a.previous.unnumbered() != b.previous.unnumbered(),
            Self::PreviousNumber => a.previous.number != b.previous.number,
            Self::Superseded => a.superseded != b.superseded,
            Self::Waiter(number) => a.waiters[number] != b.waiters[number],
        }
    }

    /// The probes for this part of the two sheets.
    fn probes(self, a: &Shown, b: &Shown) -> Vec<Probe> {
        let current = or(a.current, "(0 none)");
        let (delivered, epoch) = (a.counters[0], a.epoch);
        let installed = or(a.installed.anchor, "(0 none)");
        let snapshot = |anchor: &str| format!("(snapshot {anchor} 0)");
        let deliver = |anchor: &str, parent: &str| format!("(deliver {anchor} {parent} 0)");
        let lists = match self {
            Self::Counters => vec![vec!["(stats)".to_owned()]],
            Self::Anchors => vec![vec!["(heads)".to_owned()]],
            Self::Epoch => {
                let fresh = neither(current, installed);
                let next = delivered.parse::<u64>().unwrap_or(0).saturating_add(1);
                vec![vec![
                    deliver(fresh, ZERO),
                    format!("(claim {fresh} {next})"),
                ]]
            }
            Self::ParentHash => {
                let parent = or(or(a.parent_hash, b.parent_hash), ZERO);
                vec![vec![deliver(current, parent)]]
            }
            Self::Report => vec![vec!["(report)".to_owned()]],
            Self::Pose => vec![vec![format!("(claim {current} {delivered})")]],
            Self::End => vec![vec![format!("(completion {current})")]],
            Self::Handle => vec![vec![snapshot(current)]],
            Self::Installed | Self::InstalledNumber => vec![vec![snapshot(installed)]],
            Self::Previous | Self::PreviousNumber => {
                let previous = or(or(a.previous.anchor, b.previous.anchor), "(0 none)");
                vec![vec![deliver(installed, ZERO), snapshot(previous)]]
            }
            Self::Superseded => {
                let superseded = or(or(a.superseded, b.superseded), "(0 none)");
                vec![vec![settle(current, delivered), snapshot(superseded)]]
            }
            Self::Waiter(number) => {
                let resume = format!("(resume {number} 0)");
                let of = |shown: &Shown| or(shown.waiters[number].1, "(0 none)").to_owned();
                let release = format!("(release {delivered} {epoch})");
                let mut lists = vec![
                    vec![resume.clone()],
                    vec![release, settle(current, delivered), resume.clone()],
                ];
                let anchor = if of(a) == installed { of(b) } else { of(a) };
                lists.push(vec![deliver(&anchor, ZERO), resume]);
                lists
            }
        };
        let probe = |calls| Probe { part: self, calls };
        lists.into_iter().map(probe).collect()
    }
}

/// The probes for the first part in which the sheets differ; none if they show
/// the same.
pub(crate) fn probes(a: &Shown, b: &Shown) -> Vec<Probe> {
    let part = Part::all().find(|part| part.differs(a, b));
    part.map_or_else(Vec::new, |part| part.probes(a, b))
}

/// The probes for every part.
pub(crate) fn all_probes(a: &Shown, b: &Shown) -> Vec<Probe> {
    Part::all().flat_map(|part| part.probes(a, b)).collect()
}

/// Calls that begin a list of further lines, of one of several sorts: what they
/// leave, and everything that can be asked of it by snapshots and waiters.
pub(crate) fn opening(
    shown: &Shown,
    sort: usize,
    anchors: &[String],
    waiters: &[u64],
) -> Vec<String> {
    let current = or(shown.current, "(0 none)");
    let installed = or(shown.installed.anchor, "(0 none)");
    let delivered = shown.counters[0];
    let release = format!("(release {delivered} {})", shown.epoch);
    let mut calls = match sort % (4 + anchors.len()) {
        0 => vec![],
        1 => vec![settle(current, delivered)],
        2 => vec![release, settle(current, delivered)],
        3 => vec![format!("(deliver {installed} {ZERO} 0)")],
        other => vec![format!("(deliver {} {ZERO} 0)", anchors[other - 4])],
    };
    calls.extend(
        anchors
            .iter()
            .map(|anchor| format!("(snapshot {anchor} 0)")),
    );
    calls.extend(waiters.iter().map(|waiter| format!("(resume {waiter} 0)")));
    calls
}

pub(crate) const fn anchors<'a>(shown: &Shown<'a>) -> [&'a str; 3] {
    [shown.current, shown.installed.anchor, shown.previous.anchor]
}

/// The text, or another where it is empty.
fn or<'a>(text: &'a str, other: &'a str) -> &'a str {
    if text.is_empty() {
        other
    } else {
        text
    }
}

/// An anchor that is neither of two.
fn neither(a: &str, b: &str) -> &'static str {
    let anchors = ["(1 none)", "(2 none)", "(3 none)"];
    let free = anchors
        .into_iter()
        .find(|anchor| *anchor != a && *anchor != b);
    free.expect("two anchors are not three")
}

/// An apply that settles an unsettled current head cold.
fn settle(current: &str, delivered: &str) -> String {
    let skip = if current.ends_with(" none)") {
        "no-hash"
    } else {
        "(rpc 0)"
    };
    format!("(apply {current} {delivered} {current} {skip} 0 0 0)")
}
