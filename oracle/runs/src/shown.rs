//! A sheet's text taken apart, and sheets spoilt on purpose.

use crate::filter::without_numbers;
use harness::Unshown;
use std::fmt::Write;

/// How a sheet is spoilt before it is compared: the first eight leave something out, the others
/// add what no answer tells.
#[derive(Clone, Copy, Debug, PartialEq, Eq)]
pub enum Spoil {
    Epoch,
    ParentHash,
    End,
    Superseded,
    Previous,
    /// The settle number of the installed generation.
    InstalledNumber,
    /// The settle number of the previous generation.
    PreviousNumber,
    WaiterAnchor,
    /// How many lines were fed.
    Lines,
    /// The superseded anchor as it is stored.
    Stored,
    /// The epoch of the current head's attempt.
    Attempt,
}

impl Spoil {
    const NAMES: [(&'static str, Self); 11] = [
        ("epoch", Self::Epoch),
        ("parent-hash", Self::ParentHash),
        ("end", Self::End),
        ("superseded", Self::Superseded),
        ("previous", Self::Previous),
        ("installed-number", Self::InstalledNumber),
        ("previous-number", Self::PreviousNumber),
        ("waiter-anchor", Self::WaiterAnchor),
        ("lines", Self::Lines),
        ("stored", Self::Stored),
        ("attempt", Self::Attempt),
    ];

    /// The spoiling of that name.
    ///
    /// # Errors
    ///
    /// One line that lists the names.
    pub fn named(name: &str) -> Result<Self, String> {
        let found = Self::NAMES.iter().find(|(known, _)| *known == name);
        found.map(|(_, spoil)| *spoil).ok_or_else(|| {
            let names = Self::NAMES.map(|(name, _)| name).join(", ");
            format!("{name:?} is none of {names}")
        })
    }

    /// Whether something is added, not left out.
    #[must_use]
    pub const fn adds(self) -> bool {
        matches!(self, Self::Lines | Self::Stored | Self::Attempt)
    }

    /// The sheet spoilt. `lines` were fed before it.
    pub(crate) fn spoil(self, sheet: &str, lines: usize, unshown: &Unshown) -> String {
        let mut spoilt = String::new();
        for line in sheet.lines() {
            spoilt.push_str(&self.spoilt_line(line));
            spoilt.push('\n');
        }
        match self {
            Self::Lines => writeln!(spoilt, "(lines {lines})"),
            Self::Stored => writeln!(spoilt, "(stored {:?})", unshown.superseded),
            Self::Attempt => writeln!(spoilt, "(attempt {:?})", unshown.attempt),
            _ => Ok(()),
        }
        .expect("a String takes every write");
        spoilt
    }

    fn spoilt_line(self, line: &str) -> String {
        match self {
            Self::Epoch if line.starts_with("(count ") => before_last(line, " "),
            Self::ParentHash if line.starts_with("(current ") => without_parent_hash(line),
            Self::End if line.starts_with("(current unclaimed ") => before_last(line, " "),
            Self::Superseded if line.starts_with("(superseded ") => String::new(),
            Self::Previous if line.starts_with("(previous ") => String::new(),
            Self::InstalledNumber if line.starts_with("(installed ") => without_number(line),
            Self::PreviousNumber if line.starts_with("(previous ") => without_number(line),
            Self::WaiterAnchor if line.starts_with("(wait ") => before_last(line, " ("),
            _ => line.to_owned(),
        }
    }
}

fn before_last(line: &str, mark: &str) -> String {
    line[..line.rfind(mark).unwrap_or(line.len())].to_owned()
}

/// A generation's line without its settle number.
fn without_number(line: &str) -> String {
    String::from_utf8_lossy(&without_numbers(line.as_bytes())).into_owned()
}

/// The current line without the hash that follows the anchor.
fn without_parent_hash(line: &str) -> String {
    match line.split_once(") ") {
        Some((before, hash_and_rest)) => format!("{before}) {}", first(hash_and_rest).1),
        None => line.to_owned(),
    }
}

/// The parts of a sheet as their texts. An absent part is empty.
#[derive(Default, PartialEq, Eq)]
pub(crate) struct Shown<'a> {
    pub(crate) counters: [&'a str; 8],
    pub(crate) epoch: &'a str,
    /// `unclaimed`, `preparing`, `settled`, or nothing.
    pub(crate) pose: &'a str,
    pub(crate) current: &'a str,
    pub(crate) parent_hash: &'a str,
    /// `open` or `abandoned` of an unclaimed head.
    pub(crate) end: &'a str,
    /// The provisional handle of an unsettled head.
    pub(crate) handle: &'a str,
    /// A settled head's report.
    pub(crate) report: &'a str,
    pub(crate) superseded: &'a str,
    pub(crate) installed: Generation<'a>,
    pub(crate) previous: Generation<'a>,
    /// By number: `parked`, `abandoned` or `ended`, and the anchor.
    pub(crate) waiters: [(&'a str, &'a str); 16],
}

#[derive(Clone, Copy, Default, PartialEq, Eq)]
pub(crate) struct Generation<'a> {
    pub(crate) anchor: &'a str,
    pub(crate) handle: &'a str,
    /// Empty on a sheet without settle numbers.
    pub(crate) number: &'a str,
    pub(crate) readiness: &'a str,
}

impl<'a> Shown<'a> {
    /// What a sheet shows; lines that no sheet has are passed over.
    pub(crate) fn read(sheet: &'a str) -> Self {
        let mut shown = Self::default();
        for line in sheet.lines() {
            let line = line
                .strip_prefix('(')
                .and_then(|line| line.strip_suffix(')'));
            let Some((name, rest)) = line.and_then(|line| line.split_once(' ')) else {
                continue;
            };
            match (name, rest) {
                ("count", counts) => shown.put_counts(counts),
                ("wait", waiter) => shown.put_waiter(waiter),
                (_, "none") => {}
                ("current", head) => shown.put_current(head),
                ("superseded", anchor) => shown.superseded = anchor,
                ("installed", generation) => shown.installed = Generation::read(generation),
                ("previous", generation) => shown.previous = Generation::read(generation),
                _ => {}
            }
        }
        shown
    }

    fn put_counts(&mut self, counts: &'a str) {
        let mut words = counts.split(' ');
        for counter in &mut self.counters {
            *counter = words.next().unwrap_or_default();
        }
        self.epoch = words.next().unwrap_or_default();
    }

    fn put_current(&mut self, head: &'a str) {
        let (pose, head) = first(head);
        let (anchor, head) = split_anchor(head);
        let (parent_hash, rest) = first(head);
        self.pose = pose;
        self.current = anchor;
        self.parent_hash = parent_hash;
        match pose {
            "settled" => self.report = rest,
            _ => (self.handle, self.end) = first(rest),
        }
    }

    fn put_waiter(&mut self, waiter: &'a str) {
        let (number, state) = first(waiter);
        if let Some(slot) = number
            .parse()
            .ok()
            .and_then(|n: usize| self.waiters.get_mut(n))
        {
            *slot = first(state);
        }
    }
}

impl<'a> Generation<'a> {
    fn read(text: &'a str) -> Self {
        let (anchor, rest) = split_anchor(text);
        let (handle, rest) = first(rest);
        let (number, readiness) = match first(rest) {
            (word, readiness) if word.starts_with(|letter: char| letter.is_ascii_digit()) => {
                (word, readiness)
            }
            _ => ("", rest),
        };
        Self {
            anchor,
            handle,
            number,
            readiness,
        }
    }

    /// Without its settle number.
    pub(crate) const fn unnumbered(self) -> Self {
        Self { number: "", ..self }
    }
}

/// The first word and what follows it.
fn first(text: &str) -> (&str, &str) {
    text.split_once(' ').unwrap_or((text, ""))
}

/// The anchor at the front and what follows it.
fn split_anchor(text: &str) -> (&str, &str) {
    let end = text.find(')').map_or(text.len(), |at| at + 1);
    let (anchor, rest) = text.split_at(end);
    (anchor, rest.strip_prefix(' ').unwrap_or(rest))
}

#[cfg(test)]
mod tests {
    use super::*;

    const SHEET: &str = "(count 1 2 3 4 5 6 7 8 9)\n\
        (current unclaimed (7 none) 0x11 50 open)\n\
        (superseded (6 none))\n\
        (installed (5 none) 60 8 (cold no-parent no-hash))\n\
        (previous (4 none) 1 7 ready)\n\
        (wait 3 parked)\n\
        (wait 15 ended (4 none))\n";

    #[test]
    fn a_sheet_is_taken_apart() {
        let shown = Shown::read(SHEET);
        assert_eq!(shown.counters, ["1", "2", "3", "4", "5", "6", "7", "8"]);
        assert_eq!((shown.epoch, shown.pose), ("9", "unclaimed"));
        assert_eq!((shown.current, shown.parent_hash), ("(7 none)", "0x11"));
        assert_eq!((shown.handle, shown.end), ("50", "open"));
        assert_eq!(shown.superseded, "(6 none)");
        assert_eq!(shown.installed.anchor, "(5 none)");
        assert_eq!(
            (shown.installed.handle, shown.installed.number),
            ("60", "8")
        );
        assert_eq!(shown.installed.readiness, "(cold no-parent no-hash)");
        assert_eq!(shown.previous.anchor, "(4 none)");
        assert_eq!(shown.waiters[3], ("parked", ""));
        assert_eq!(shown.waiters[15], ("ended", "(4 none)"));
    }

    #[test]
    fn a_sheet_without_numbers_is_taken_apart() {
        let sheet = String::from_utf8(without_numbers(SHEET.as_bytes())).unwrap();
        let [shown, numbered] = [Shown::read(&sheet), Shown::read(SHEET)];
        assert!(shown.installed == numbered.installed.unnumbered());
        assert!(shown.previous == numbered.previous.unnumbered());
        assert!(Shown::read("(previous none)\n").previous == Generation::default());
    }

    #[test]
    fn each_spoiling_changes_a_sheet() {
        let unshown = Unshown {
            superseded: None,
            attempt: None,
        };
        for (name, spoil) in Spoil::NAMES {
            let spoilt = spoil.spoil(SHEET, 0, &unshown);
            let changed = SHEET.replace("(previous (4 none) 1 7 ready)", "(previous none)");
            let spoilt_change = spoil.spoil(&changed, 0, &unshown);
            assert_ne!(spoilt, SHEET, "{name}");
            assert_eq!(spoilt == spoilt_change, spoil == Spoil::Previous, "{name}");
            assert_eq!(Spoil::named(name), Ok(spoil));
        }
        let spoilt = Spoil::ParentHash.spoil(SHEET, 0, &unshown);
        assert!(
            spoilt.contains("\n(current unclaimed (7 none) 50 open)\n"),
            "{spoilt}"
        );
    }
}
