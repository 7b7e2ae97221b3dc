//! A driver put back from its sheet.

use crate::fault::Fault;
use crate::read::{Place, Reader};
use crate::rules::broken;
use crate::state::{End, Head, Model, Pose, Shown, ShownHead, Stage, Waiter, DELIVERED};

/// No sheet is longer.
pub const LONGEST_SHEET: usize = 4_096;

/// Why bytes are not taken.
#[derive(Clone, Copy, Debug, PartialEq, Eq, PartialOrd, Ord)]
pub enum NotTaken {
    /// They are not in sheet form.
    Form,
    /// They break a rule of Job 2, the first that they break.
    Rule(&'static str),
}

impl Model {
    /// The driver that writes the sheet.
    ///
    /// # Errors
    ///
    /// Why the bytes are not taken.
    pub fn from_sheet(bytes: &[u8], fault: Option<Fault>) -> Result<Self, NotTaken> {
        if bytes.len() > LONGEST_SHEET {
            return Err(NotTaken::Form);
        }
        let place = Place::Sheet;
        let shown = Reader { fault, place }.sheet(bytes);
        let shown = shown.ok_or(NotTaken::Form)?;
        match broken(&shown, fault) {
            Some(rule) => Err(NotTaken::Rule(rule)),
            None => Ok(Self::from_shown(&shown, fault)),
        }
    }

    /// The driver that shows this. Seq equals delivered, the current head came with the last
    /// delivery, and the claim of a preparing head is the last one.
    fn from_shown(shown: &Shown, fault: Option<Fault>) -> Self {
        let counters = shown.counters;
        let mut model = Self {
            counters,
            epoch: shown.epoch,
            current: shown
                .current
                .map(|head| rebuilt(head, counters[DELIVERED], shown.epoch)),
            superseded: shown.superseded,
            installed: shown.installed,
            previous: shown.previous,
            waiters: shown.waiters,
            seq: counters[DELIVERED],
            fault,
        };
        model.spoil();
        model
    }

    /// What the planted faults do to a driver put back.
    fn spoil(&mut self) {
        if self.has(Fault::EpochInvented) {
            self.epoch = self.epoch.saturating_add(1);
        }
        if self.has(Fault::SupersededLost) {
            self.superseded = None;
        }
        if self.has(Fault::ParkedLost) {
            if let Some(head) = &self.current {
                let ended = Waiter::Ended(head.anchor);
                let parked = |waiter: &&mut Waiter| **waiter == Waiter::Parked;
                let waiters = self.waiters.iter_mut();
                waiters.filter(parked).for_each(|waiter| *waiter = ended);
            }
        }
        if self.has(Fault::NumberLost) {
            if let Some(installed) = &mut self.installed {
                installed.number = self.seq;
            }
        }
        let claim_lost = self.has(Fault::ClaimEpochLost);
        let ticket_lost = self.has(Fault::TicketLost);
        let abandonment_lost = self.has(Fault::AbandonmentLost);
        let report_lost = self.has(Fault::ReportLost);
        let Some(head) = &mut self.current else {
            return;
        };
        if claim_lost {
            head.epoch = 0;
        }
        if ticket_lost {
            head.seq = 0;
        }
        if abandonment_lost && head.end == End::Abandoned {
            head.end = End::Open;
        }
        if report_lost {
            head.report = None;
        }
    }
}

/// The current head of a driver put back. No answer tells the handle of a settled head, nor the
/// epoch of a claim that is over.
fn rebuilt(shown: ShownHead, seq: u64, epoch: u64) -> Head {
    let (pose, handle, end, report) = match shown.stage {
        Stage::Unclaimed { handle, abandoned } => {
            let end = if abandoned { End::Abandoned } else { End::Open };
            (Pose::Unclaimed, handle, end, None)
        }
        Stage::Preparing { handle } => (Pose::Preparing, handle, End::Open, None),
        Stage::Settled { report } => (Pose::Settled, 0, End::Settled, report),
    };
    Head {
        anchor: shown.anchor,
        parent: shown.parent,
        pose,
        handle,
        end,
        report,
        seq,
        epoch,
    }
}

#[cfg(test)]
mod tests {
    use super::*;
    use crate::driver::Driver;

    /// Document 01's run up to its claim, with a waiter parked.
    fn preparing() -> String {
        let zeros = format!("0x{}", "0".repeat(64));
        format!(
            "(count 1 0 0 0 0 0 0 1 1)\n\
             (current preparing (7 none) {zeros} 50)\n\
             (superseded none)\n\
             (installed none)\n\
             (previous none)\n\
             (wait 0 parked)\n"
        )
    }

    fn answers(sheet: &str, lines: &str) -> String {
        let taken = Driver::from_sheet(sheet.as_bytes(), None).ok();
        let mut driver = taken.expect("the sheet is taken");
        let mut answers = Vec::new();
        let answered = driver.answer_lines(lines.as_bytes(), &mut answers);
        answered.expect("a Vec takes every write");
        String::from_utf8(answers).expect("answers are text")
    }

    #[test]
    fn the_same_sheet_is_written() {
        assert_eq!(answers(&preparing(), "(sheet)\n"), preparing());
    }

    #[test]
    fn the_run_goes_on() {
        let lines = "(release 1 1)\n\
            (resume 0 53)\n\
            (apply (7 none) 1 (7 none) no-hash 60 0 90)\n\
            (stats)\n";
        let expected = "(done)\n\
            (view provisional 50 abandoned)\n\
            (settled (cold no-parent no-hash))\n\
            (stats 1 0 0 1 0 0 0 2)\n";
        assert_eq!(answers(&preparing(), lines), expected);
    }

    /// A sheet in which every anchor has a hash with a letter.
    fn with_hashes(hash: &str) -> String {
        format!(
            "(count 2 0 0 2 0 0 0 0 1)\n\
             (current settled (8 {hash}) {hash} ((carried 5) 91))\n\
             (superseded (6 {hash}))\n\
             (installed (8 {hash}) 61 2 ready)\n\
             (previous (7 {hash}) 60 1 (cold no-parent none))\n\
             (wait 0 abandoned (7 {hash}))\n\
             (wait 15 ended (7 {hash}))\n"
        )
    }

    #[test]
    fn hashes_stand_with_0x_in_lowercase() {
        let digits = "0123456789abcdef".repeat(4);
        let hash = format!("0x{digits}");
        let sheet = with_hashes(&hash);
        assert_eq!(answers(&sheet, "(sheet)\n"), sheet);
        let places = sheet.match_indices(&hash).count();
        assert_eq!(places, 7);
        let mut capital = hash.clone();
        capital[65..].make_ascii_uppercase();
        for other in [
            capital,
            digits.clone(),
            format!("0X{digits}"),
            format!("0x{}", &digits[1..]),
            format!("0x{digits}0"),
        ] {
            for place in 0..places {
                let parts: Vec<_> = sheet.splitn(place + 2, &hash).collect();
                let damaged = format!("{}{other}{}", parts[..=place].join(&hash), parts[place + 1]);
                let taken = Model::from_sheet(damaged.as_bytes(), None);
                assert_eq!(taken.err(), Some(NotTaken::Form), "{damaged}");
            }
        }
    }

    #[test]
    fn a_line_may_write_a_hash_in_capitals() {
        let hash = format!("0x{}", "0123456789abcdef".repeat(4));
        let capital = format!("0x{}", "0123456789ABCDEF".repeat(4));
        let sheet = with_hashes(&hash);
        let lines = format!("(snapshot (8 {capital}) 1)\n(completion (8 {capital}))\n(heads)\n");
        let expected = format!(
            "(view installed 61 2 ready)\n\
             (completion settled)\n\
             (heads (8 {hash}) (8 {hash}) (7 {hash}))\n"
        );
        assert_eq!(answers(&sheet, &lines), expected);
    }

    #[test]
    fn no_beginning_of_it_is_taken() {
        let sheet = preparing();
        // Without its last line it is a sheet again.
        let whole = sheet.len() - "(wait 0 parked)\n".len();
        for length in (0..sheet.len()).filter(|length| *length != whole) {
            let taken = Model::from_sheet(&sheet.as_bytes()[..length], None);
            assert_eq!(taken.err(), Some(NotTaken::Form), "{length}");
        }
        assert!(Model::from_sheet(&sheet.as_bytes()[..whole], None).is_ok());
    }

    #[test]
    fn nothing_above_the_longest_is_taken() {
        let long = "(".repeat(LONGEST_SHEET + 1);
        let taken = Model::from_sheet(long.as_bytes(), None);
        assert_eq!(taken.err(), Some(NotTaken::Form));
        let taken = Model::from_sheet(&long.as_bytes()[1..], None);
        assert_eq!(taken.err(), Some(NotTaken::Form));
    }
}
