//! The counters a driver starts from.

use degenbot_simulation::sim::evm2::head_lifecycle::HeadStats;

/// The counters on a sheet's count line: the eight of `HeadStats`, then epoch.
pub const COUNTERS: usize = 9;

/// Where the counters of a new driver stand.
#[derive(Clone, Copy, Debug, Default, PartialEq, Eq)]
pub struct Start {
    pub stats: HeadStats,
    pub claim_epoch: u64,
}

impl From<[u64; COUNTERS]> for Start {
    /// The counters in the count line's order.
    fn from(counters: [u64; COUNTERS]) -> Self {
        let [delivered, repeated, superseded, settled, already_current, discarded, ready_views, cold_views, claim_epoch] =
            counters;
        Self {
            stats: HeadStats {
                delivered,
                repeated,
                superseded,
                settled,
                already_current,
                discarded,
                ready_views,
                cold_views,
            },
            claim_epoch,
        }
    }
}

impl Start {
    /// Read the nine decimals that follow `--count` on a command line.
    ///
    /// # Errors
    ///
    /// One line that says what is wrong.
    pub fn from_arguments(arguments: &mut impl Iterator<Item = String>) -> Result<Self, String> {
        let mut counters = [0; COUNTERS];
        for counter in &mut counters {
            let word = arguments
                .next()
                .ok_or_else(|| format!("--count needs {COUNTERS} numbers"))?;
            *counter = word
                .parse()
                .map_err(|_| format!("--count: {word:?} is no number from 0 to 2^64 - 1"))?;
        }
        Ok(Self::from(counters))
    }
}

impl From<Start> for [u64; COUNTERS] {
    fn from(start: Start) -> Self {
        let stats = start.stats;
        [
            stats.delivered,
            stats.repeated,
            stats.superseded,
            stats.settled,
            stats.already_current,
            stats.discarded,
            stats.ready_views,
            stats.cold_views,
            start.claim_epoch,
        ]
    }
}

#[cfg(test)]
mod tests {
    use super::*;
    use crate::{Answer, Oracle};

    /// A list of calls that raises each of the nine counters at least once.
    const CALLS: &[&str] = &[
        "(deliver (7 none) $ 0)",
        "(deliver (7 none) $ 0)",
        "(deliver (6 $) $ 0)",
        "(apply (7 none) SEQ (7 none) no-hash 0 0 0)",
        "(claim (6 $) SEQ)",
        "(apply (6 $) SEQ (6 $) none 0 0 0)",
        "(deliver (7 $) $ 0)",
        "(deliver (6 $) $ 0)",
        "(deliver (7 $) $ 0)",
        "(apply (7 $) SEQ (7 $) none 0 0 0)",
        "(snapshot (7 $) 0)",
        "(snapshot (9 none) 0)",
    ];

    fn counters(oracle: &mut Oracle) -> [u64; COUNTERS] {
        let Answer::Stats(stats) = oracle.answer_line(b"(stats)") else {
            panic!("stats answers stats");
        };
        let (_, claim_epoch) = oracle.sequence();
        Start { stats, claim_epoch }.into()
    }

    fn after_calls(start: [u64; COUNTERS]) -> [u64; COUNTERS] {
        let mut oracle = Oracle::new(start.into());
        for call in CALLS {
            let (seq, _) = oracle.sequence();
            let call = call.replace('$', &format!("0x{}", "1".repeat(64)));
            oracle.answer_line(call.replace("SEQ", &seq.to_string()).as_bytes());
        }
        counters(&mut oracle)
    }

    #[test]
    fn a_driver_starts_from_the_given_counters() {
        let start = [1, 2, 3, 4, 5, 6, 7, 8, 9];
        assert_eq!(counters(&mut Oracle::new(start.into())), start);
    }

    #[test]
    fn every_counter_saturates() {
        let raised = after_calls([0; COUNTERS]);
        assert!(raised.iter().all(|counter| *counter > 0), "{raised:?}");
        assert_eq!(after_calls([u64::MAX; COUNTERS]), [u64::MAX; COUNTERS]);
    }
}
