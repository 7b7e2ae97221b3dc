//! The calls claim, apply and release held against the whole published
//! `advance_with_relevance`, which document 01 takes apart into them.
//!
//! Two oracles get the same random calls. At one place the first makes the three
//! calls, and the second polls one `advance_with_relevance`: through to its end,
//! or dropped in its fetch, with random calls on both sides during that fetch.
//! Every answer and, after every step, the sheets must be equal.

use crate::answer::{Answer, Outcome, Refusal};
use crate::call::{Apply, Call};
use crate::oracle::{poll_once, refusal, scripted_list, Oracle};
use crate::text::Skip;
use alloy::primitives::B256;
use degenbot_simulation::sim::evm2::delta_snapshot::RelevanceSet;
use degenbot_simulation::sim::evm2::head_lifecycle::{probe, HeadOutcome};
use degenbot_simulation::sim::storage_memo::ReadAnchor;
use std::future::Future;
use std::pin::Pin;
use std::sync::Arc;
use std::task::Poll;

const SEEDS: u64 = 20_000;

/// How often each way through `advance_with_relevance` was taken.
#[derive(Debug, Default)]
struct Ways {
    claim_refused: u32,
    no_fetch: u32,
    cancelled: u32,
    settled_cold: u32,
    settled_carried: u32,
    superseded: u32,
    already_settled: u32,
    disturbed: u32,
}

#[test]
fn claim_apply_release_are_the_whole_advance() {
    let mut ways = Ways::default();
    for seed in 0..SEEDS {
        Pair::new(seed).run(&mut ways);
    }
    let taken = [
        ways.claim_refused,
        ways.no_fetch,
        ways.cancelled,
        ways.settled_cold,
        ways.settled_carried,
        ways.superseded,
        ways.already_settled,
        ways.disturbed,
    ];
    assert!(taken.iter().all(|count| *count > 100), "{ways:?}");
}

/// One advance of the published code, started and not yet ended.
type Advance = Pin<Box<dyn Future<Output = HeadOutcome>>>;

struct Pair {
    random: u64,
    by_calls: Oracle,
    by_advance: Oracle,
}

impl Pair {
    fn new(seed: u64) -> Self {
        Self {
            random: seed,
            by_calls: Oracle::default(),
            by_advance: Oracle::default(),
        }
    }

    fn run(mut self, ways: &mut Ways) {
        let before = self.below(25);
        self.make_calls(before);
        if self.below(3) > 0 {
            let deliver = self.deliver();
            self.make_call(deliver);
        }
        let apply = self.admitted_apply();
        let claim = Call::Claim {
            anchor: apply.anchor,
            seq: apply.seq,
        };
        let claimed = self.by_calls.step(claim);
        let mut advance = self.start_advance(&apply);
        match (claimed, poll_once(advance.as_mut())) {
            (Answer::Refused(refused), Poll::Ready(outcome)) => {
                assert_eq!(refused, refusal(&outcome));
                ways.claim_refused += 1;
            }
            (Answer::Claimed(epoch), Poll::Ready(outcome)) => {
                assert_eq!(apply.skip, Skip::NoHash);
                self.finish(&apply, epoch, &outcome, ways);
                ways.no_fetch += 1;
            }
            (Answer::Claimed(epoch), Poll::Pending) => {
                self.end_in_fetch(advance, &apply, epoch, ways);
            }
            (claimed, _) => panic!("the claim alone answered {claimed:?}"),
        }
        self.assert_equal_sheets();
        self.make_calls(10);
    }

    /// Go on from the fetch: calls on both sides, then the drop or the end.
    fn end_in_fetch(&mut self, mut advance: Advance, apply: &Apply, epoch: u64, ways: &mut Ways) {
        self.assert_equal_sheets();
        let during = self.below(6);
        self.make_calls(during);
        ways.disturbed += u32::from(during > 0);
        if self.below(3) == 0 {
            drop(advance);
            self.release(apply.seq, epoch);
            ways.cancelled += 1;
            return;
        }
        let answer = scripted_list(apply.skip).expect("an anchor with a hash is fetched");
        self.by_advance.provider.answer_next_list(answer);
        match poll_once(advance.as_mut()) {
            Poll::Ready(outcome) => self.finish(apply, epoch, &outcome, ways),
            Poll::Pending => panic!("the fetch was answered"),
        }
    }

    /// Make the calls that the finished advance stands for.
    fn finish(&mut self, apply: &Apply, epoch: u64, outcome: &HeadOutcome, ways: &mut Ways) {
        let by_calls = self.by_calls.step(Call::Apply(*apply));
        let by_advance = self.by_advance.applied(outcome, apply);
        assert_eq!(by_calls, by_advance);
        self.release(apply.seq, epoch);
        match by_calls {
            Answer::Settled(Outcome::Carried(_)) => ways.settled_carried += 1,
            Answer::Settled(Outcome::Cold { .. }) => ways.settled_cold += 1,
            Answer::Refused(Refusal::Superseded { .. }) => ways.superseded += 1,
            Answer::Refused(Refusal::AlreadySettled) => ways.already_settled += 1,
            other => panic!("an advance's own list cannot answer {other:?}"),
        }
    }

    fn release(&mut self, seq: u64, epoch: u64) {
        self.by_calls.step(Call::Release { seq, epoch });
    }

    fn start_advance(&self, apply: &Apply) -> Advance {
        let driver = Arc::clone(&self.by_advance.driver);
        let ticket = probe::ticket(apply.anchor, apply.seq);
        Box::pin(async move {
            driver
                .advance_with_relevance(ticket, || Arc::new(RelevanceSet::default()))
                .await
        })
    }

    fn make_calls(&mut self, count: u64) {
        for _ in 0..count {
            let call = self.call();
            self.make_call(call);
        }
    }

    fn make_call(&mut self, call: Call) {
        assert_eq!(self.by_calls.step(call), self.by_advance.step(call));
        self.assert_equal_sheets();
    }

    fn assert_equal_sheets(&mut self) {
        let by_calls = self.by_calls.step(Call::Sheet);
        assert_eq!(by_calls, self.by_advance.step(Call::Sheet));
    }

    /// A number below `limit` (Knuth's linear congruence, its upper bits).
    fn below(&mut self, limit: u64) -> u64 {
        self.random = self
            .random
            .wrapping_mul(6_364_136_223_846_793_005)
            .wrapping_add(1_442_695_040_888_963_407);
        (self.random >> 33) % limit
    }

    fn hash(&mut self) -> B256 {
        B256([self.below(3) as u8; 32])
    }

    fn anchor(&mut self) -> ReadAnchor {
        let hash = self.hash();
        ReadAnchor {
            number: 6 + self.below(3),
            hash: (self.below(4) > 0).then_some(hash),
        }
    }

    /// The current head's anchor, or now and then any.
    fn held_anchor(&mut self) -> ReadAnchor {
        let any = self.anchor();
        let held = self.by_calls.driver.delivered();
        held.filter(|_| self.below(8) > 0).unwrap_or(any)
    }

    fn seq(&mut self) -> u64 {
        let (seq, _) = self.by_calls.sequence();
        seq.saturating_sub(u64::from(self.below(10) == 0))
    }

    /// An apply whose list belongs to its ticket, as an advance prepares it.
    fn admitted_apply(&mut self) -> Apply {
        let anchor = self.held_anchor();
        let number = self.below(3);
        let read = [
            Skip::None,
            Skip::None,
            Skip::Rpc(number),
            Skip::Decode(number),
        ];
        Apply {
            anchor,
            seq: self.seq(),
            list: anchor,
            skip: match anchor.hash {
                None => Skip::NoHash,
                Some(_) => read[self.below(4) as usize],
            },
            handle: self.below(9),
            carried: self.below(9),
            report: self.below(9),
        }
    }

    /// A delivery, every second time of a child of the installed block.
    fn deliver(&mut self) -> Call {
        let mut anchor = self.anchor();
        let mut parent_hash = self.hash();
        if let Some(parent) = self
            .by_calls
            .driver
            .installed()
            .filter(|_| self.below(2) == 0)
        {
            anchor.number = parent.number + 1;
            parent_hash = parent.hash.unwrap_or(parent_hash);
        }
        Call::Deliver {
            anchor,
            parent_hash,
            handle: self.below(9),
        }
    }

    fn call(&mut self) -> Call {
        let anchor = self.held_anchor();
        let handle = self.below(9);
        match self.below(10) {
            0 | 1 => self.deliver(),
            2 => Call::Claim {
                anchor,
                seq: self.seq(),
            },
            3 => Call::Release {
                seq: self.seq(),
                epoch: self.by_calls.sequence().1,
            },
            4 | 5 => Call::Apply(self.admitted_apply()),
            6 => Call::Snapshot { anchor, handle },
            7 => Call::Wait {
                waiter: self.below(2),
                anchor,
                handle,
            },
            8 => Call::Resume {
                waiter: self.below(2),
                handle,
            },
            _ => Call::Completion { anchor },
        }
    }
}
