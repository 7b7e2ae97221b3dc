//! Short histories of a driver over few anchors and numbers, so that many of
//! them lead to the same sheet.

use crate::filter::with_numbers;
use crate::hashes::vary_case;
use crate::random::Random;
use crate::script::Script;
use harness::{Answer, Apply, Call, Oracle, Outcome, ReadAnchor, Skip, Unshown, B256};

/// A list of calls from a new driver, with where the published code stands after
/// it.
#[derive(Clone)]
pub(crate) struct History {
    pub(crate) script: Script,
    pub(crate) sheet: String,
    pub(crate) unshown: Unshown,
    /// The settle numbers of the installed and the previous generation.
    settle_numbers: [Option<u64>; 2],
}

impl History {
    /// The history with settle numbers on its sheet.
    pub(crate) fn with_numbers(self) -> Self {
        Self {
            sheet: with_numbers(&self.sheet, self.settle_numbers),
            ..self
        }
    }
}

/// The hashes of the histories' anchors.
pub(crate) const HASHES: [B256; 4] = [
    B256([0; 32]),
    B256([0x1a; 32]),
    B256([0x2b; 32]),
    B256([0x3c; 32]),
];

/// Each block may be the child of the one before.
pub(crate) const ANCHORS: [ReadAnchor; 4] = [
    anchor(7, Some(HASHES[1])),
    anchor(8, Some(HASHES[2])),
    anchor(8, None),
    anchor(9, Some(HASHES[3])),
];

/// The parent hash by which each of them may be linked, and another.
const PARENT_HASHES: [[B256; 2]; 4] = [
    [HASHES[1], HASHES[2]],
    [HASHES[1], HASHES[2]],
    [HASHES[1], HASHES[2]],
    [HASHES[2], HASHES[1]],
];

/// The waiters that wait.
pub(crate) const WAITERS: [u64; 3] = [0, 1, 15];

const fn anchor(number: u64, hash: Option<B256>) -> ReadAnchor {
    ReadAnchor { number, hash }
}

/// Calls of a history, at least and at most.
const CALLS: (usize, usize) = (3, 12);

/// What the numbers for the case of hash digits begin with.
const CASE: u64 = 0x6361_7365;

/// The history of a number: the same number gives the same history.
pub(crate) fn history(number: u64) -> History {
    let mut random = Random::new(number);
    let mut case = Random::new(number ^ CASE);
    let (least, most) = CALLS;
    let calls = least + random.below(most - least + 1);
    let mut oracle = Oracle::default();
    let mut script = Script::default();
    let mut current = ANCHORS[0];
    let mut numbers = [None; 2];
    let mut line = Vec::new();
    for _ in 0..calls {
        let call = call(&mut random, oracle.sequence(), current);
        if let Call::Deliver { anchor, .. } = call {
            current = anchor;
        }
        let answer = oracle.step(call);
        numbers = numbers_after(numbers, &call, &answer);
        line.clear();
        call.write(&mut line);
        vary_case(&mut line, &mut case);
        script.push(&line);
    }
    let mut sheet = Vec::new();
    oracle.step(Call::Sheet).write(&mut sheet);
    History {
        script,
        sheet: String::from_utf8(sheet).expect("a sheet is text"),
        unshown: oracle.unshown(),
        settle_numbers: numbers,
    }
}

/// The settle numbers after a call. The published code keeps none, but an apply that it settled
/// named the delivery under which it did.
fn numbers_after(numbers: [Option<u64>; 2], call: &Call, answer: &Answer) -> [Option<u64>; 2] {
    let [installed, _] = numbers;
    match (call, answer) {
        (Call::Apply(apply), Answer::Settled(Outcome::Carried(_))) => [Some(apply.seq), installed],
        (Call::Apply(apply), Answer::Settled(_)) => [Some(apply.seq), None],
        _ => numbers,
    }
}

fn call(random: &mut Random, (seq, epoch): (u64, u64), current: ReadAnchor) -> Call {
    match random.below(20) {
        0..6 => {
            let place = random.below(ANCHORS.len());
            let [linked, other] = PARENT_HASHES[place];
            Call::Deliver {
                anchor: ANCHORS[place],
                parent_hash: random.pick(&[linked, linked, linked, other]),
                handle: random.pick(&[50, 50, 50, 51]),
            }
        }
        6..10 => Call::Claim {
            anchor: current,
            seq,
        },
        10..12 => Call::Release { seq, epoch },
        12..16 => Call::Apply(Apply {
            anchor: current,
            seq,
            list: current,
            skip: match current.hash {
                None => Skip::NoHash,
                Some(_) => random.pick(&[Skip::None, Skip::None, Skip::Rpc(4)]),
            },
            handle: random.pick(&[60, 60, 60, 61]),
            carried: 5,
            report: 90,
        }),
        16 => Call::Snapshot {
            anchor: random.pick(&ANCHORS),
            handle: 70,
        },
        17 | 18 => Call::Wait {
            waiter: random.pick(&WAITERS),
            anchor: current,
            handle: 80,
        },
        _ => Call::Resume {
            waiter: random.pick(&WAITERS),
            handle: 81,
        },
    }
}

#[cfg(test)]
mod tests {
    use super::*;
    use crate::cases::cases;

    /// Every sheet of the cases, as the published code writes it with settle numbers put in.
    #[test]
    fn sheets_get_the_numbers_of_the_cases() {
        let mut sheets = 0;
        for case in cases() {
            let mut oracle = Oracle::default();
            let mut numbers = [None; 2];
            for line in case.input.lines() {
                // A line that is no call answers so and changes nothing.
                let Some(call) = Call::read(line.as_bytes()) else {
                    continue;
                };
                let answer = oracle.step(call);
                numbers = numbers_after(numbers, &call, &answer);
                if call == Call::Sheet {
                    let mut sheet = Vec::new();
                    answer.write(&mut sheet);
                    let sheet = with_numbers(&String::from_utf8_lossy(&sheet), numbers);
                    assert!(case.output.contains(&sheet), "{}: {sheet}", case.name);
                    sheets += 1;
                }
            }
        }
        assert!(sheets > 10, "{sheets}");
    }
}
