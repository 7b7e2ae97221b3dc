//! Shrinking: the fewest lines that still show a difference.

use crate::hashes::copy_case;
use crate::script::Script;
use harness::{Call, Oracle, Start};

/// A line, with its ticket's and claim's numbers told from where the driver
/// stands. So they stay right, or wrong by the same amount, when lines before
/// them are left out. Its hashes stay as the line writes them.
#[derive(Clone)]
enum Step {
    Text(Vec<u8>),
    Relative(Call, Vec<u8>),
}

/// Leave out lines of `script` as long as `differs` holds.
///
/// # Errors
///
/// The first error that `differs` gives.
pub fn shrink<E>(
    script: &Script,
    start: Start,
    mut differs: impl FnMut(&Script) -> Result<bool, E>,
) -> Result<Script, E> {
    let ends_in_feed = script.ends_in_feed();
    let mut steps = steps(script, start);
    let mut length = steps.len().div_ceil(2);
    while length > 0 {
        let mut from = 0;
        while from < steps.len() {
            let to = steps.len().min(from + length);
            let kept = [&steps[..from], &steps[to..]].concat();
            if differs(&script_of(&kept, start, ends_in_feed))? {
                steps = kept;
            } else {
                from = to;
            }
        }
        length /= 2;
    }
    let shrunk = script_of(&steps, start, true);
    if ends_in_feed || differs(&shrunk)? {
        Ok(shrunk)
    } else {
        Ok(script_of(&steps, start, false))
    }
}

fn steps(script: &Script, start: Start) -> Vec<Step> {
    let mut oracle = Oracle::new(start);
    let mut steps = Vec::new();
    for line in script.lines() {
        let step = match Call::read(line)
            .and_then(|call| moved(call, oracle.sequence(), u64::wrapping_sub))
        {
            Some(call) => Step::Relative(call, line.to_vec()),
            None => Step::Text(line.to_vec()),
        };
        steps.push(step);
        oracle.answer_line(line);
    }
    steps
}

fn script_of(steps: &[Step], start: Start, ends_in_feed: bool) -> Script {
    let mut oracle = Oracle::new(start);
    let mut script = Script::default();
    let mut line = Vec::new();
    for step in steps {
        line.clear();
        match step {
            Step::Text(text) => line.extend_from_slice(text),
            Step::Relative(call, written) => {
                moved(*call, oracle.sequence(), u64::wrapping_add)
                    .expect("a relative call has numbers to move")
                    .write(&mut line);
                copy_case(&mut line, written);
            }
        }
        oracle.answer_line(&line);
        script.push(&line);
    }
    if !ends_in_feed {
        script.drop_last_feed();
    }
    script
}

/// The call with its delivery number and epoch moved by the driver's own; none
/// if it has neither.
fn moved(call: Call, (now_seq, now_epoch): (u64, u64), by: fn(u64, u64) -> u64) -> Option<Call> {
    match call {
        Call::Claim { anchor, seq } => Some(Call::Claim {
            anchor,
            seq: by(seq, now_seq),
        }),
        Call::Release { seq, epoch } => Some(Call::Release {
            seq: by(seq, now_seq),
            epoch: by(epoch, now_epoch),
        }),
        Call::Apply(mut apply) => {
            apply.seq = by(apply.seq, now_seq);
            Some(Call::Apply(apply))
        }
        _ => None,
    }
}

#[cfg(test)]
mod tests {
    use super::*;
    use crate::generator::{generate, Recipe};
    use crate::hashes::hashes;
    use std::convert::Infallible;

    fn answers(script: &Script, start: Start, wanted: &[u8]) -> bool {
        let answers = script.answers(start);
        let mut lines = answers.text().split(|byte| *byte == b'\n');
        lines.any(|line| line.starts_with(wanted))
    }

    /// The calls of a script of 3,000 lines that a wanted answer needs.
    fn shrunk_to(wanted: &[u8], start: Start) -> Script {
        let recipe = Recipe {
            lines: 3_000,
            start,
            ..Recipe::default()
        };
        let (script, _) = generate(3, &recipe);
        assert!(answers(&script, start, wanted));
        let differs = |script: &Script| Ok::<_, Infallible>(answers(script, start, wanted));
        let Ok(shrunk) = shrink(&script, start, differs);
        shrunk
    }

    #[test]
    fn a_claim_needs_its_delivery_only() {
        assert_eq!(shrunk_to(b"(claimed", Start::default()).len(), 2);
    }

    #[test]
    fn a_carried_settle_needs_two_deliveries_and_two_applies() {
        assert_eq!(shrunk_to(b"(settled (carried", Start::default()).len(), 4);
    }

    /// A difference in how a program reads capitals is still there on the fewest lines.
    #[test]
    fn hashes_stay_as_they_were_written() {
        let (script, _) = generate(4, &Recipe::default());
        let capital = |line: &[u8]| {
            let claim = line.starts_with(b"(claim ");
            claim
                && hashes(line)
                    .into_iter()
                    .any(|hash| line[hash].contains(&b'F'))
        };
        let differs = |script: &Script| {
            let claimed = answers(script, Start::default(), b"(claimed");
            Ok::<_, Infallible>(claimed && script.lines().any(capital))
        };
        assert_eq!(differs(&script), Ok(true));
        let Ok(shrunk) = shrink(&script, Start::default(), differs);
        assert_eq!(differs(&shrunk), Ok(true));
        assert!(shrunk.len() <= 3, "{}", shrunk.len());
    }

    #[test]
    fn numbers_follow_from_any_start() {
        let start = Start::from([1_000; 9]);
        assert_eq!(shrunk_to(b"(claimed", start).len(), 2);
    }
}
