//! Random scripts that reach deep states.
//!
//! The generator sees the published code's answers, so it knows the current
//! ticket and epoch and which anchors are installed; it aims most calls at them
//! and the rest beside them.

use crate::hashes::vary_case;
use crate::malformed::spoil;
use crate::random::Random;
use crate::script::{Script, Transcript};
use harness::{Answer, Apply, Call, Oracle, Outcome, ReadAnchor, Skip, Start, B256, WAITERS};
use model::{Anchor, Hash, Model, Shown, Stage, Waiter};

/// What a script is made from.
#[derive(Clone, Copy, Debug)]
pub struct Recipe {
    pub lines: usize,
    /// Malformed lines in a thousand.
    pub malformed: usize,
    pub start: Start,
}

impl Default for Recipe {
    fn default() -> Self {
        Self {
            lines: 20_000,
            malformed: 50,
            start: Start::default(),
        }
    }
}

/// The script of a seed with its answers.
#[must_use]
pub fn generate(seed: u64, recipe: &Recipe) -> (Script, Transcript) {
    let mut generator = Generator::new(seed, recipe.start);
    let mut oracle = Oracle::new(recipe.start);
    let mut script = Script::default();
    let mut transcript = Transcript::default();
    let mut line = Vec::new();
    for _ in 0..recipe.lines {
        let call = generator.call();
        generator.write(call, &mut line);
        if generator.random.below(1000) < recipe.malformed {
            spoil(&mut line, &mut generator.random);
        }
        let answer = oracle.answer_line(&line);
        // A spoilt line may be a call after all, so the line itself is asked.
        if let Some(call) = Call::read(&line) {
            generator.observe(call, &answer);
        }
        script.push(&line);
        transcript.push(&answer);
    }
    if generator.random.chance(50) {
        script.drop_last_feed();
    }
    (script, transcript)
}

/// Calls that go on from where `lines` lead, aimed at it, with no sheet among
/// them. New anchors have these hashes and lie near those of the lines.
pub(crate) fn further(lines: &Script, hashes: [B256; 7], seed: u64, calls: usize) -> Script {
    let mut generator = Generator::new(seed, Start::default());
    let mut oracle = Oracle::default();
    for line in lines.lines() {
        let answer = oracle.answer_line(line);
        if let Some(call) = Call::read(line) {
            generator.observe(call, &answer);
        }
    }
    let current = generator.current.map_or(0, |(anchor, _)| anchor.number);
    generator.lowest = current.wrapping_sub(1);
    generator.hashes = hashes;
    let mut script = Script::default();
    let mut line = Vec::new();
    while script.len() < calls {
        let call = generator.call();
        if call == Call::Sheet {
            continue;
        }
        generator.write(call, &mut line);
        let answer = oracle.step(call);
        generator.observe(call, &answer);
        script.push(&line);
    }
    script
}

/// Lines aimed at where a driver stands, one at a time. A few are malformed.
pub(crate) struct Aimed(Generator);

/// Malformed lines in a thousand of these.
const AIMED_MALFORMED: usize = 30;

impl Aimed {
    pub(crate) fn new(seed: u64) -> Self {
        Self(Generator::new(seed, Start::default()))
    }

    /// A line for a driver that stands where the model does.
    pub(crate) fn line(&mut self, model: &Model) -> Vec<u8> {
        self.0.stand_at(&model.shown());
        let mut line = Vec::new();
        let call = self.0.call();
        self.0.write(call, &mut line);
        if self.0.random.below(1000) < AIMED_MALFORMED {
            spoil(&mut line, &mut self.0.random);
        }
        line
    }
}

fn anchor_of(anchor: Anchor) -> ReadAnchor {
    ReadAnchor {
        number: anchor.number,
        hash: anchor.hash.map(hash_of),
    }
}

/// The hash of these 64 digits.
fn hash_of(digits: Hash) -> B256 {
    let digit = |byte: u8| match byte {
        b'a'..=b'f' => byte - b'a' + 10,
        _ => byte - b'0',
    };
    let mut hash = B256::default();
    for (byte, pair) in hash.0.iter_mut().zip(digits.chunks(2)) {
        *byte = digit(pair[0]) << 4 | digit(pair[1]);
    }
    hash
}

/// How often a call is made at each [`Pose`], in parts of the sum, and its maker.
type Weighted = ([usize; 3], fn(&mut Generator) -> Call);

const WEIGHTS: [Weighted; 13] = [
    ([40, 10, 8], Generator::deliver),
    ([4, 22, 6], Generator::claim),
    ([3, 5, 16], Generator::release),
    ([5, 18, 16], Generator::apply),
    ([12, 10, 8], Generator::snapshot),
    ([7, 7, 20], Generator::wait),
    ([9, 7, 9], Generator::resume),
    ([3, 3, 3], Generator::completion),
    ([3, 3, 3], Generator::link),
    ([3, 1, 1], |_| Call::Report),
    ([1, 1, 1], |_| Call::Stats),
    ([1, 1, 1], |_| Call::Heads),
    ([6, 6, 6], |_| Call::Sheet),
];

/// Where the current head stands, as the generator knows it from the answers.
#[derive(Clone, Copy)]
enum Pose {
    /// Or absent.
    Settled,
    Unclaimed,
    Preparing,
}

/// Lines between two changes of the neighbourhood, on average.
const STAY: usize = 100;

/// What the numbers for the case of hash digits begin with, so that they are others than those for
/// the calls.
const CASE: u64 = 0x6361_7365;

struct Generator {
    random: Random,
    /// For the case of the digits of hashes.
    case: Random,
    /// Few hashes, some of which differ in one bit only.
    hashes: [B256; 7],
    /// The lowest of the four block numbers in use; they wrap after 2^64 - 1.
    lowest: u64,
    seq: u64,
    epoch: u64,
    current: Option<(ReadAnchor, B256)>,
    replaced: Option<ReadAnchor>,
    installed: Option<ReadAnchor>,
    previous: Option<ReadAnchor>,
    pose: Pose,
    /// The waiters that are not free.
    taken: [bool; WAITERS],
}

impl Generator {
    fn new(seed: u64, start: Start) -> Self {
        let mut random = Random::new(seed);
        let hashes = hashes(&mut random);
        let mut generator = Self {
            random,
            case: Random::new(seed ^ CASE),
            hashes,
            lowest: 0,
            seq: start.stats.delivered,
            epoch: start.claim_epoch,
            current: None,
            replaced: None,
            installed: None,
            previous: None,
            pose: Pose::Settled,
            taken: [false; WAITERS],
        };
        generator.move_on();
        generator
    }

    /// Learn from what a sheet shows what the next calls aim at.
    fn stand_at(&mut self, shown: &Shown) {
        self.seq = shown.counters[0];
        self.epoch = shown.epoch;
        let current = shown.current;
        self.current = current.map(|head| (anchor_of(head.anchor), hash_of(head.parent)));
        let waiting = shown.waiters.iter().find_map(|waiter| match waiter {
            Waiter::Abandoned(anchor) | Waiter::Ended(anchor) => Some(*anchor),
            Waiter::Free | Waiter::Parked => None,
        });
        self.replaced = shown.superseded.or(waiting).map(anchor_of);
        self.installed = shown.installed.map(|held| anchor_of(held.anchor));
        self.previous = shown.previous.map(|held| anchor_of(held.anchor));
        self.pose = match current.map(|head| head.stage) {
            None | Some(Stage::Settled { .. }) => Pose::Settled,
            Some(Stage::Unclaimed { .. }) => Pose::Unclaimed,
            Some(Stage::Preparing { .. }) => Pose::Preparing,
        };
        self.taken = shown.waiters.map(|waiter| waiter != Waiter::Free);
    }

    fn call(&mut self) -> Call {
        if self.random.below(STAY) == 0 {
            self.move_on();
        }
        let pose = self.pose as usize;
        let sum = WEIGHTS.iter().map(|(weights, _)| weights[pose]).sum();
        let mut at = self.random.below(sum);
        for (weights, make) in WEIGHTS {
            if at < weights[pose] {
                return make(self);
            }
            at -= weights[pose];
        }
        unreachable!("a number below the sum falls on one of the weights")
    }

    /// Write the call's line, the digits of its hashes in random case.
    fn write(&mut self, call: Call, line: &mut Vec<u8>) {
        line.clear();
        call.write(line);
        vary_case(line, &mut self.case);
    }

    /// Learn from the answer what the next calls aim at.
    fn observe(&mut self, call: Call, answer: &Answer) {
        match (call, answer) {
            (
                Call::Deliver {
                    anchor,
                    parent_hash,
                    ..
                },
                Answer::Ticket(seq),
            ) => {
                self.observe_ticket(anchor, parent_hash, *seq);
            }
            (Call::Claim { .. }, Answer::Claimed(epoch)) => {
                self.epoch = *epoch;
                self.pose = Pose::Preparing;
            }
            (Call::Release { seq, epoch }, Answer::Done)
                if matches!(self.pose, Pose::Preparing)
                    && (seq, epoch) == (self.seq, self.epoch) =>
            {
                self.pose = Pose::Unclaimed;
            }
            (Call::Apply(apply), Answer::Settled(outcome)) => {
                let carried = matches!(outcome, Outcome::Carried(_));
                self.previous = self.installed.filter(|_| carried);
                self.installed = Some(apply.anchor);
                self.pose = Pose::Settled;
            }
            (Call::Wait { waiter, .. }, Answer::Parked) => self.taken[waiter as usize] = true,
            (Call::Resume { waiter, .. }, Answer::View(_)) => self.taken[waiter as usize] = false,
            _ => {}
        }
    }

    fn observe_ticket(&mut self, anchor: ReadAnchor, parent_hash: B256, seq: u64) {
        if self.current == Some((anchor, parent_hash)) {
            return;
        }
        self.replaced = self.current.map(|(anchor, _)| anchor);
        self.current = Some((anchor, parent_hash));
        self.seq = seq;
        self.pose = if self.installed == Some(anchor) {
            Pose::Settled
        } else {
            Pose::Unclaimed
        };
    }

    /// Go to another neighbourhood of block numbers.
    fn move_on(&mut self) {
        let near = self.current.map_or(0, |(anchor, _)| anchor.number);
        let far = self.random.number();
        self.lowest = self.random.pick(&[
            0,
            u64::MAX - 1,
            u64::MAX - 3,
            near.wrapping_sub(1),
            near,
            far % 100,
            far,
        ]);
    }

    fn hash(&mut self) -> B256 {
        self.random.pick(&self.hashes)
    }

    fn optional_hash(&mut self) -> Option<B256> {
        let hash = self.hash();
        self.random.chance(80).then_some(hash)
    }

    fn new_anchor(&mut self) -> ReadAnchor {
        ReadAnchor {
            number: self.lowest.wrapping_add(self.random.number() % 4),
            hash: self.optional_hash(),
        }
    }

    /// An anchor that the driver holds somewhere, or one from the neighbourhood.
    fn anchor(&mut self) -> ReadAnchor {
        let current = self.current.map(|(anchor, _)| anchor);
        let held = [current, self.installed, self.previous, self.replaced, None];
        match self.random.pick(&held) {
            Some(anchor) => anchor,
            None => self.new_anchor(),
        }
    }

    /// The current anchor, `percent` times in a hundred.
    fn current_anchor(&mut self, percent: usize) -> ReadAnchor {
        match self.current {
            Some((anchor, _)) if self.random.chance(percent) => anchor,
            _ => self.anchor(),
        }
    }

    /// A host's number: few, so that they are often equal, and both ends.
    fn host_number(&mut self) -> u64 {
        let any = self.random.number();
        self.random
            .pick(&[0, 1, 2, 3, 50, u64::MAX, u64::MAX - 1, any])
    }

    /// `expected`, or now and then a number that is near it or at an end.
    fn near(&mut self, expected: u64, percent: usize) -> u64 {
        if self.random.chance(percent) {
            return expected;
        }
        let other = [
            expected.wrapping_sub(1),
            expected.wrapping_add(1),
            0,
            1,
            u64::MAX,
            self.seq,
            self.epoch,
        ];
        self.random.pick(&other)
    }

    fn deliver(&mut self) -> Call {
        let (anchor, parent_hash) = self.head();
        Call::Deliver {
            anchor,
            parent_hash,
            handle: self.host_number(),
        }
    }

    /// The anchor and parent hash of a delivery.
    fn head(&mut self) -> (ReadAnchor, B256) {
        let hash = self.hash();
        match (self.random.below(100), self.current, self.installed) {
            (0..10, Some(repeated), _) => repeated,
            (10..15, Some((anchor, _)), _) => (anchor, hash),
            (15..65, _, Some(parent)) => self.child(parent),
            (65..72, Some((anchor, _)), _) => {
                let sibling = ReadAnchor {
                    hash: self.optional_hash(),
                    ..anchor
                };
                (sibling, hash)
            }
            (72..84, ..) => (self.anchor(), hash),
            _ => (self.new_anchor(), hash),
        }
    }

    /// A head above `parent` that names its hash.
    fn child(&mut self, parent: ReadAnchor) -> (ReadAnchor, B256) {
        let anchor = ReadAnchor {
            number: parent.number.wrapping_add(1),
            hash: self.optional_hash(),
        };
        (anchor, parent.hash.unwrap_or_else(|| self.hash()))
    }

    fn claim(&mut self) -> Call {
        Call::Claim {
            anchor: self.current_anchor(92),
            seq: self.near(self.seq, 88),
        }
    }

    fn release(&mut self) -> Call {
        Call::Release {
            seq: self.near(self.seq, 88),
            epoch: self.near(self.epoch, 80),
        }
    }

    fn apply(&mut self) -> Call {
        let anchor = self.current_anchor(93);
        let list = if self.random.chance(92) {
            anchor
        } else {
            self.anchor()
        };
        Call::Apply(Apply {
            anchor,
            seq: self.near(self.seq, 90),
            list,
            skip: self.skip(list),
            handle: self.host_number(),
            carried: self.host_number(),
            report: self.host_number(),
        })
    }

    /// A skip that mostly agrees with the list's anchor on `no-hash`.
    fn skip(&mut self, list: ReadAnchor) -> Skip {
        let number = self.host_number();
        let read = [
            Skip::None,
            Skip::None,
            Skip::None,
            Skip::Rpc(number),
            Skip::Decode(number),
        ];
        if list.hash.is_none() == self.random.chance(96) {
            Skip::NoHash
        } else {
            self.random.pick(&read)
        }
    }

    fn snapshot(&mut self) -> Call {
        Call::Snapshot {
            anchor: self.anchor(),
            handle: self.host_number(),
        }
    }

    fn wait(&mut self) -> Call {
        Call::Wait {
            waiter: self.waiter(false),
            anchor: self.current_anchor(80),
            handle: self.host_number(),
        }
    }

    fn resume(&mut self) -> Call {
        Call::Resume {
            waiter: self.waiter(true),
            handle: self.host_number(),
        }
    }

    /// A waiter's number, mostly of one that is taken, or free, as asked.
    fn waiter(&mut self, taken: bool) -> u64 {
        let numbered = (0..).zip(self.taken);
        let asked: Vec<u64> = numbered
            .filter(|(_, is_taken)| *is_taken == taken)
            .map(|(number, _)| number)
            .collect();
        match self.random.below(20) {
            0..16 if !asked.is_empty() => self.random.pick(&asked),
            0..19 => self.random.number() % WAITERS as u64,
            _ => self.random.pick(&[14, 15, 16, 17, 255, 256, u64::MAX]),
        }
    }

    fn completion(&mut self) -> Call {
        Call::Completion {
            anchor: self.current_anchor(60),
        }
    }

    fn link(&mut self) -> Call {
        let parent = self.anchor();
        let (child, parent_hash) = if self.random.chance(60) {
            self.child(parent)
        } else {
            (self.anchor(), self.hash())
        };
        Call::Link {
            parent: self.random.chance(85).then_some(parent),
            child,
            parent_hash,
        }
    }
}

/// All zeros, two unlike hashes, and four that differ from the first of these in
/// one bit, each in another 64-bit word.
fn hashes(random: &mut Random) -> [B256; 7] {
    let mut first = B256::default();
    let mut second = B256::default();
    for byte in first.0.iter_mut().chain(&mut second.0) {
        *byte = random.number() as u8;
    }
    let [a, b, c, d] = [0, 1, 2, 3].map(|word| {
        let mut alike = first;
        alike.0[8 * word + random.below(8)] ^= 1 << random.below(8);
        alike
    });
    [B256::default(), first, second, a, b, c, d]
}

#[cfg(test)]
mod tests {
    use super::*;
    use crate::hashes::hashes;
    use crate::malformed::words;
    use crate::tally::Tally;

    const SHORT: usize = 5_000;

    fn recipe(malformed: usize) -> Recipe {
        Recipe {
            lines: SHORT,
            malformed,
            ..Recipe::default()
        }
    }

    #[test]
    fn the_same_seed_makes_the_same_script() {
        let (first, _) = generate(7, &recipe(50));
        assert_eq!(first, generate(7, &recipe(50)).0);
        assert_ne!(first, generate(8, &recipe(50)).0);
    }

    #[test]
    fn every_kind_of_answer_is_reached() {
        let mut tally = Tally::default();
        for seed in 0..10 {
            tally.add(generate(seed, &recipe(50)).1.tally());
        }
        assert_eq!(tally.kinds(), Tally::KINDS, "{tally}");
    }

    #[test]
    fn malformed_lines_come_at_the_rate_given() {
        let (script, answers) = generate(1, &recipe(0));
        assert_eq!(script.len(), SHORT);
        assert_eq!(answers.tally().of("refused 1"), 0);
        let (_, answers) = generate(1, &recipe(1000));
        assert!(answers.tally().of("refused 1") > SHORT as u64 * 9 / 10);
    }

    #[test]
    fn malformed_lines_are_of_every_sort() {
        let mut text = Vec::new();
        for seed in 0..10 {
            text.extend_from_slice(generate(seed, &recipe(200)).0.text());
        }
        let lines: Vec<_> = text.split(|byte| *byte == b'\n').collect();
        let some = |fits: fn(&[u8]) -> bool| lines.iter().any(|line| fits(line));
        assert!(some(<[u8]>::is_empty));
        assert!(some(|line| line.len() == 512));
        assert!(some(|line| line.len() == 513));
        assert!(some(|line| line.len() > 1000));
        assert!(some(|line| line.windows(2).any(|pair| pair == b"  ")));
        assert!(some(|line| line.ends_with(b" 00)")));
        for byte in [b'\r', b'\t', 0, 0xff, b'A'] {
            assert!(text.contains(&byte), "{byte}");
        }
    }

    /// The writings beside a hash that are none, and words with a capital.
    #[test]
    fn malformed_hashes_and_words_are_of_every_sort() {
        let mut text = Vec::new();
        for seed in 0..20 {
            text.extend_from_slice(generate(seed, &recipe(500)).0.text());
        }
        let words: Vec<_> = words(&text)
            .into_iter()
            .map(|word| text[word].to_vec())
            .collect();
        let some = |fits: &dyn Fn(&[u8]) -> bool| words.iter().any(|word| fits(word));
        let digits = |word: &[u8], begin: &[u8], count: usize| {
            let digits = word.strip_prefix(begin);
            let hexadecimal = |digits: &[u8]| digits.iter().all(u8::is_ascii_hexdigit);
            digits.is_some_and(|digits| digits.len() == count && hexadecimal(digits))
        };
        assert!(some(&|word| digits(word, b"", 64)));
        assert!(some(&|word| digits(word, b"0X", 64)));
        assert!(some(&|word| digits(word, b"x", 64)));
        assert!(some(&|word| digits(word, b"00", 64)));
        assert!(some(&|word| digits(word, b"0x0x", 64)));
        assert!(some(&|word| digits(word, b"0x", 63)));
        assert!(some(&|word| digits(word, b"0x", 65)));
        assert!(some(&|word| word == b"0x"));
        for next in b"/:@G`g" {
            let one = |word: &[u8]| {
                let others = word.iter().filter(|byte| *byte != next);
                let others: Vec<_> = others.copied().collect();
                word.len() == 66 && digits(&others, b"0x", 63)
            };
            assert!(some(&one), "{next}");
        }
        for word in [
            "None", "NONE", "Deliver", "APPLY", "No-hash", "Rpc", "DECODE",
        ] {
            assert!(some(&|other| other == word.as_bytes()), "{word}");
        }
    }

    #[test]
    fn hashes_are_written_in_either_case_and_both() {
        let (script, answers) = generate(1, &recipe(0));
        let mut seen = [0; 4];
        for line in script.lines() {
            for hash in hashes(line) {
                let small = line[hash.clone()][2..].iter().any(u8::is_ascii_lowercase);
                let capital = line[hash][2..].iter().any(u8::is_ascii_uppercase);
                seen[usize::from(small) + 2 * usize::from(capital)] += 1;
            }
        }
        assert!(seen.iter().all(|count| *count > SHORT / 20), "{seen:?}");
        // No answer goes by the case, nor shows it.
        let lowercase = script.text().to_ascii_lowercase();
        let lines = lowercase.split(|byte| *byte == b'\n');
        let lowercase: Script = lines.take(script.len()).collect();
        let others = lowercase.answers(Start::default());
        assert_eq!(others.text(), answers.text());
        assert!(!answers.text().iter().any(u8::is_ascii_uppercase));
    }

    #[test]
    fn some_scripts_lack_the_last_line_feed() {
        let lacks = |seed| !generate(seed, &recipe(50)).0.ends_in_feed();
        assert!((0..10).any(lacks) && !(0..10).all(lacks));
    }
}
