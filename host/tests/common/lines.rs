//! Random lines, most of them calls that aim at where the driver stands.

use super::Random;
use temsroi::Answer;

const NAMES: [(&str, usize); 13] = [
    ("deliver", 20),
    ("claim", 13),
    ("release", 8),
    ("apply", 15),
    ("snapshot", 9),
    ("wait", 12),
    ("resume", 10),
    ("completion", 3),
    ("link", 4),
    ("report", 2),
    ("stats", 2),
    ("heads", 2),
    ("sheet", 6),
];

/// Bytes that stand in calls, and bytes that stand in none.
const BYTES: &[u8] = b"()- 0189afgFxXnNoez\t\r\0\x7f\x80\xa0\xc3\xff\"',._";

/// Makes lines, and hears the answers, so that it knows ticket, epoch and head.
pub struct Lines {
    pub random: Random,
    hashes: [String; 4],
    lowest: u64,
    seq: u64,
    epoch: u64,
    /// Anchor and parent hash of the head.
    head: Option<[String; 2]>,
    /// Those of the delivery that was made last.
    delivered: Option<[String; 2]>,
    /// Anchors that were heads before.
    earlier: Vec<String>,
}

impl Lines {
    pub fn new(seed: u64) -> Self {
        let mut random = Random::new(seed);
        let hash = |mut byte: u8| {
            let digits = (0..32).map(|_| {
                byte = byte.wrapping_mul(29).wrapping_add(7);
                format!("{byte:02x}")
            });
            format!("0x{}", digits.collect::<String>())
        };
        let hashes = [0; 4].map(|_| hash(random.number() as u8));
        Self {
            random,
            hashes,
            lowest: 7,
            seq: 0,
            epoch: 0,
            head: None,
            delivered: None,
            earlier: Vec::new(),
        }
    }

    /// A line without line feed; so many in a hundred are spoilt.
    pub fn line(&mut self, spoilt: usize) -> Vec<u8> {
        let mut line = self.call().into_bytes();
        if self.random.chance(spoilt) {
            self.spoil(&mut line);
        }
        line
    }

    /// Hear what the last line was answered with.
    pub fn hear(&mut self, answer: &[u8]) {
        let text = String::from_utf8_lossy(answer);
        let delivered = self.delivered.take();
        match text.trim_end().parse() {
            Ok(Answer::Ticket(seq)) => {
                if self.seq != seq {
                    let replaced = self.head.take().map(|[anchor, _]| anchor);
                    self.earlier.extend(replaced);
                    let count = self.earlier.len();
                    self.earlier.drain(..count.saturating_sub(3));
                }
                self.seq = seq;
                self.head = delivered;
            }
            Ok(Answer::Claimed(epoch)) => self.epoch = epoch,
            _ => {}
        }
    }

    fn call(&mut self) -> String {
        if self.random.below(150) == 0 {
            let far = self.random.number();
            self.lowest = self.random.pick(&[0, 7, u64::MAX - 3, u64::MAX - 1, far]);
        }
        let sum = NAMES.iter().map(|(_, weight)| weight).sum();
        let mut at = self.random.below(sum);
        let mut name = "sheet";
        for (named, weight) in NAMES {
            if at < weight {
                name = named;
                break;
            }
            at -= weight;
        }
        let parts = self.parts(name);
        let parts: String = parts.iter().map(|part| format!(" {part}")).collect();
        format!("({name}{parts})")
    }

    fn parts(&mut self, name: &str) -> Vec<String> {
        match name {
            "deliver" => {
                let [anchor, parent] = self.next_head();
                self.delivered = Some([anchor.clone(), parent.clone()]);
                vec![anchor, parent, self.handle()]
            }
            "claim" => vec![self.current(), self.near(self.seq)],
            "release" => vec![self.near(self.seq), self.near(self.epoch)],
            "apply" => self.apply(),
            "snapshot" => vec![self.any(), self.handle()],
            "wait" => vec![self.waiter(), self.current(), self.handle()],
            "resume" => vec![self.waiter(), self.handle()],
            "completion" => vec![self.current()],
            "link" => {
                let parent = self.any();
                let parent = if self.random.chance(80) {
                    parent
                } else {
                    "none".to_owned()
                };
                vec![parent, self.any(), self.hash()]
            }
            _ => Vec::new(),
        }
    }

    fn apply(&mut self) -> Vec<String> {
        let anchor = self.current();
        let list = if self.random.chance(93) {
            anchor.clone()
        } else {
            self.any()
        };
        let read = ["none", "none", "(rpc 7)", "(decode 18446744073709551615)"];
        let skip = if list.ends_with(" none)") == self.random.chance(96) {
            "no-hash"
        } else {
            self.random.pick(&read)
        };
        let seq = self.near(self.seq);
        let [handle, carried, report] = [0; 3].map(|_| self.handle());
        vec![anchor, seq, list, skip.to_owned(), handle, carried, report]
    }

    /// Anchor and parent hash of a delivery: often the child of the head.
    fn next_head(&mut self) -> [String; 2] {
        let hash = self.hash();
        match (&self.head, self.random.below(10)) {
            (Some(head), 0) => head.clone(),
            (Some([anchor, _]), 1) => [anchor.clone(), hash],
            (Some([anchor, _]), 2..7) => {
                let words = anchor.trim_matches(['(', ')']).split_once(' ');
                let (number, parent) = words.expect("an anchor has two words");
                let number: u64 = number.parse().expect("a block number");
                let parent = if parent == "none" {
                    hash
                } else {
                    parent.to_owned()
                };
                [self.anchor(number.wrapping_add(1)), parent]
            }
            (_, 7) => [self.any(), hash],
            _ => {
                let number = self.lowest.wrapping_add(self.random.number() % 4);
                [self.anchor(number), hash]
            }
        }
    }

    /// A hash, its digits in random case.
    fn hash(&mut self) -> String {
        let hash = self.hashes[self.random.below(4)].clone();
        let mut digits = |digit: char| match self.random.chance(50) {
            true => digit.to_ascii_uppercase(),
            false => digit,
        };
        let digits: String = hash[2..].chars().map(&mut digits).collect();
        format!("0x{digits}")
    }

    fn anchor(&mut self, number: u64) -> String {
        let hash = self.hash();
        let hash = if self.random.chance(80) {
            &hash
        } else {
            "none"
        };
        format!("({number} {hash})")
    }

    /// The head, mostly.
    fn current(&mut self) -> String {
        match &self.head {
            Some([anchor, _]) if self.random.chance(90) => anchor.clone(),
            _ => self.any(),
        }
    }

    fn any(&mut self) -> String {
        let held = self.earlier.len() + 2;
        match (self.random.below(held), &self.head) {
            (0, Some([anchor, _])) => anchor.clone(),
            (at, _) if at >= 2 => self.earlier[at - 2].clone(),
            _ => {
                let number = self.lowest.wrapping_add(self.random.number() % 4);
                self.anchor(number)
            }
        }
    }

    fn near(&mut self, number: u64) -> String {
        let other = [number.wrapping_sub(1), number.wrapping_add(1), 0, u64::MAX];
        let other = self.random.pick(&other);
        if self.random.chance(92) {
            number
        } else {
            other
        }
        .to_string()
    }

    fn handle(&mut self) -> String {
        let any = self.random.number();
        self.random.pick(&[0, 1, 50, u64::MAX, any]).to_string()
    }

    fn waiter(&mut self) -> String {
        let beyond = self.random.pick(&[16, 17, 256, u64::MAX]);
        let waiter = self.random.number() % 16;
        if self.random.chance(96) {
            waiter
        } else {
            beyond
        }
        .to_string()
    }

    /// Change a line, mostly so that it is no call. It gets no line feed.
    fn spoil(&mut self, line: &mut Vec<u8>) {
        let random = &mut self.random;
        let at = random.below(line.len());
        match random.below(10) {
            0 => line[at] = random.pick(BYTES),
            1 => line.insert(at, random.pick(BYTES)),
            2 => drop(line.remove(at)),
            3 => line.truncate(at),
            4 => line.extend_from_within(..),
            5 => line.make_ascii_uppercase(),
            6 => line.resize(505 + random.below(16), random.pick(BYTES)),
            7 => line.push(random.pick(BYTES)),
            8 => line.clear(),
            _ => {
                let length = random.below(521);
                *line = random.bytes(length);
            }
        }
        for byte in line.iter_mut().filter(|byte| **byte == b'\n') {
            *byte = b')';
        }
    }
}
