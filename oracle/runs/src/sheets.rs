//! Two searches over runs of a program: equal sheets with unequal futures, and
//! unequal sheets that no probe separates.
//!
//! The published code plans, which is to say that it tells which histories are worth a pair. Its
//! sheets get the settle numbers that it does not have, unless the program has none either. What is
//! compared is the program's alone: its sheets and its answers, settle numbers with.

use crate::generator::further;
use crate::histories::{history, History, ANCHORS, HASHES, WAITERS};
use crate::probes::{all_probes, anchors, opening, probes, Probe};
use crate::program::Program;
use crate::progress::Progress;
use crate::script::Script;
use crate::shown::{Shown, Spoil};
use harness::{Call, Unshown};
use std::collections::hash_map::DefaultHasher;
use std::collections::{BTreeMap, HashMap, HashSet};
use std::fmt::{self, Display, Formatter};
use std::hash::{Hash, Hasher};

/// Random calls that are made after both histories of a pair, behind an opening.
const FURTHER: usize = 24;

/// The most histories that are kept with one sheet.
const MOST_OF_A_SHEET: usize = 24;

/// Of a hundred pairs with equal sheets at most so many have drivers that are
/// the same in what no sheet shows too.
const ALIKE: usize = 80;

/// Histories for each pair of unequal sheets: the more, the nearer are those
/// that stand beside each other.
const HISTORIES_A_PAIR: usize = 5;

/// One pair in so many may differ in counters, and one in current, installed or
/// previous anchor, which are told at once.
const EASY: usize = 10;

/// What is searched.
pub struct Search {
    pub program: Program,
    /// Pairs of each search.
    pub pairs: usize,
    pub seed: u64,
    pub spoil: Option<Spoil>,
    /// Whether the program writes settle numbers.
    pub settle_numbers: bool,
}

/// What a search that found nothing went through.
#[derive(Default)]
pub struct Searched {
    pub pairs: usize,
    pub lines: usize,
    /// Pairs of equal sheets whose drivers differ in what no sheet shows.
    pub unlike: usize,
    /// Pairs of unequal sheets by the part whose probe separated them.
    pub parts: BTreeMap<&'static str, usize>,
}

/// Two histories that should not be there.
pub struct Found {
    pub pair: usize,
    what: &'static str,
    histories: [Script; 2],
    sheets: [String; 2],
    lines: Vec<u8>,
    answers: [Vec<u8>; 2],
}

/// What a search ends with: what it went through, and what it found.
pub type Result<T = (Searched, Option<Found>)> = std::result::Result<T, String>;

/// What a program printed at and after a sheet.
struct Heard {
    sheet: String,
    answers: Vec<u8>,
}

impl Search {
    /// Equal sheets with unequal futures.
    ///
    /// # Errors
    ///
    /// One line, if the program cannot be started or ends badly.
    pub fn equal(&self) -> Result {
        let mut searched = Searched::default();
        let mut progress = Progress::default();
        for (number, class) in self.classes().into_iter().enumerate() {
            let first = self.history(class[0]);
            let lines = self.further(&first, number);
            let expected = self.hear(&first, lines.text(), &mut searched)?;
            for other in class[1..].iter().map(|number| self.history(*number)) {
                progress.show("equal sheets", searched.lines);
                if searched.pairs == self.pairs {
                    progress.clear();
                    return Ok((searched, None));
                }
                let heard = self.hear(&other, lines.text(), &mut searched)?;
                if heard.sheet != expected.sheet {
                    continue;
                }
                searched.pairs += 1;
                searched.unlike += usize::from(first.unshown != other.unshown);
                if heard.answers != expected.answers {
                    progress.clear();
                    let found = Found {
                        pair: searched.pairs,
                        what: "equal sheets with unequal futures",
                        histories: [first.script, other.script],
                        sheets: [expected.sheet, heard.sheet],
                        lines: lines.text().to_vec(),
                        answers: [expected.answers, heard.answers],
                    };
                    return Ok((searched, Some(found)));
                }
            }
        }
        progress.clear();
        Ok((searched, None))
    }

    /// The further lines of a class of histories: an opening, random calls, and
    /// a sheet unless sheets are spoilt.
    fn further(&self, first: &History, class: usize) -> Script {
        let opening = opening(&Shown::read(&first.sheet), class, &anchor_texts(), &WAITERS);
        let mut lines = first.script.clone();
        let mut further_lines = Script::default();
        for line in &opening {
            lines.push(line.as_bytes());
            further_lines.push(line.as_bytes());
        }
        let random = further(&lines, hashes(), self.seed + class as u64, FURTHER);
        random.lines().for_each(|line| further_lines.push(line));
        if self.spoil.is_none() {
            further_lines.push(b"(sheet)");
        }
        further_lines
    }

    /// Unequal sheets that no probe separates.
    ///
    /// # Errors
    ///
    /// One line, if the program cannot be started or ends badly.
    pub fn unequal(&self) -> Result {
        let mut searched = Searched::default();
        let mut progress = Progress::default();
        let mut easy = [0; 2];
        let histories = self.in_order();
        for pair in histories.windows(2) {
            progress.show("unequal sheets", searched.lines);
            if searched.pairs == self.pairs {
                break;
            }
            let [first, other] = [pair[0], pair[1]].map(|number| self.history(number));
            let [a, b] = [&first, &other].map(|history| Shown::read(&history.sheet));
            let told_by_one = [a.counters != b.counters, anchors(&a) != anchors(&b)];
            if let Some(which) = told_by_one.iter().position(|told| *told) {
                if easy[which] == self.pairs / EASY {
                    continue;
                }
                easy[which] += 1;
            }
            if let Some(found) = self.unseparated(&first, &other, &mut searched)? {
                progress.clear();
                return Ok((searched, Some(found)));
            }
        }
        progress.clear();
        Ok((searched, None))
    }

    /// Try the probes on two histories: those of the first part in which the
    /// sheets differ, and if they do not separate, all.
    fn unseparated(
        &self,
        first: &History,
        other: &History,
        searched: &mut Searched,
    ) -> Result<Option<Found>> {
        let shown = [first, other].map(|history| Shown::read(&history.sheet));
        let few = probes(&shown[0], &shown[1]);
        let mut last = None;
        for Probe { part, calls } in few.into_iter().chain(all_probes(&shown[0], &shown[1])) {
            let lines: Script = calls.iter().map(String::as_bytes).collect();
            let a = self.hear(first, lines.text(), searched)?;
            let b = self.hear(other, lines.text(), searched)?;
            if a.sheet == b.sheet {
                return Ok(None);
            }
            if a.answers != b.answers {
                searched.pairs += 1;
                *searched.parts.entry(part.name()).or_default() += 1;
                return Ok(None);
            }
            last = Some((lines, a, b));
        }
        let (lines, a, b) = last.expect("every part has a probe");
        searched.pairs += 1;
        Ok(Some(Found {
            pair: searched.pairs,
            what: "unequal sheets that no probe separates",
            histories: [first.script.clone(), other.script.clone()],
            sheets: [a.sheet, b.sheet],
            lines: lines.text().to_vec(),
            answers: [a.answers, b.answers],
        }))
    }

    /// The numbers of histories by their sheets, at least two for each, until
    /// there are enough pairs of a sheet's first history with another.
    fn classes(&self) -> Vec<Vec<u64>> {
        let mut known = HashSet::new();
        let mut places = HashMap::new();
        let mut classes: Vec<Class> = Vec::new();
        let (mut pairs, mut alike_pairs) = (0, 0);
        for number in self.numbers() {
            if pairs >= self.pairs {
                break;
            }
            let history = self.history(number);
            // Histories that differ in the case of their hashes only are one.
            if !known.insert(hash_of(&history.script.text().to_ascii_lowercase())) {
                continue;
            }
            let sheet = hash_of(&self.planned(&history));
            let place = *places.entry(sheet).or_insert(classes.len());
            match classes.get_mut(place) {
                None => classes.push(Class {
                    unshown: history.unshown,
                    numbers: vec![number],
                }),
                Some(class) if class.numbers.len() < MOST_OF_A_SHEET => {
                    let alike = class.unshown == history.unshown;
                    if !alike || alike_pairs < self.pairs * ALIKE / 100 {
                        alike_pairs += usize::from(alike);
                        pairs += 1;
                        class.numbers.push(number);
                    }
                }
                Some(_) => {}
            }
        }
        let numbers = classes.into_iter().map(|class| class.numbers);
        numbers.filter(|numbers| numbers.len() > 1).collect()
    }

    /// The numbers of histories that differ in their sheets, with those beside
    /// each other that differ little: first counters count, then anchors.
    fn in_order(&self) -> Vec<u64> {
        let mut order = BTreeMap::new();
        for number in self.numbers().take(HISTORIES_A_PAIR * self.pairs) {
            let history = self.history(number);
            let sheet = self.planned(&history);
            let shown = Shown::read(&sheet);
            let key = (
                shown.counters.join(" "),
                anchors(&shown).join(" "),
                sheet.clone(),
            );
            order.entry(key).or_insert(number);
        }
        order.into_values().collect()
    }

    /// The numbers of this search's histories.
    fn numbers(&self) -> impl Iterator<Item = u64> {
        let first = self.seed << 32;
        (0..).map(move |number| first + number)
    }

    /// The history of a number, its sheet in the program's writing.
    fn history(&self, number: u64) -> History {
        let history = history(number);
        if self.settle_numbers {
            history.with_numbers()
        } else {
            history
        }
    }

    /// The sheet that the plan goes by.
    fn planned(&self, history: &History) -> String {
        self.spoilt(&history.sheet, history)
    }

    fn spoilt(&self, sheet: &str, history: &History) -> String {
        match self.spoil {
            Some(spoil) => spoil.spoil(sheet, history.script.len(), &history.unshown),
            None => sheet.to_owned(),
        }
    }

    /// Run the program on a history, a sheet and further lines.
    fn hear(&self, history: &History, lines: &[u8], searched: &mut Searched) -> Result<Heard> {
        let input = [history.script.text(), b"(sheet)\n", lines].concat();
        searched.lines += input.iter().filter(|byte| **byte == b'\n').count();
        let output = self.program.answers(&input)?;
        let (sheet, answers) = cut(&output, history.script.len());
        Ok(Heard {
            sheet: self.spoilt(&String::from_utf8_lossy(sheet), history),
            answers: answers.to_vec(),
        })
    }
}

/// Histories with one sheet.
struct Class {
    /// What the first one's sheet does not show.
    unshown: Unshown,
    numbers: Vec<u64>,
}

fn hash_of(value: &impl Hash) -> u64 {
    let mut hasher = DefaultHasher::new();
    value.hash(&mut hasher);
    hasher.finish()
}

/// The histories' anchors as lines write them.
fn anchor_texts() -> Vec<String> {
    let texts = ANCHORS.map(|anchor| {
        let mut line = Vec::new();
        Call::Completion { anchor }.write(&mut line);
        let text = String::from_utf8_lossy(&line);
        let text = text.strip_prefix("(completion ");
        let text = text.and_then(|text| text.strip_suffix(')'));
        text.expect("a completion is its anchor").to_owned()
    });
    texts.to_vec()
}

/// The histories' hashes, as the generator takes them.
const fn hashes() -> [harness::B256; 7] {
    let [zero, a, b, c] = HASHES;
    [zero, a, b, c, a, b, c]
}

/// The sheet that stands after so many answer lines, and what follows it. A
/// sheet is its count line and the lines that no answer looks like.
fn cut(output: &[u8], answers: usize) -> (&[u8], &[u8]) {
    let names: [&[u8]; 6] = [
        b"(count ",
        b"(current ",
        b"(superseded ",
        b"(installed ",
        b"(previous ",
        b"(wait ",
    ];
    let mut lines = output.split_inclusive(|byte| *byte == b'\n');
    let before: usize = lines.by_ref().take(answers).map(<[u8]>::len).sum();
    let of_sheet = |line: &&[u8]| names.iter().any(|name| line.starts_with(name));
    let sheet: usize = lines.take_while(of_sheet).map(<[u8]>::len).sum();
    output[before..].split_at(sheet)
}

impl Display for Found {
    fn fmt(&self, f: &mut Formatter) -> fmt::Result {
        writeln!(f, "pair {}: {}", self.pair, self.what)?;
        for place in 0..2 {
            writeln!(f, "history {}:", place + 1)?;
            put(f, &String::from_utf8_lossy(self.histories[place].text()))?;
            writeln!(f, "its sheet, as it was compared:")?;
            put(f, &self.sheets[place])?;
        }
        writeln!(f, "further lines, and the two answers where they differ:")?;
        let lines = String::from_utf8_lossy(&self.lines);
        let [a, b] = [0, 1].map(|place| String::from_utf8_lossy(&self.answers[place]));
        for ((line, a), b) in lines.lines().zip(a.lines()).zip(b.lines()) {
            writeln!(f, "  {line}")?;
            if a != b {
                return writeln!(f, "    1: {a}\n    2: {b}");
            }
        }
        Ok(())
    }
}

fn put(f: &mut Formatter, text: &str) -> fmt::Result {
    for line in text.lines() {
        writeln!(f, "  {line}")?;
    }
    Ok(())
}
