//! Damaged sheets: a program takes those that the model takes, and goes on from them as it does.

use crate::compare::put_text;
use crate::damage::{Damage, DAMAGES};
use crate::generator::{generate, Aimed, Recipe};
use crate::program::{Program, Run};
use crate::progress::Progress;
use crate::random::Random;
use crate::sheet_file::SheetFile;
use harness::COUNTERS;
use model::{Driver, Model, NotTaken};
use std::collections::BTreeMap;
use std::fmt::{self, Display, Formatter};

/// Sheets that are damaged from one run.
const OF_A_RUN: u64 = 200;

/// Lines of a run, each of which leaves a sheet to damage.
const RUN: usize = 300;

/// Every third run starts here, so that numbers lie near their end.
const NEAR_THE_END: u64 = u64::MAX - 20;

/// Of a hundred sheets so many are damaged twice.
const TWICE: usize = 10;

/// What stands for the damage of a sheet that is damaged twice.
const TWO: &str = "two of these";

const SHEET: &[u8] = b"(sheet)\n";

const REFUSED: &[u8] = b"(refused 5)\n";

/// Which sheets are judged.
#[derive(Clone, Copy, Debug)]
pub enum Sheets {
    /// The damaged sheets from one number to another, both with.
    Numbered { from: u64, to: u64 },
    /// Every one-byte change of three sheets.
    Changed,
}

/// What is searched.
pub struct Search {
    pub program: Program,
    pub sheets: Sheets,
    /// Lines that follow a sheet that is taken.
    pub lines: usize,
}

/// What a search went through.
#[derive(Default)]
pub struct Searched {
    pub sheets: usize,
    pub taken: usize,
    pub lines: usize,
    /// By damage: how many were taken, and how many were not, by the reason.
    pub damages: BTreeMap<&'static str, BTreeMap<Option<NotTaken>, usize>>,
}

/// A sheet on which a program differs from the model.
pub struct Found {
    judged: Judged,
    run: Run,
}

impl Search {
    /// Judge each sheet, up to the first on which the program differs.
    ///
    /// # Errors
    ///
    /// One line, if the program cannot be started or there is no place for a file.
    pub fn run(&self) -> Result<(Searched, Option<Found>), String> {
        let mut searched = Searched::default();
        let mut progress = Progress::default();
        let file = SheetFile::new()?;
        let program = self.program.starting_from(file.path());
        for judged in self.judged() {
            progress.show("damaged sheets", searched.lines);
            file.put(&judged.sheet)?;
            let run = program.heard(&judged.lines, judged.expected.len())?;
            judged.count(&mut searched);
            if judged.sound && run.output == judged.expected && run.failure.is_none() {
                continue;
            }
            progress.clear();
            return Ok((searched, Some(Found { judged, run })));
        }
        progress.clear();
        Ok((searched, None))
    }

    /// The sheets, each judged by the model when it is asked for.
    fn judged(&self) -> Box<dyn Iterator<Item = Judged>> {
        let lines = self.lines;
        match self.sheets {
            Sheets::Numbered { from, to } => {
                let mut sources: Option<(u64, Sources)> = None;
                Box::new((from..=to).map(move |number| {
                    let run = number / OF_A_RUN;
                    let (_, sources) = match sources.take() {
                        Some((known, of_it)) if known == run => sources.insert((known, of_it)),
                        _ => sources.insert((run, Sources::of_run(run))),
                    };
                    Judged::numbered(number, sources, lines)
                }))
            }
            Sheets::Changed => Box::new((0..).zip(changed_sheets()).map(
                move |(number, (damage, sheet))| {
                    let mut random = Random::new(number);
                    Judged::new(number, vec![damage], sheet, lines, &mut random)
                },
            )),
        }
    }
}

/// The sheets of a run.
pub(crate) struct Sources {
    sheets: Vec<Vec<u8>>,
}

impl Sources {
    fn of_run(run: u64) -> Self {
        Self::new(run, if run % 3 == 2 { NEAR_THE_END } else { 0 })
    }

    /// The sheets of the run of that seed, whose counters all start there.
    pub(crate) fn new(seed: u64, start: u64) -> Self {
        let recipe = Recipe {
            lines: RUN,
            malformed: 0,
            start: [start; COUNTERS].into(),
        };
        let (script, _) = generate(seed, &recipe);
        let mut driver = Driver::new([start; COUNTERS], None);
        let mut sheets = vec![driver.sheet()];
        for line in script.lines() {
            driver
                .answer_line(line, &mut Vec::new())
                .expect("a Vec takes every write");
            sheets.push(driver.sheet());
        }
        Self { sheets }
    }

    /// One of the sheets with the damages done to it.
    pub(crate) fn damaged(&self, damages: &[&Damage], random: &mut Random) -> Vec<u8> {
        let sheet = &self.sheets[random.below(self.sheets.len())];
        let model = Model::from_sheet(sheet, None);
        let mut shown = model.expect("the model takes its own sheet").shown();
        for damage in damages {
            (damage.shown)(&mut shown, random);
        }
        let mut text = shown.to_string().into_bytes();
        for damage in damages {
            // Nothing can be done to a text of which nothing is left.
            if !text.is_empty() {
                (damage.text)(&mut text, random);
            }
        }
        text
    }
}

/// A damaged sheet, what is fed to the program, and what the model answers.
struct Judged {
    number: u64,
    damages: Vec<&'static str>,
    sheet: Vec<u8>,
    reason: Option<NotTaken>,
    lines: Vec<u8>,
    expected: Vec<u8>,
    /// Whether the model judged as the damage says, writes the sheet that it took, and takes the
    /// one that it writes in the end.
    sound: bool,
}

impl Judged {
    /// The damaged sheet of that number.
    fn numbered(number: u64, sources: &Sources, lines: usize) -> Self {
        let mut random = Random::new(number);
        let two = 1 + usize::from(random.chance(TWICE));
        let damages: Vec<_> = (0..two)
            .map(|_| &DAMAGES[random.below(DAMAGES.len())])
            .collect();
        let sheet = sources.damaged(&damages, &mut random);
        let names = damages.iter().map(|damage| damage.name).collect();
        let mut judged = Self::new(number, names, sheet, lines, &mut random);
        if let [damage] = damages.as_slice() {
            let verdict = judged.reason.map_or(Ok(()), Err);
            judged.sound &= damage.verdict.is_none_or(|sure| sure == verdict);
        }
        judged
    }

    fn new(
        number: u64,
        damages: Vec<&'static str>,
        sheet: Vec<u8>,
        lines: usize,
        random: &mut Random,
    ) -> Self {
        let mut judged = Self {
            number,
            damages,
            sheet,
            reason: None,
            lines: SHEET.to_vec(),
            expected: Vec::new(),
            sound: true,
        };
        match Driver::from_sheet(&judged.sheet, None) {
            Ok(mut driver) => {
                judged.sound = driver.sheet() == judged.sheet;
                judged.expected = driver.sheet();
                judged.go_on(&mut driver, lines, random);
            }
            Err(reason) => {
                judged.reason = Some(reason);
                judged.expected = REFUSED.to_vec();
            }
        }
        judged
    }

    /// Random lines aimed at where the driver stands, and a sheet.
    fn go_on(&mut self, driver: &mut Driver, lines: usize, random: &mut Random) {
        let mut aimed = Aimed::new(random.number());
        for at in 0..=lines {
            let line = match at {
                last if last == lines => b"(sheet)".to_vec(),
                _ => aimed.line(&driver.model),
            };
            driver
                .answer_line(&line, &mut self.expected)
                .expect("a Vec takes every write");
            self.lines.extend_from_slice(&line);
            self.lines.push(b'\n');
        }
        self.sound &= Model::from_sheet(&driver.sheet(), None).is_ok();
    }

    fn count(&self, searched: &mut Searched) {
        let name = match self.damages.as_slice() {
            [damage] => damage,
            _ => TWO,
        };
        let lines = self.lines.split(|byte| *byte == b'\n').count() - 1;
        searched.sheets += 1;
        searched.taken += usize::from(self.reason.is_none());
        searched.lines += lines;
        *searched
            .damages
            .entry(name)
            .or_default()
            .entry(self.reason)
            .or_default() += 1;
    }
}

/// Runs that lead to the sheets of which every byte is changed. H and Z stand for hashes.
const CHANGED: [&[&str]; 3] = [
    &[],
    &[
        "(deliver (7 none) Z 50)",
        "(claim (7 none) 1)",
        "(wait 0 (7 none) 51)",
        "(wait 13 (7 none) 52)",
    ],
    &[
        "(deliver (6 H) Z 40)",
        "(claim (6 H) 1)",
        "(wait 9 (6 H) 51)",
        "(apply (6 H) 1 (6 H) (rpc 5) 60 0 90)",
        "(deliver (7 Z) H 50)",
        "(apply (7 Z) 2 (7 Z) none 61 5 91)",
    ],
];

/// Every sheet that differs from one of three in a byte changed, dropped or put in, with the name of
/// the damage.
fn changed_sheets() -> impl Iterator<Item = (&'static str, Vec<u8>)> {
    CHANGED.iter().flat_map(|lines| {
        let mut driver = Driver::new([0; COUNTERS], None);
        for line in *lines {
            let line = line.replace('H', &format!("0x{}", "ab".repeat(32)));
            let line = line.replace('Z', &format!("0x{}", "0".repeat(64)));
            driver
                .answer_line(line.as_bytes(), &mut Vec::new())
                .expect("a Vec takes every write");
        }
        let sheet = driver.sheet();
        (0..=sheet.len()).flat_map(move |at| changed_at(&sheet, at))
    })
}

/// The sheets with the byte at a place dropped, changed to each other one, or another put before it.
fn changed_at(sheet: &[u8], at: usize) -> Vec<(&'static str, Vec<u8>)> {
    let mut changed = Vec::new();
    let (before, rest) = sheet.split_at(at);
    for byte in 0..=u8::MAX {
        changed.push(("byte-put-in", [before, &[byte], rest].concat()));
    }
    if let Some((old, after)) = rest.split_first() {
        for byte in (0..=u8::MAX).filter(|byte| byte != old) {
            changed.push(("byte-changed", [before, &[byte], after].concat()));
        }
        changed.push(("byte-dropped", [before, after].concat()));
    }
    changed
}

impl Display for Searched {
    /// A line for each damage.
    fn fmt(&self, f: &mut Formatter) -> fmt::Result {
        writeln!(f, "   taken  refused  damage, and why refused")?;
        let names = DAMAGES.iter().map(|damage| damage.name);
        for name in names.chain([TWO]) {
            let Some(reasons) = self.damages.get(name) else {
                continue;
            };
            let taken = reasons.get(&None).copied().unwrap_or_default();
            let refused = reasons.values().sum::<usize>() - taken;
            write!(f, "{taken:>8} {refused:>8}  {name}")?;
            for (reason, count) in reasons {
                match reason {
                    None => {}
                    Some(NotTaken::Form) => write!(f, ", form {count}")?,
                    Some(NotTaken::Rule(rule)) => write!(f, ", {rule} {count}")?,
                }
            }
            writeln!(f)?;
        }
        Ok(())
    }
}

impl Display for Found {
    fn fmt(&self, f: &mut Formatter) -> fmt::Result {
        let Self { judged, run } = self;
        let damages = judged.damages.join(", ");
        writeln!(f, "sheet {}, damaged by {damages}:", judged.number)?;
        put_text(f, &judged.sheet)?;
        match judged.reason {
            None => writeln!(f, "the model takes it; lines:")?,
            Some(NotTaken::Form) => writeln!(f, "it is not in sheet form; lines:")?,
            Some(NotTaken::Rule(rule)) => writeln!(f, "it breaks the rule {rule}; lines:")?,
        }
        put_text(f, &judged.lines)?;
        writeln!(f, "model:")?;
        put_text(f, &judged.expected)?;
        writeln!(f, "program:")?;
        put_text(f, &run.output)?;
        if !judged.sound {
            writeln!(f, "the model is not at one with the damage or with itself")?;
        }
        match &run.failure {
            Some(failure) => writeln!(f, "program ended badly: {failure}"),
            None => Ok(()),
        }
    }
}

#[cfg(test)]
mod tests {
    use super::*;

    #[test]
    fn a_number_always_gives_the_same_sheet() {
        let numbered = |run, number| Judged::numbered(number, &Sources::of_run(run), 12);
        for number in [1, 7, 199] {
            let [first, again] = [numbered(0, number), numbered(0, number)];
            assert_eq!(first.sheet, again.sheet);
            assert_eq!(first.lines, again.lines);
        }
        assert_ne!(numbered(0, 1).sheet, numbered(0, 2).sheet);
    }

    #[test]
    fn the_model_is_at_one_with_itself() {
        let sources = Sources::of_run(2);
        let mut judged = (400..600).map(|number| Judged::numbered(number, &sources, 12));
        assert!(judged.all(|judged| judged.sound));
    }

    #[test]
    fn every_byte_is_changed() {
        assert_eq!(changed_at(b"ab", 1).len(), 256 + 255 + 1);
        assert_eq!(changed_at(b"ab", 2).len(), 256);
        let sheets: Vec<_> = changed_sheets().collect();
        let taken = sheets
            .iter()
            .filter(|(_, sheet)| Model::from_sheet(sheet, None).is_ok());
        assert!(taken.count() > 1_000, "{}", sheets.len());
    }
}
