//! The same lines through the library and through the program headscript: the same answers.
//!
//! The variable HEADSCRIPT names the program, where it is not in its usual place.

mod common;

use common::{Buffers, Lines, Random};
use std::env;
use std::fs;
use std::io::{Read, Write};
use std::path::{Path, PathBuf};
use std::process::{Command, Stdio};
use std::thread;
use temsroi::Driver;

const SCRIPTS: u64 = 60;
const LINES: usize = 5_000;

fn headscript() -> PathBuf {
    let usual = "../crates/headscript/out/headscript";
    let named = env::var_os("HEADSCRIPT").unwrap_or(usual.into());
    let program = Path::new(env!("CARGO_MANIFEST_DIR")).join(named);
    assert!(
        program.is_file(),
        "{} is missing: in the repository's top folder run (cd crates/headscript && rt run < stdin), \
         or set HEADSCRIPT to the path of the program",
        program.display()
    );
    program
}

/// What headscript prints on the input, started from the sheet in a file, if one is named.
fn printed(file: Option<&Path>, input: Vec<u8>) -> Vec<u8> {
    let mut program = Command::new(headscript())
        .args(file)
        .stdin(Stdio::piped())
        .stdout(Stdio::piped())
        .spawn()
        .expect("headscript can be started");
    let mut lines = program.stdin.take().expect("its input is piped");
    // Written beside the reading, since both pipes are short. It may end without reading.
    let writer = thread::spawn(move || drop(lines.write_all(&input)));
    let mut output = Vec::new();
    let answers = program.stdout.as_mut().expect("its output is piped");
    answers
        .read_to_end(&mut output)
        .expect("its output is read");
    writer.join().expect("the writer ends");
    assert!(program.wait().expect("it ends").success());
    output
}

/// A script, and what headscript should print by what the library answers.
#[derive(Default)]
struct Script {
    input: Vec<u8>,
    expected: Vec<u8>,
    /// Where the input and the answers end, line by line.
    ends: Vec<[usize; 2]>,
}

impl Script {
    /// Make a call, and put down what headscript should print: for `(sheet)` the sheet.
    fn call<'a>(&mut self, line: &[u8], buffers: &'a mut Buffers) -> &'a [u8] {
        let answer = buffers.call(line).len();
        let answer = &buffers.answer[..answer];
        if line == b"(sheet)" {
            assert_eq!(answer, b"(done)\n");
            self.expected.extend_from_slice(buffers.sheet());
        } else {
            self.expected.extend_from_slice(answer);
        }
        self.input.extend_from_slice(line);
        self.input.push(b'\n');
        self.ends.push([self.input.len(), self.expected.len()]);
        answer
    }

    fn compare(self, file: Option<&Path>) {
        let output = printed(file, self.input.clone());
        if output == self.expected {
            return;
        }
        let mut pairs = output.iter().zip(&self.expected);
        let alike = pairs.position(|(one, other)| one != other);
        let alike = alike.unwrap_or(output.len().min(self.expected.len()));
        let line = self.ends.partition_point(|[_, end]| *end <= alike);
        let start = line
            .checked_sub(1)
            .map_or([0, 0], |before| self.ends[before]);
        let end = self.ends.get(line).copied().unwrap_or(start);
        panic!(
            "line {} is {:?}\nthe library says {:?}\nheadscript says  {:?}",
            line + 1,
            String::from_utf8_lossy(&self.input[start[0]..end[0]]),
            String::from_utf8_lossy(&self.expected[start[1]..end[1]]),
            String::from_utf8_lossy(&output[start[1].min(output.len())..end[1].min(output.len())]),
        );
    }
}

#[test]
fn random_lines() {
    let mut count = 0;
    for seed in 1..=SCRIPTS {
        let mut lines = Lines::new(seed);
        let mut buffers = Buffers::new();
        let mut script = Script::default();
        let spoilt = lines.random.pick(&[0, 5, 5, 50]);
        for _ in 0..LINES {
            let line = lines.line(spoilt);
            lines.hear(script.call(&line, &mut buffers));
        }
        script.call(b"(sheet)", &mut buffers);
        count += script.ends.len();
        script.compare(None);
    }
    assert!(count >= 200_000, "{count} lines");
}

#[test]
fn lines_of_every_length() {
    let mut random = Random::new(1);
    let mut buffers = Buffers::new();
    let mut script = Script::default();
    for length in 0..=520 {
        for call in ["(heads)", "(snapshot (7 none) 1)", "(release 0 0)"] {
            for filler in *b" )0(\0\xff" {
                let mut line = call.as_bytes().to_vec();
                line.resize(length, filler);
                script.call(&line, &mut buffers);
                line.reverse();
                script.call(&line, &mut buffers);
            }
        }
        let mut noise = random.bytes(length);
        noise
            .iter_mut()
            .filter(|byte| **byte == b'\n')
            .for_each(|byte| *byte = 0);
        script.call(&noise, &mut buffers);
    }
    script.call(b"(sheet)", &mut buffers);
    script.compare(None);
}

/// A sheet with a few bytes changed, left out, doubled or put in, or lines swapped; or as it is.
fn damaged(sheet: &[u8], random: &mut Random) -> Vec<u8> {
    let mut sheet = sheet.to_vec();
    let at = random.below(sheet.len());
    match random.below(12) {
        0 | 1 => {}
        2 => sheet[at] = random.pick(b"() 0123456789abcdefABFnx\n"),
        3 => drop(sheet.remove(at)),
        4 => sheet.insert(at, random.pick(b"() 09afx\n")),
        5 => sheet.truncate(at),
        6 => sheet.extend_from_within(at..),
        7 => sheet.make_ascii_uppercase(),
        8 => sheet.resize(4_090 + random.below(12), b'\n'),
        9 => {
            let mut lines: Vec<_> = sheet.split_inclusive(|byte| *byte == b'\n').collect();
            let count = lines.len();
            lines.swap(random.below(count), random.below(count));
            sheet = lines.concat();
        }
        // A number that is one more or less may break what the lines say together.
        _ => {
            let digits: Vec<_> = (0..sheet.len())
                .filter(|at| sheet[*at].is_ascii_digit())
                .collect();
            let digit = &mut sheet[random.pick(&digits)];
            *digit = if random.chance(50) {
                *digit - 1
            } else {
                *digit + 1
            };
        }
    }
    sheet
}

#[test]
fn sheets_put_back() {
    let file = Path::new(env!("CARGO_TARGET_TMPDIR")).join("sheet");
    let mut counts = [0, 0];
    for seed in 1..=600 {
        let mut lines = Lines::new(1_000 + seed);
        let mut buffers = Buffers::new();
        for _ in 0..lines.random.below(80) {
            let line = lines.line(0);
            lines.hear(buffers.call(&line));
        }
        let sheet = damaged(buffers.sheet(), &mut lines.random);
        fs::write(&file, &sheet).expect("the sheet is written into a file");
        let taken = Driver::from_sheet(&sheet);
        counts[usize::from(taken.is_ok())] += 1;
        let Ok(driver) = taken else {
            let output = printed(Some(&file), b"(sheet)\n".to_vec());
            assert_eq!(
                output,
                b"(refused 5)\n",
                "{}",
                String::from_utf8_lossy(&sheet)
            );
            continue;
        };
        assert_eq!(driver.sheet().as_bytes(), sheet);
        buffers.sheet.fill(0);
        buffers.sheet[..sheet.len()].copy_from_slice(&sheet);
        let mut script = Script::default();
        script.call(b"(sheet)", &mut buffers);
        for _ in 0..40 {
            let line = lines.line(5);
            lines.hear(script.call(&line, &mut buffers));
        }
        script.call(b"(sheet)", &mut buffers);
        script.compare(Some(&file));
    }
    assert!(
        counts.iter().all(|count| *count > 100),
        "refused, taken: {counts:?}"
    );
}
