//! Scripts that are not random: all short ones, and all small changes of lines.

use crate::script::Script;
use harness::LONGEST_LINE;

/// The digits of two hashes. The first has each letter in either case.
const A: &str = "0123456789abcdefABCDEF0123456789AbCdEffEdCbAaBcDeF11111111111111";
const B: &str = "222222222222222222222222222222222222222222222222222222222222aBcD";

/// Lines for short scripts: two blocks, of which the second is the first one's
/// child, one without a hash, and every call at them. `$A` and `$a` are one hash
/// with each letter in the other case; so are `$B` and `$b`.
const ALPHABET: [&str; 26] = [
    "(deliver (7 $A) $B 50)",
    "(deliver (8 $B) $a 51)",
    "(deliver (7 none) $b 50)",
    "(claim (7 $a) 1)",
    "(claim (8 $B) 2)",
    "(release 1 1)",
    "(release 2 1)",
    "(apply (7 $a) 1 (7 $A) none 60 5 90)",
    "(apply (7 $A) 1 (7 $A) (rpc 4) 60 5 90)",
    "(apply (7 $A) 1 (8 $b) (decode 3) 60 5 90)",
    "(apply (8 $B) 2 (8 $b) none 61 6 91)",
    "(apply (7 none) 1 (7 none) no-hash 62 0 92)",
    "(apply (7 $A) 1 (7 $A) no-hash 60 5 90)",
    "(snapshot (7 $A) 70)",
    "(snapshot (8 $b) 71)",
    "(wait 0 (7 $a) 80)",
    "(wait 16 (7 $A) 80)",
    "(resume 0 81)",
    "(completion (7 $a))",
    "(link (7 $A) (8 none) $a)",
    "(link none (7 none) $B)",
    "(report)",
    "(stats)",
    "(heads)",
    "(sheet)",
    "(sheet )",
];

/// Every form of every call, as changes of its bytes start from it.
const FORMS: [&str; 20] = [
    "(deliver (7 $A) $B 50)",
    "(deliver (10 none) $b 0)",
    "(claim (7 $a) 1)",
    "(claim (10 none) 12)",
    "(release 1 1)",
    "(apply (7 $A) 1 (7 $B) none 60 5 90)",
    "(apply (7 none) 1 (7 none) no-hash 60 5 90)",
    "(apply (7 none) 1 (7 $A) (rpc 4) 60 5 90)",
    "(apply (7 none) 1 (7 $A) (decode 18446744073709551615) 60 5 90)",
    "(snapshot (7 $A) 70)",
    "(wait 15 (7 $a) 80)",
    "(wait 18446744073709551615 (7 none) 80)",
    "(resume 3 81)",
    "(completion (7 $A))",
    "(link (7 $A) (8 $B) $a)",
    "(link none (7 none) $B)",
    "(report)",
    "(stats)",
    "(heads)",
    "(sheet)",
];

/// How many short scripts there are.
pub const SHORT_SCRIPTS: usize = ALPHABET.len().pow(3);

/// How many scripts of changed lines there are: one for each form, and one of
/// long lines.
pub const CHANGED_SCRIPTS: usize = FORMS.len() + 1;

fn line(form: &str) -> Vec<u8> {
    let mut line = form.to_owned();
    for (letters, digits) in [(["$A", "$a"], A), (["$B", "$b"], B)] {
        let [one, other] = [digits.to_owned(), with_other_case(digits)];
        for (letter, digits) in letters.into_iter().zip([one, other]) {
            line = line.replace(letter, &format!("0x{digits}"));
        }
    }
    line.into_bytes()
}

/// The text with small letters for capitals and capitals for small letters.
fn with_other_case(text: &str) -> String {
    let other = |letter: char| match letter {
        'a'..='z' => letter.to_ascii_uppercase(),
        _ => letter.to_ascii_lowercase(),
    };
    text.chars().map(other).collect()
}

/// Every script of three lines of the alphabet, with a sheet at its end. The
/// scripts of one and two lines are their beginnings.
pub fn short_scripts() -> impl Iterator<Item = Script> {
    let lines: Vec<_> = ALPHABET.iter().map(|form| line(form)).collect();
    let count = lines.len();
    (0..SHORT_SCRIPTS).map(move |number| {
        let places = [
            number / count / count,
            number / count % count,
            number % count,
        ];
        let mut script: Script = places
            .iter()
            .map(|place| lines[*place].as_slice())
            .collect();
        script.push(b"(sheet)");
        script
    })
}

/// For each form a script of every line that one byte makes of it: changed to
/// each value, put in with each value, or left out. A line feed put in makes two
/// lines. Sheets between them show what the accepted ones did, and that refused
/// ones did nothing. The last script has lines about the greatest length.
pub fn changed_scripts() -> impl Iterator<Item = Script> {
    let changes = FORMS.iter().map(|form| {
        let form = line(form);
        let mut script = Script::default();
        (0..=form.len()).for_each(|at| put_changes(&mut script, &form, at));
        script
    });
    changes.chain([long_lines()])
}

fn put_changes(script: &mut Script, form: &[u8], at: usize) {
    let (before, after) = form.split_at(at);
    for byte in 0..=u8::MAX {
        put_text(script, &[before, &[byte], after].concat());
        if let Some((_, after)) = after.split_first() {
            put_text(script, &[before, &[byte], after].concat());
        }
    }
    if let Some((_, after)) = after.split_first() {
        put_text(script, &[before, after].concat());
    }
    script.push(b"(sheet)");
}

fn put_text(script: &mut Script, text: &[u8]) {
    for line in text.split(|byte| *byte == b'\n') {
        script.push(line);
    }
}

/// Calls padded to lengths about the limit, each before a call that shows
/// whether the program is still in step.
fn long_lines() -> Script {
    let mut script = Script::default();
    for form in FORMS {
        for length in LONGEST_LINE - 2..=LONGEST_LINE + 2 {
            for padding in [b' ', b')', b'0'] {
                let mut padded = line(form);
                padded.resize(length, padding);
                script.push(&padded);
                script.push(b"(stats)");
            }
        }
    }
    script
}

#[cfg(test)]
mod tests {
    use super::*;
    use harness::{Call, Start};

    #[test]
    fn the_forms_are_calls_in_either_writing() {
        for form in FORMS {
            assert!(Call::read(&line(form)).is_some(), "{form}");
        }
        let [one, other] = ["(claim (7 $A) 1)", "(claim (7 $a) 1)"].map(line);
        assert_ne!(one, other);
        assert_eq!(Call::read(&one), Call::read(&other));
        for case in [u8::is_ascii_lowercase, u8::is_ascii_uppercase] {
            assert!(A.bytes().any(|byte| case(&byte)) && B.bytes().any(|byte| case(&byte)));
        }
    }

    #[test]
    fn the_other_case_is_the_same_hash() {
        let script: Script = ["(deliver (7 $A) $B 50)", "(deliver (7 $a) $b 50)"]
            .map(line)
            .iter()
            .map(Vec::as_slice)
            .collect();
        let answers = script.answers(Start::default());
        assert_eq!(answers.text(), b"(ticket 1)\n(ticket 1)\n");
    }
}
