//! Calls with different buffers at the same time, on more threads than most machines have cores.

mod common;

use common::{Buffers, Lines};
use std::sync::Barrier;
use std::thread;

const THREADS: u64 = 16;
const LINES: usize = 5_000;

/// The lines of a seed, and what a driver alone answers to them.
fn alone(seed: u64) -> (Vec<Vec<u8>>, Vec<Vec<u8>>) {
    let mut lines = Lines::new(seed);
    let mut buffers = Buffers::new();
    let call = |_| {
        let line = lines.line(5);
        let answer = buffers.call(&line).to_vec();
        lines.hear(&answer);
        (line, answer)
    };
    (0..LINES).map(call).unzip()
}

#[test]
fn drivers_on_many_threads() {
    // One after another, before there is a second thread.
    let scripts: Vec<_> = (0..THREADS).map(|seed| alone(4_000 + seed)).collect();
    let start = &Barrier::new(scripts.len());
    thread::scope(|scope| {
        for (lines, answers) in &scripts {
            scope.spawn(move || {
                let mut buffers = Buffers::new();
                start.wait();
                for (line, answer) in lines.iter().zip(answers) {
                    assert_eq!(buffers.call(line), answer);
                }
            });
        }
    });
}

/// What is lent to be read only may be lent to many.
#[test]
fn one_line_for_many_drivers() {
    let line = b"(snapshot (7 none) 51)";
    thread::scope(|scope| {
        for _ in 0..THREADS {
            scope.spawn(move || {
                let mut buffers = Buffers::new();
                for _ in 0..LINES {
                    assert_eq!(buffers.call(line), b"(view spare 51 undelivered)\n");
                }
            });
        }
    });
}
