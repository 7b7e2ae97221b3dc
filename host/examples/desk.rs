//! One driver and several threads: how an asynchronous host uses the library.
//!
//! A feed delivers heads, workers claim and fetch and apply, and desks read views and wait for
//! heads. What they share stands in one mutex.
//!
//! What the lock has to cover:
//!
//! - **One whole call**: the line, the sheet buffer and the answer buffer. `Driver::call` borrows
//!   the driver for just that long, so whoever has the lock's guard may call.
//! - **What is read out of an answer and has to fit the driver.** The feed puts the ticket down in
//!   the turn in which it delivers. In a turn of its own it could be late: another delivery would
//!   lie between, and its ticket would be overwritten by the older one.
//!
//! What it need not cover: **the fetch**. A worker claims in one turn, fetches without the lock,
//! and applies in another. If a newer head came in the meantime the driver tells by the ticket that
//! the apply is late, refuses it with 11 and keeps what it has; a list for another block is refused
//! with 12. A worker whose fetch fails releases its claim by ticket and epoch, and if that claim is
//! no longer the one that runs, the release does nothing. In an asynchronous program that means: the
//! guard is gone before the fetch is awaited.
//!
//! Nothing that is printed depends on how the threads take turns.

use std::sync::atomic::{AtomicU64, Ordering};
use std::sync::{Arc, Condvar, Mutex, MutexGuard};
use std::thread;
use std::time::Duration;
use temsroi::{Answer, Driver, End, Readiness, Refusal, Stats};

/// How many heads the feed delivers; every tenth comes twice, as a node that is asked again says it.
const HEADS: u64 = 2_000;
const WORKERS: u64 = 3;
const DESKS: u64 = 2;

/// The first block number.
const FIRST: u64 = 100;

/// A head as the feed delivered it: what a worker needs to name it.
#[derive(Clone)]
struct Head {
    anchor: String,
    ticket: u64,
}

/// What the lock covers.
struct Shared {
    driver: Driver,
    /// The newest head, put down in the turn of its delivery.
    head: Option<Head>,
    /// The feed has ended, and its last head is settled.
    over: bool,
}

impl Shared {
    fn call(&mut self, line: &str) -> Answer {
        match self.driver.call(line) {
            Ok(answer) => answer,
            Err(error) => panic!("{line}: {error}"),
        }
    }
}

/// The host: the driver under its lock, and counts of what the threads were answered.
struct Host {
    shared: Mutex<Shared>,
    /// Something happened that a thread may wait for.
    changed: Condvar,
    settled: AtomicU64,
    late: AtomicU64,
    views: AtomicU64,
    ready_views: AtomicU64,
}

impl Host {
    fn new() -> Self {
        let shared = Shared {
            driver: Driver::new(),
            head: None,
            over: false,
        };
        Self {
            shared: Mutex::new(shared),
            changed: Condvar::new(),
            settled: AtomicU64::new(0),
            late: AtomicU64::new(0),
            views: AtomicU64::new(0),
            ready_views: AtomicU64::new(0),
        }
    }

    fn lock(&self) -> MutexGuard<'_, Shared> {
        self.shared.lock().expect("no thread fails in its turn")
    }

    /// Give the lock up until something happens, or for a moment.
    fn rest<'a>(&self, turn: MutexGuard<'a, Shared>) -> MutexGuard<'a, Shared> {
        let waited = self.changed.wait_timeout(turn, Duration::from_millis(1));
        waited.expect("no thread fails in its turn").0
    }

    /// Count a view.
    fn seen(&self, readiness: Readiness) {
        self.views.fetch_add(1, Ordering::Relaxed);
        if readiness == Readiness::Ready {
            self.ready_views.fetch_add(1, Ordering::Relaxed);
        }
    }
}

/// The hash of a block.
fn hash(number: u64) -> String {
    format!("0x{number:064x}")
}

fn anchor(number: u64) -> String {
    format!("({number} {})", hash(number))
}

/// Stands for work: the threads get out of step, and the example ends soon.
fn pass_time(number: u64) {
    thread::sleep(Duration::from_micros(number * 37 % 300));
}

/// Delivers the heads, waits until the last one is settled, and ends.
fn feed(host: &Host) {
    for number in FIRST..FIRST + HEADS {
        let anchor = anchor(number);
        let line = format!("(deliver {anchor} {} {number})", hash(number - 1));
        let times = if number % 10 == 0 { 2 } else { 1 };
        for _ in 0..times {
            let mut turn = host.lock();
            let Answer::Ticket(ticket) = turn.call(&line) else {
                panic!("a delivery is answered with a ticket");
            };
            let anchor = anchor.clone();
            turn.head = Some(Head { anchor, ticket });
            drop(turn);
            host.changed.notify_all();
        }
        pass_time(number);
    }
    let last = anchor(FIRST + HEADS - 1);
    let mut turn = host.lock();
    while turn.call(&format!("(completion {last})")) != Answer::Completion(End::Settled) {
        turn = host.rest(turn);
    }
    turn.over = true;
    drop(turn);
    host.changed.notify_all();
}

/// Claims the newest head, fetches its list, applies it or gives the claim up; over and over.
fn work(host: &Host, worker: u64) {
    let mut fetches = worker;
    while let Some((head, epoch)) = claim(host) {
        // The fetch runs without the lock.
        pass_time(fetches * 11);
        fetches += WORKERS;
        if fetches % 5 == 0 {
            give_up(host, &head, epoch);
        } else {
            apply(host, &head, fetches);
        }
        host.changed.notify_all();
    }
}

/// A head that is this worker's now, with the claim's epoch; none when all is over.
fn claim(host: &Host) -> Option<(Head, u64)> {
    let mut turn = host.lock();
    while !turn.over {
        if let Some(head) = turn.head.clone() {
            match turn.call(&format!("(claim {} {})", head.anchor, head.ticket)) {
                Answer::Claimed(epoch) => return Some((head, epoch)),
                // Settled already, or another worker prepares it. The ticket is the head's, since
                // both were put down in one turn: so it is never 11.
                Answer::Refused(Refusal::AlreadySettled | Refusal::InFlight) => {}
                other => panic!("a claim: {other}"),
            }
        }
        turn = host.rest(turn);
    }
    None
}

fn give_up(host: &Host, head: &Head, epoch: u64) {
    let line = format!("(release {} {epoch})", head.ticket);
    assert_eq!(host.lock().call(&line), Answer::Done);
}

fn apply(host: &Host, head: &Head, handle: u64) {
    let Head { anchor, ticket } = head;
    let line = format!("(apply {anchor} {ticket} {anchor} none {handle} 0 {handle})");
    let answer = host.lock().call(&line);
    match answer {
        Answer::Settled(_) => host.settled.fetch_add(1, Ordering::Relaxed),
        // A newer head came during the fetch.
        Answer::Refused(Refusal::Superseded { .. }) => host.late.fetch_add(1, Ordering::Relaxed),
        other => panic!("an apply: {other}"),
    };
}

/// Looks at the newest head and waits for it, under the desk's own waiter number; over and over.
fn read(host: &Host, waiter: u64) {
    let mut turn = host.lock();
    while !turn.over {
        let Some(Head { anchor, .. }) = turn.head.clone() else {
            turn = host.rest(turn);
            continue;
        };
        for line in [
            format!("(snapshot {anchor} {waiter})"),
            format!("(wait {waiter} {anchor} {waiter})"),
        ] {
            let mut answer = turn.call(&line);
            // Somebody prepares it: ask again until the wait is over.
            while answer == Answer::Parked {
                turn = host.rest(turn);
                answer = turn.call(&format!("(resume {waiter} {waiter})"));
            }
            match answer {
                Answer::View(view) => host.seen(view.readiness),
                other => panic!("{line}: {other}"),
            }
        }
        turn = host.rest(turn);
    }
}

/// The totals: each is the same in every run, or tied to what the threads counted.
fn totals(host: &Host) {
    let mut turn = host.lock();
    let Answer::Stats(stats) = turn.call("(stats)") else {
        panic!("stats are answered with stats");
    };
    let count = |counter: &AtomicU64| counter.load(Ordering::Relaxed);
    let Stats {
        delivered,
        repeated,
        already_current,
        ..
    } = stats;
    assert_eq!(delivered, HEADS);
    assert_eq!(repeated, HEADS / 10);
    assert_eq!(already_current, 0);
    // Each head either settled, or another replaced it before.
    assert_eq!(stats.settled + stats.superseded, HEADS);
    assert_eq!(stats.settled, count(&host.settled));
    assert_eq!(stats.discarded, count(&host.late));
    assert_eq!(stats.ready_views + stats.cold_views, count(&host.views));
    // A resume that says abandoned of a block that is ready by now counts as ready too.
    assert!(stats.ready_views >= count(&host.ready_views));
    // No desk waits any more, so that the sheet has its five lines only.
    assert_eq!(turn.driver.sheet().lines().count(), 5);

    let last = FIRST + HEADS - 1;
    let Answer::Heads(heads) = turn.call("(heads)") else {
        panic!("heads are answered with heads");
    };
    let installed = heads.installed.map(|head| head.number);
    assert_eq!(installed, Some(last));

    println!("{delivered} heads delivered, and {repeated} of them once more");
    println!("{HEADS} of them settled or replaced before");
    println!("every late apply refused, every view counted, nobody waiting");
    println!("block {last} installed");
}

fn main() {
    let host = Arc::new(Host::new());
    let mut threads = Vec::new();
    let mut start = |run: Box<dyn FnOnce(&Host) + Send>| {
        let host = Arc::clone(&host);
        threads.push(thread::spawn(move || run(&host)));
    };
    start(Box::new(feed));
    for worker in 0..WORKERS {
        start(Box::new(move |host| work(host, worker)));
    }
    for desk in 0..DESKS {
        start(Box::new(move |host| read(host, desk)));
    }
    for thread in threads {
        thread.join().expect("no thread fails");
    }
    totals(&host);
}
