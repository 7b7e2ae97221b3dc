//! Document 01's driver with Job 1's settle numbers, Job 2's way back from a sheet and Job 3's writing
//! of hashes, written a second time, without any code of the harness. One fault can be planted in it.

mod driver;
mod fault;
mod form;
mod hash;
mod read;
mod rebuild;
mod rules;
mod spoilt;
mod state;
mod write;

pub use driver::Driver;
pub use fault::{Fault, FAULTS};
pub use rebuild::{NotTaken, LONGEST_SHEET};
pub use state::{
    Anchor, End, Generation, Hash, Head, Link, Model, Outcome, Pose, Readiness, Shown, ShownHead,
    Skip, Stage, Waiter,
};
