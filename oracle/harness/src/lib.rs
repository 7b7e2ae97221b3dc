//! The published head lifecycle behind document 01's lines.
//!
//! Data goes one way: line, [`Call`], [`Oracle::step`], [`Answer`], line. What
//! document 01 marks "added" is done here: the lines, refusals 1, 2, 3, 15 and
//! 16, handles, waiter slots and the sheet's writing. Everything else comes out
//! of the published code.

#[cfg(test)]
mod advance;
mod answer;
mod call;
mod names;
mod oracle;
mod sheet;
mod start;
mod text;

pub use answer::{Answer, Outcome, Refusal, View};
pub use call::{Apply, Call, LONGEST_LINE};
pub use oracle::{answer_lines, Oracle, WAITERS};
pub use start::{Start, COUNTERS};
pub use text::Skip;

pub use alloy::primitives::B256;
pub use degenbot_simulation::sim::evm2::head_lifecycle::probe::Unshown;
pub use degenbot_simulation::sim::storage_memo::ReadAnchor;
