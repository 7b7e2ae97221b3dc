//! The published files of `degenbot-simulation`, compiled as they are, under
//! the module paths they have there.

pub mod sim;
