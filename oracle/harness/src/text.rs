//! The text of single values, as calls, answers and sheets all write them.

use alloy::primitives::B256;
use degenbot_simulation::sim::evm2::bal_prefetch::BalSkip;
use degenbot_simulation::sim::evm2::read_hub::CarryRefusal;
use degenbot_simulation::sim::storage_memo::ReadAnchor;
use std::io::Write;

/// What stands before the digits of a hash.
pub(crate) const HEX_PREFIX: &[u8] = b"0x";

const HEX_DIGITS: &[u8; 16] = b"0123456789abcdef";

/// Document 01's skip: a [`BalSkip`] or none, with a number for the error text.
#[derive(Clone, Copy, Debug, PartialEq, Eq)]
pub enum Skip {
    None,
    NoHash,
    Rpc(u64),
    Decode(u64),
}

impl Skip {
    /// The skip that the published code reports. The number is found again in
    /// the error text that travelled through it.
    pub(crate) fn reported(skip: Option<&BalSkip>) -> Self {
        match skip {
            None => Self::None,
            Some(BalSkip::NoAnchorHash) => Self::NoHash,
            Some(BalSkip::Rpc(text)) => Self::Rpc(number_in(text)),
            Some(BalSkip::Decode(text)) => Self::Decode(number_in(text)),
        }
    }
}

/// The one number in an error text.
fn number_in(text: &str) -> u64 {
    let digits: String = text.chars().filter(char::is_ascii_digit).collect();
    digits
        .parse()
        .expect("a scripted error text holds one number")
}

pub(crate) fn put_number(out: &mut Vec<u8>, number: u64) {
    write!(out, "{number}").expect("a Vec takes every write");
}

/// `0x` and 64 lowercase digits.
pub(crate) fn put_hash(out: &mut Vec<u8>, hash: B256) {
    out.extend_from_slice(HEX_PREFIX);
    for byte in hash.0 {
        out.push(HEX_DIGITS[usize::from(byte >> 4)]);
        out.push(HEX_DIGITS[usize::from(byte & 15)]);
    }
}

pub(crate) fn put_anchor(out: &mut Vec<u8>, anchor: ReadAnchor) {
    out.push(b'(');
    put_number(out, anchor.number);
    out.push(b' ');
    match anchor.hash {
        Some(hash) => put_hash(out, hash),
        None => out.extend_from_slice(b"none"),
    }
    out.push(b')');
}

pub(crate) fn put_optional_anchor(out: &mut Vec<u8>, anchor: Option<ReadAnchor>) {
    match anchor {
        Some(anchor) => put_anchor(out, anchor),
        None => out.extend_from_slice(b"none"),
    }
}

pub(crate) fn put_skip(out: &mut Vec<u8>, skip: Skip) {
    match skip {
        Skip::None => out.extend_from_slice(b"none"),
        Skip::NoHash => out.extend_from_slice(b"no-hash"),
        Skip::Rpc(number) => put_numbered(out, b"(rpc ", number),
        Skip::Decode(number) => put_numbered(out, b"(decode ", number),
    }
}

/// An opened form with a number as its last part.
pub(crate) fn put_numbered(out: &mut Vec<u8>, opened: &[u8], number: u64) {
    out.extend_from_slice(opened);
    put_number(out, number);
    out.push(b')');
}

/// Document 01's word for a link fault; the published labels differ.
pub(crate) fn link_word(refusal: &CarryRefusal) -> &'static [u8] {
    match refusal {
        CarryRefusal::NoParent => b"no-parent",
        CarryRefusal::NotConsecutive => b"not-consecutive",
        CarryRefusal::ParentHashUnknown => b"hash-unknown",
        CarryRefusal::ParentHashMismatch => b"hash-mismatch",
    }
}

/// `(cold LINK SKIP)`, each part `none` where it found no fault.
pub(crate) fn put_cold(out: &mut Vec<u8>, link: Option<&CarryRefusal>, skip: Skip) {
    out.extend_from_slice(b"(cold ");
    out.extend_from_slice(link.map_or(b"none", link_word));
    out.push(b' ');
    put_skip(out, skip);
    out.push(b')');
}
