//! Stand-in for degenbot's `storage_view.rs`, which was not published with the
//! other files: the trait as `delta_snapshot.rs` implements it.

use alloy::primitives::{Address, StorageValue, U256};

/// A synchronous view of one generation's storage.
pub trait StorageView {
    fn get(&self, address: Address, index: U256) -> Option<StorageValue>;
    fn put(&self, address: Address, index: U256, value: StorageValue);
}
