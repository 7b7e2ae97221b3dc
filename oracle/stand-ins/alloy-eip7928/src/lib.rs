//! Stand-in for the crate `alloy-eip7928`: a block access list as the published
//! fold reads it.
//!
//! Document 01 leaves stored values out, so every list of a run is empty or
//! unreadable. What stays real is the way there: the JSON form is refused by
//! serde itself, and its error text is what a `(decode N)` skip carries.

use alloy::primitives::{Address, U256};
use serde::Deserialize;

/// One account's entries: final writes and read-only slots.
#[derive(Clone, Debug, PartialEq, Eq, Deserialize)]
pub struct AccountChanges {
    pub address: Address,
    storage_changes: Vec<(U256, U256)>,
    storage_reads: Vec<U256>,
}

impl AccountChanges {
    /// Each written slot with its value after the block.
    pub fn storage_post_states(&self) -> impl Iterator<Item = (U256, U256)> + '_ {
        self.storage_changes.iter().copied()
    }

    #[must_use]
    pub fn storage_reads(&self) -> &[U256] {
        &self.storage_reads
    }
}

pub mod bal {
    use super::AccountChanges;
    use alloy::primitives::Bytes;
    use serde::Deserialize;
    use std::ops::Deref;

    /// The RLP encoding of the empty list, the only raw list of a run.
    pub const EMPTY_RLP_LIST: [u8; 1] = [0xc0];

    /// A block access list.
    #[derive(Clone, Debug, Default, PartialEq, Eq, Deserialize)]
    #[serde(transparent)]
    pub struct Bal(Vec<AccountChanges>);

    impl Deref for Bal {
        type Target = [AccountChanges];

        fn deref(&self) -> &[AccountChanges] {
            &self.0
        }
    }

    /// Why raw bytes are no list.
    #[derive(Clone, Copy, Debug, PartialEq, Eq, thiserror::Error)]
    #[error("not the empty RLP list")]
    pub struct RlpError;

    /// A list decoded from raw bytes.
    #[derive(Clone, Debug, PartialEq, Eq)]
    pub struct DecodedBal(Bal);

    impl DecodedBal {
        /// Decode the empty list; any other bytes are refused.
        ///
        /// # Errors
        ///
        /// [`RlpError`] when `raw` is not [`EMPTY_RLP_LIST`].
        pub fn from_rlp_bytes_as<T>(raw: Bytes) -> Result<Self, RlpError>
        where
            T: Default + Into<Bal>,
        {
            if *raw == EMPTY_RLP_LIST {
                Ok(Self(T::default().into()))
            } else {
                Err(RlpError)
            }
        }

        #[must_use]
        pub fn as_bal(&self) -> &Bal {
            &self.0
        }
    }
}
