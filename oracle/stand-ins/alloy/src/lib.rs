//! Stand-in for the crate `alloy`: the five types of `alloy::primitives` that
//! the published files name, as plain bytes with equality and hashing.

pub mod primitives {
    use serde::Deserialize;
    use std::ops::Deref;

    /// A 20-byte account address.
    #[derive(Clone, Copy, Debug, Default, PartialEq, Eq, Hash, Deserialize)]
    pub struct Address(pub [u8; 20]);

    /// A 32-byte hash.
    #[derive(Clone, Copy, Debug, Default, PartialEq, Eq, Hash)]
    pub struct B256(pub [u8; 32]);

    /// A 256-bit word. The head lifecycle only moves such words about, so no
    /// arithmetic is offered.
    #[derive(Clone, Copy, Debug, Default, PartialEq, Eq, Hash, Deserialize)]
    pub struct U256(pub [u8; 32]);

    /// The word a storage slot holds.
    pub type StorageValue = U256;

    /// An owned byte string.
    #[derive(Clone, Debug, Default, PartialEq, Eq)]
    pub struct Bytes(Vec<u8>);

    impl Bytes {
        #[must_use]
        pub fn copy_from_slice(bytes: &[u8]) -> Self {
            Self(bytes.to_vec())
        }
    }

    impl Deref for Bytes {
        type Target = [u8];

        fn deref(&self) -> &[u8] {
            &self.0
        }
    }
}
