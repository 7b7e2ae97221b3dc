//! Stand-in for the crate `degenbot-rpc`: a provider that answers from a script
//! in place of a node.

pub mod provider {
    use alloy::primitives::{Address, Bytes, StorageValue, B256, U256};
    use degenbot_core::errors::{ProviderError, ProviderResult};
    use parking_lot::Mutex;
    use std::future::{poll_fn, Future};
    use std::sync::Arc;
    use std::task::Poll;

    /// One account as a node reads it. No run asks for one.
    #[derive(Clone, Debug, Default, PartialEq, Eq)]
    pub struct AccountRead;

    /// A block access list in one of the two forms a node serves.
    #[derive(Clone, Debug, PartialEq, Eq)]
    pub enum BlockAccessListResponse {
        Raw(Bytes),
        Json(serde_json::Value),
    }

    /// The provider. Clones share one script, as clones of the published one
    /// share one transport.
    #[derive(Clone, Default)]
    pub struct AlloyProvider {
        next_list: Arc<Mutex<Option<ProviderResult<BlockAccessListResponse>>>>,
    }

    impl AlloyProvider {
        /// Put the answer that the next request for a list takes.
        pub fn answer_next_list(&self, answer: ProviderResult<BlockAccessListResponse>) {
            *self.next_list.lock() = Some(answer);
        }

        /// The scripted list. The request stays pending until one is put, so
        /// that a test can hold a preparation in the middle of its fetch.
        pub fn get_block_access_list(
            &self,
            _block_hash: B256,
        ) -> impl Future<Output = ProviderResult<BlockAccessListResponse>> + '_ {
            poll_fn(|_| match self.next_list.lock().take() {
                Some(answer) => Poll::Ready(answer),
                None => Poll::Pending,
            })
        }

        /// Storage is read by no call of document 01, so this always fails.
        ///
        /// # Errors
        ///
        /// Always.
        pub async fn get_storage_batch_results_at(
            &self,
            _slots: &[(Address, U256)],
            _number: u64,
        ) -> ProviderResult<Vec<ProviderResult<StorageValue>>> {
            Err(no_node())
        }

        /// Accounts are read by no call of document 01, so this always fails.
        ///
        /// # Errors
        ///
        /// Always.
        pub async fn get_accounts_batch_at(
            &self,
            _addresses: &[Address],
            _number: u64,
        ) -> ProviderResult<Vec<ProviderResult<AccountRead>>> {
            Err(no_node())
        }
    }

    fn no_node() -> ProviderError {
        ProviderError("the stand-in has no node behind it".to_owned())
    }
}
