//! Stand-in for the crate `degenbot-core`: the provider's error.

pub mod errors {
    /// A provider's failure, known by its text alone: the published code does
    /// nothing with it but pass the text on.
    #[derive(Clone, Debug, PartialEq, Eq, thiserror::Error)]
    #[error("{0}")]
    pub struct ProviderError(pub String);

    pub type ProviderResult<T> = Result<T, ProviderError>;
}
