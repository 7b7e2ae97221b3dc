//! The host's numbers for things that the published code knows by pointer.

use std::sync::Arc;

/// A table from things to names, by pointer identity. A thing stays alive while
/// it is in the table, so its address is never taken by another.
pub(crate) struct Names<T, N> {
    named: Vec<(Arc<T>, N)>,
}

impl<T, N: Copy> Names<T, N> {
    pub(crate) const fn new() -> Self {
        Self { named: Vec::new() }
    }

    /// Name `thing`, and forget every thing that only this table still holds.
    pub(crate) fn give(&mut self, thing: &Arc<T>, name: N) {
        self.named.retain(|(held, _)| Arc::strong_count(held) > 1);
        self.named.push((Arc::clone(thing), name));
    }

    pub(crate) fn get(&self, thing: &Arc<T>) -> Option<N> {
        self.named
            .iter()
            .find(|(held, _)| Arc::ptr_eq(held, thing))
            .map(|(_, name)| *name)
    }
}
