pub mod storage_view;

#[path = "../../../published/sim/evm2/bal_prefetch.rs"]
pub mod bal_prefetch;
#[path = "../../../published/sim/evm2/delta_snapshot.rs"]
pub mod delta_snapshot;
#[path = "../../../published/sim/evm2/read_hub.rs"]
pub mod read_hub;

// `head_lifecycle`: the published bytes and after them the child module `probe`.
include!(concat!(env!("OUT_DIR"), "/head_lifecycle_module.rs"));
