pub mod evm2;

#[path = "../../published/sim/storage_memo.rs"]
pub mod storage_memo;
