//! The eighteen calls on byte slices, without a proof in mind and without tricks: the session is read and checked whole, the table is walked and changed in place.

mod export;
mod lists;
mod memory;
mod migration;
mod page;
mod restore;
mod scan;
mod session;

pub use export::export;
pub use memory::{accept, add, block, new, remove, track, unblock, write};
pub use migration::{abort, new_epoch, pause, start, start_token};
pub use restore::restore;
pub use scan::{dcheck, dscan, reset};

use chirpsteeple_tests::bench::codes::DONE;

fn word(bytes: &[u8], index: usize) -> u64 {
    u64::from_le_bytes(bytes[8 * index..8 * index + 8].try_into().unwrap())
}

fn set_word(bytes: &mut [u8], index: usize, value: u64) {
    bytes[8 * index..8 * index + 8].copy_from_slice(&value.to_le_bytes());
}

/// The code of a call that answers nothing else.
fn code(outcome: Result<(), u64>) -> u64 {
    outcome.err().unwrap_or(DONE)
}
