//! A page's record (word 0), and walks over the table.

use super::{set_word, word};

pub const DIRTY: u64 = 1 << 8;
pub const CACHED: u64 = 1 << 9;
const STATE: u64 = 0xff;
const STAMP: u64 = 0xffff << 16;
const EPOCH: u64 = 0xffff << 32;

/// None for a strange record, which is in no state.
pub fn state(record: u64) -> Option<u8> {
    let spare = !(STATE | DIRTY | CACHED | STAMP | EPOCH);
    let state = (record & STATE) as u8;
    (record & spare == 0 && matches!(state, 0..=4 | 24..=27 | 29..=31)).then_some(state)
}

pub fn with_state(record: u64, state: u8) -> u64 {
    record & !STATE | state as u64
}

pub fn stamp(record: u64) -> u64 {
    (record & STAMP) >> 16
}

pub fn with_stamp(record: u64, stamp: u64) -> u64 {
    record & !STAMP | stamp << 16
}

/// The page's last migration epoch.
pub fn epoch(record: u64) -> u64 {
    (record & EPOCH) >> 32
}

pub fn with_epoch(record: u64, epoch: u64) -> u64 {
    record & !EPOCH | epoch << 32
}

/// What start and RESTORE leave of a record: no migration epoch, and a stamp in 1 and 3 alone.
pub fn outside_epochs(state: u8, record: u64) -> u64 {
    let record = with_epoch(record, 0);
    if matches!(state, 1 | 3) { record } else { with_stamp(record, 0) }
}

/// Stamped before the TLB epoch began.
pub fn tracked(record: u64, tlb: u64) -> bool {
    (1..tlb).contains(&stamp(record))
}

pub fn records(table: &[u8]) -> impl Iterator<Item = u64> + '_ {
    table.chunks_exact(16).map(|page| word(page, 0))
}

/// Changes every record but the strange ones.
pub fn change_all(table: &mut [u8], change: impl Fn(u8, u64) -> u64) {
    for page in table.chunks_exact_mut(16) {
        let record = word(page, 0);
        if let Some(state) = state(record) {
            set_word(page, 0, change(state, record));
        }
    }
}
