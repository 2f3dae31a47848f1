//! What the calls by list share: what is asked of list and info word, entries in turn, and FIRST on the way out.

use super::MOST_ENTRIES;
use crate::words::{ENTRY, INFO};
use std::ops::Range;

/// An entry's STATUS.
pub mod status {
    pub const SUCCESS: u64 = 0;
    pub const SKIPPED: u64 = 1;
    pub const BEYOND_THE_TABLE: u64 = 2;
    pub const STATE_INCORRECT: u64 = 4;
    pub const NOT_TRACKED: u64 = 5;
    pub const MIGRATED_THIS_EPOCH: u64 = 7;
    pub const INVALID: u64 = 15;
    pub const DIRTY: u64 = 17;
}

/// What an entry's OPERATION says on the way out that was done: nothing, one of the three by export, or the last by RESTORE.
pub mod operation {
    pub const NONE: u64 = 0;
    pub const MIGRATE: u64 = 1;
    pub const CANCEL: u64 = 2;
    pub const REMIGRATE: u64 = 3;
    pub const RESTORE: u64 = 1;
}

/// The 42 of any list and its info word.
pub fn invalid(list: &[u64], info: u64) -> bool {
    let [format, _, _, zero, last] = INFO;
    list.is_empty()
        || list.len() > MOST_ENTRIES
        || format.of(info) != 0
        || zero.of(info) != 0
        || last.of(info) >= list.len() as u64
}

/// FIRST and LAST.
pub fn part(info: u64) -> (u64, u64) {
    let [_, first, _, _, last] = INFO;
    (first.of(info), last.of(info))
}

/// The entries that a call takes: from the next one to the last, and no more than the budget.
pub fn in_turn(next: u64, last: u64, budget: u64) -> Range<usize> {
    let end = next.saturating_add(budget).min(last + 1);
    next as usize..end as usize
}

/// The info word as it comes back.
pub fn info_back(info: u64, next: u64) -> u64 {
    let [_, first, ..] = INFO;
    first.with(info, next % 512)
}

/// Bits that are reserved, LEVEL or MIG_TYPE are not 0.
pub fn malformed(word: u64) -> bool {
    let [level, _, _, reserved5, _, mig_type, _, _, reserved54, _, reserved61] = ENTRY;
    [level, reserved5, mig_type, reserved54, reserved61].iter().any(|run| run.of(word) != 0)
}

pub fn page_of(word: u64) -> u64 {
    let [_, _, _, _, _, _, gpa, ..] = ENTRY;
    gpa.of(word)
}

/// The entry with what was done of it, and how that ended.
pub fn told(word: u64, done: u64, found: u64) -> u64 {
    let [_, _, _, _, _, _, _, operation, _, status, _] = ENTRY;
    status.with(operation.with(word, done), found)
}
