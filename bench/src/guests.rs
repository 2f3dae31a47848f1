//! The inputs: all that a call is lent.

use chirpsteeple_tests::bench::LAST_EPOCH;
use chirpsteeple_tests::random::Random;

pub const PAGES: usize = 4096;
pub const ENTRIES: usize = 512;
pub const LISTS: usize = PAGES / ENTRIES;

pub const IDLE: u64 = 0;
pub const LIVE: u64 = 1;
pub const BLACKOUT: u64 = 2;

/// The session's epochs; a page's stamp and migration epoch are 1, so before them.
const TLB: u64 = 3;
const EPOCH: u64 = 2;

pub const DIRTY: u64 = 1 << 8;
pub const CACHED: u64 = 1 << 9;
const STAMPED: u64 = 1 << 16;
pub const MIGRATED: u64 = 1 << 32;
/// A spare bit, which makes a record strange.
pub const SPARE: u64 = 1 << 63;
/// The record of a page that is blocked, and not tracked since.
pub const UNTRACKED: u64 = 1 | TLB << 16;

/// A record in this state, Dirty and Cached clear, with stamp and migration epoch where a history leaves them.
pub fn record(state: u64) -> u64 {
    let stamp = if matches!(state, 0 | 27) { 0 } else { STAMPED };
    let epoch = if state >= 24 { MIGRATED } else { 0 };
    state | stamp | epoch
}

#[derive(Clone, PartialEq, Eq)]
pub struct Guest {
    pub session: Vec<u8>,
    pub table: Vec<u8>,
    /// As many entries as the table has pages; empty for a call that takes none.
    pub list: Vec<u8>,
    pub buffer: Vec<u8>,
}

impl Guest {
    /// A guest with each page's record picked from `records`.
    pub fn new(phase: u64, pages: usize, records: &[u64]) -> Guest {
        let mut session = vec![0; 48];
        let epoch = if phase == IDLE { 0 } else { EPOCH };
        session[..5].copy_from_slice(&[phase, pages as u64, TLB, epoch, 9]);
        let mut random = Random::new(5);
        let table: Vec<u64> = (0..pages as u64).flat_map(|page| [random.pick(records), 1_000 + page]).collect();
        Guest { session: bytes(&session), table: bytes(&table), list: Vec::new(), buffer: Vec::new() }
    }

    pub fn pages(&self) -> usize {
        self.table.len() / 16
    }

    fn with_session_word(mut self, index: usize, word: u64) -> Guest {
        self.session[8 * index..][..8].copy_from_slice(&word.to_le_bytes());
        self
    }

    /// Its check is at this page, and complete if that is the page count.
    pub fn checked_to(self, page: usize) -> Guest {
        let complete = page == self.pages();
        self.with_session_word(5, page as u64).with_session_word(6, complete as u64)
    }

    /// Its first stream is interrupted.
    pub fn interrupted(self) -> Guest {
        self.with_session_word(8, 1)
    }

    pub fn at_the_last_epochs(self) -> Guest {
        self.with_session_word(2, LAST_EPOCH).with_session_word(3, LAST_EPOCH)
    }

    /// The session's last word fits no stream.
    pub fn malformed(self) -> Guest {
        self.with_session_word(47, 1)
    }

    pub fn with_last_record(mut self, record: u64) -> Guest {
        let last = self.table.len() - 16;
        self.table[last..last + 8].copy_from_slice(&record.to_le_bytes());
        self
    }

    /// With lists in which nothing is written yet.
    pub fn with_lists(mut self) -> Guest {
        self.list = bytes(&vec![7; self.pages()]);
        self
    }

    /// With lists that ask for each page in turn, and buffers.
    pub fn with_entries(mut self) -> Guest {
        let entries: Vec<u64> = (0..self.pages() as u64).map(|page| 1 << 52 | page << 12).collect();
        self.list = bytes(&entries);
        self.buffer = bytes(&vec![7; self.pages()]);
        self
    }

    /// As `given` is, without a new allocation.
    pub fn copy_from(&mut self, given: &Guest) {
        self.session.copy_from_slice(&given.session);
        self.table.copy_from_slice(&given.table);
        self.list.copy_from_slice(&given.list);
        self.buffer.copy_from_slice(&given.buffer);
    }
}

fn bytes(words: &[u64]) -> Vec<u8> {
    words.iter().flat_map(|word| word.to_le_bytes()).collect()
}

/// The part of a guest's lists or buffers that the call number `index` is lent, if each is lent so many entries.
pub fn part(lists: &mut [u8], index: u64, entries: usize) -> &mut [u8] {
    &mut lists[8 * entries * index as usize..][..8 * entries]
}
