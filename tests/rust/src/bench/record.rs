//! Word 0 of a page, taken apart.

use crate::words::{plain, Run, RECORD};

/// The states that the base uses. They stand as numbers, here and in the calls, as they do in document 01.
pub const BASE: [u64; 12] = [0, 1, 2, 3, 4, 24, 25, 26, 27, 29, 30, 31];

/// A record that is not strange.
#[derive(Clone, Copy, Debug, PartialEq, Eq)]
pub struct Record {
    pub state: u64,
    pub dirty: bool,
    pub cached: bool,
    pub stamp: u64,
    /// The page's last migration epoch.
    pub epoch: u64,
}

impl Record {
    /// None for a strange record, which so is in no state.
    pub fn of(word: u64) -> Option<Record> {
        let [state, dirty, cached, _, stamp, epoch, _] = RECORD;
        let record = Record {
            state: state.of(word),
            dirty: dirty.of(word) == 1,
            cached: cached.of(word) == 1,
            stamp: stamp.of(word),
            epoch: epoch.of(word),
        };
        (plain(word) && BASE.contains(&record.state)).then_some(record)
    }

    /// What start and RESTORE leave of a record: no migration epoch, and a stamp in 1 and 3 alone.
    pub fn outside_epochs(self) -> Record {
        let stamp = if matches!(self.state, 1 | 3) { self.stamp } else { 0 };
        Record { stamp, epoch: 0, ..self }
    }

    pub fn word(self) -> u64 {
        let [state, dirty, cached, _, stamp, epoch, _] = RECORD;
        let at = |r: Run, value: u64| value * 2u64.pow(r.lo);
        at(state, self.state)
            + at(dirty, self.dirty as u64)
            + at(cached, self.cached as u64)
            + at(stamp, self.stamp)
            + at(epoch, self.epoch)
    }
}

/// The table's records in the order of the pages.
pub fn records(table: &[u64]) -> impl Iterator<Item = Option<Record>> + '_ {
    table.chunks(2).map(|page| Record::of(page[0]))
}

/// Changes every record but the strange ones: no call but New changes those.
pub fn change_all(table: &mut [u64], change: impl Fn(Record) -> Record) {
    for page in table.chunks_mut(2) {
        if let Some(record) = Record::of(page[0]) {
            page[0] = change(record).word();
        }
    }
}
