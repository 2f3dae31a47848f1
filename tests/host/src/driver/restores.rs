//! What a driver does after an abort: the pages that it left in states of a migration are restored, by lists and in pieces.

use super::exports::budget;
use super::Driver;
use crate::comparison::Difference;
use crate::strays::whole_list;
use chirpsteeple_tests::bench::codes::INTERRUPTED;
use chirpsteeple_tests::bench::MOST_ENTRIES;
use chirpsteeple_tests::histories::any::asked;
use chirpsteeple_tests::host::bytes;

impl Driver<'_, '_> {
    pub(super) fn restore_what_is_left(&mut self) -> Result<(), Difference> {
        let left = self.pages_in(|state| state > 4);
        let room = if self.random.one_in(3) { left.len() / 2 + 1 } else { left.len() + 1 };
        left.chunks(room.min(MOST_ENTRIES)).try_for_each(|pages| self.restore(pages))
    }

    /// A list for these pages, with an entry that is anything now and then, until it is done or its driver is tired of it.
    fn restore(&mut self, pages: &[u64]) -> Result<(), Difference> {
        let list: Vec<u64> = pages.iter().map(|&page| asked(page)).collect();
        self.lent.list = bytes::bytes(&list).into();
        self.any_entry_now_and_then(list.len() as u64);
        let mut info = whole_list(&self.lent);
        loop {
            let budget = budget(self.random, list.len() as u64);
            let answer = self.call("restore", &[info, budget])?;
            if answer.code != INTERRUPTED || self.random.one_in(12) {
                return Ok(());
            }
            info = answer.info;
        }
    }
}
