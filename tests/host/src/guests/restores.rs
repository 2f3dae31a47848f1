//! What comes after an abort: small guests are restored by lists, in pieces, and start again.

use super::History;
use crate::play::Broken;
use crate::watcher::state;
use chirpsteeple_tests::bench::codes::DONE;
use chirpsteeple_tests::bench::lists::part;
use chirpsteeple_tests::bench::MOST_ENTRIES;
use chirpsteeple_tests::histories::any::asked;

impl History<'_, '_> {
    /// The pages that an abort left in states of a migration.
    pub(super) fn left(&self) -> Vec<u64> {
        (0..self.pages).filter(|&page| state(&self.guest.lent.table, page as usize) > 4).collect()
    }

    /// Restores those pages by lists, or anything, and mostly starts again.
    pub(crate) fn come_back(&mut self) -> Result<(), Broken> {
        let left: Vec<u64> = self.left().into_iter().map(asked).collect();
        for list in left.chunks(MOST_ENTRIES) {
            let list = if self.random.one_in(4) { self.any_list(0) } else { list.to_vec() };
            self.restore(&list)?;
        }
        match self.random.one_in(4) {
            true => self.guest_call(),
            false => self.call("start", &[]).map(drop),
        }
    }

    /// In pieces, until it is done or was left.
    fn restore(&mut self, list: &[u64]) -> Result<(), Broken> {
        self.guest.lend(self.random, list);
        self.listed = 0;
        let last = list.len() as u64 - 1;
        let mut first = 0;
        loop {
            let budget = self.budget(last - first + 1);
            let info = self.info(first, last);
            let answer = self.play.call(&mut self.guest, "restore", &[info, budget])?;
            if answer.code == DONE || self.random.one_in(8) {
                return Ok(());
            }
            if self.random.one_in(4) {
                self.guest_call()?;
            }
            (first, _) = part(answer.info);
        }
    }
}
