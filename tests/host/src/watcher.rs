//! Demand 3 as a host sees it. A watcher knows of the bench what calls were given and what came back, and keeps from that the guest's memory, its copy at the last pause, and the log of all that was exported since the last start.

use crate::calls::{Call, Lent};
use chirpsteeple_tests::bench::codes::{DONE, MALFORMED, MEM_SCAN_FAILED_BLOCKED_RANGE};
use chirpsteeple_tests::bench::Answer;
use chirpsteeple_tests::host::bytes::WORD;
use chirpsteeple_tests::words::INFO;
use std::ops::Range;

/// What a page holds, of the guest or at the destination.
#[derive(Clone, Copy, Debug, PartialEq, Eq)]
pub enum Contents {
    Absent,
    Pending(u64),
    Data(u64),
}

impl Contents {
    fn mark(self) -> u64 {
        match self {
            Contents::Absent => 0,
            Contents::Pending(mark) | Contents::Data(mark) => mark,
        }
    }
}

/// A successful entry, as the step that took it returned it.
#[derive(Clone, Copy, Debug)]
pub struct Entry {
    pub epoch: u64,
    pub page: usize,
    pub operation: u64,
    pub pending: bool,
    pub buffer: u64,
}

#[derive(Clone, Default)]
pub struct Watcher {
    pub memory: Vec<Contents>,
    pub at_pause: Vec<Contents>,
    pub log: Vec<Entry>,
    /// The migration epoch.
    epoch: u64,
    /// The epoch of each page's last entry in the log, or 0.
    latest: Vec<u64>,
    /// Between an accepted start, and the abort or the token that ends what it began.
    pub migrating: bool,
    /// Since New: an abort was accepted, a write landed on a page that it had left in a state of a migration, a page was restored.
    pub aborted: bool,
    pub written: bool,
    pub restored: bool,
    /// Since the last start: writes that landed and left Dirty clear, and exports that were interrupted.
    pub unseen: usize,
    pub interrupted: usize,
}

/// 51 is no refusal, and nor is what stands below 40.
pub fn refused(answer: &Answer) -> bool {
    answer.code >= MALFORMED && answer.code != MEM_SCAN_FAILED_BLOCKED_RANGE
}

/// A word in bytes that hold it.
pub fn word(bytes: &[u8], index: usize) -> u64 {
    u64::from_le_bytes(bytes[WORD * index..WORD * (index + 1)].try_into().unwrap())
}

/// The state of a page in a table; with a spare bit it is no state's number.
pub fn state(table: &[u8], page: usize) -> u64 {
    word(table, 2 * page) & 0xffff_0000_0000_fcff
}

fn dirty(table: &[u8], page: usize) -> bool {
    word(table, 2 * page) >> 8 & 1 == 1
}

/// The entries that a call by list took: from the FIRST that it was given to the one that came back, or to LAST.
fn taken(info: u64, answer: &Answer) -> Range<usize> {
    let [_, first, _, _, last] = INFO;
    let end = if answer.code == DONE { last.of(info) + 1 } else { first.of(answer.info) };
    first.of(info) as usize..end as usize
}

fn succeeded(word: u64) -> bool {
    let status = word >> 56 & 0x1f;
    status == 0
}

impl Watcher {
    /// A call, its answer, and what is lent as the call left it. What no bench may do is told.
    pub fn saw(&mut self, call: Call, answer: &Answer, lent: &Lent) -> Result<(), String> {
        if refused(answer) {
            return Ok(());
        }
        let [page, mark, ..] = call.numbers;
        let page = page as usize;
        match call.word {
            "new" => {
                let pages = lent.table.len() / (2 * WORD);
                *self = Watcher { memory: vec![Contents::Absent; pages], ..Watcher::default() };
            }
            "write" => {
                self.memory[page] = Contents::Data(mark);
                self.unseen += !dirty(&lent.table, page) as usize;
                self.written |= !self.migrating && state(&lent.table, page) > 4;
            }
            "add" => self.memory[page] = Contents::Pending(0),
            "accept" => self.memory[page] = Contents::Data(0),
            "remove" => self.memory[page] = Contents::Absent,
            "start" => {
                self.log.clear();
                self.latest = vec![0; self.memory.len()];
                (self.epoch, self.unseen, self.interrupted) = (1, 0, 0);
                self.migrating = true;
            }
            "newepoch" => self.epoch += 1,
            "pause" => self.at_pause = self.memory.clone(),
            "abort" => (self.aborted, self.migrating) = (true, false),
            "token" => self.migrating = false,
            "export" => {
                self.interrupted += (answer.code != DONE) as usize;
                let mut taken = taken(call.numbers[2], answer);
                return taken.try_for_each(|index| self.took(word(&lent.list, index), word(&lent.buffer, index)));
            }
            // Memory, copy and log pass it by.
            "restore" => {
                let mut taken = taken(call.numbers[0], answer);
                self.restored |= taken.any(|index| succeeded(word(&lent.list, index)));
            }
            _ => (),
        }
        Ok(())
    }

    fn took(&mut self, word: u64, buffer: u64) -> Result<(), String> {
        if !succeeded(word) {
            return Ok(());
        }
        let page = (word >> 12 & 0xff_ffff_ffff) as usize;
        let entry = Entry { epoch: self.epoch, page, operation: word >> 52 & 3, pending: word >> 2 & 1 == 1, buffer };
        match self.latest.get_mut(page) {
            None => return Err(format!("{entry:?} is of no page")),
            Some(epoch) if *epoch == self.epoch => return Err(format!("{entry:?} is its epoch's second of the page")),
            Some(epoch) => *epoch = self.epoch,
        }
        self.log.push(entry);
        Ok(())
    }

    /// The table's marks, and whether a page is there and accepted, are the memory.
    pub fn is_in(&self, table: &[u8]) -> Result<(), String> {
        for (page, &contents) in self.memory.iter().enumerate() {
            let (state, mark) = (state(table, page), word(table, 2 * page + 1));
            let held = match state {
                0 | 27 => Some(Contents::Absent),
                2 | 3 | 29 | 30 | 31 => Some(Contents::Pending(mark)),
                1 | 4 | 24 | 25 | 26 => Some(Contents::Data(mark)),
                _ => None,
            };
            if held != Some(contents) || mark != contents.mark() {
                return Err(format!("page {page} has state {state} and mark {mark:#x}, and should hold {contents:x?}"));
            }
        }
        Ok(())
    }
}
