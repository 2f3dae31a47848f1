//! The destination: what it holds once the log was replayed, and what it must hold when the token was granted.

use crate::watcher::{state, word, Contents, Entry, Watcher};
use chirpsteeple_tests::bench::lists::operation::{CANCEL, MIGRATE, REMIGRATE};
use chirpsteeple_tests::random::Random;

/// In so many orders each log is replayed.
const ORDERS: usize = 4;

/// The entries with their epochs in order, and those of one epoch in any.
fn any_order(random: &mut Random, log: &[Entry]) -> Vec<Entry> {
    let mut drawn: Vec<(u64, u64, Entry)> = log.iter().map(|&entry| (entry.epoch, random.word(), entry)).collect();
    drawn.sort_by_key(|&(epoch, lot, _)| (epoch, lot));
    drawn.into_iter().map(|(_, _, entry)| entry).collect()
}

/// What a destination of so many pages, all absent at first, holds in the end; or the entry that does not fit where it lands.
fn replayed(entries: &[Entry], pages: usize) -> Result<Vec<Contents>, String> {
    let mut destination = vec![Contents::Absent; pages];
    for entry in entries {
        let page = &mut destination[entry.page];
        let absent = *page == Contents::Absent;
        *page = match entry.operation {
            MIGRATE if absent => sent(entry),
            REMIGRATE if !absent => sent(entry),
            CANCEL if !absent => Contents::Absent,
            _ => return Err(format!("{entry:?} lands on {page:x?}")),
        };
    }
    Ok(destination)
}

fn sent(entry: &Entry) -> Contents {
    match entry.pending {
        true => Contents::Pending(entry.buffer),
        false => Contents::Data(entry.buffer),
    }
}

/// What the table says that the destination holds, if no page is in the way of the token.
fn said(table: &[u8], pages: usize) -> Result<Vec<Contents>, String> {
    let said = |page| match (state(table, page), word(table, 2 * page + 1)) {
        (24, mark) => Ok(Contents::Data(mark)),
        (29, 0) => Ok(Contents::Pending(0)),
        (0, _) => Ok(Contents::Absent),
        (state, mark) => Err(format!("page {page} has state {state} and mark {mark:#x} at the token")),
    };
    (0..pages).map(said).collect()
}

/// The token was granted: the replayed log, the table and the copy at the pause are one.
pub fn granted(watcher: &Watcher, table: &[u8], random: &mut Random) -> Result<(), String> {
    let pages = watcher.memory.len();
    let said = said(table, pages)?;
    same("the table", &said, "the copy at the pause", &watcher.at_pause)?;
    for _ in 0..ORDERS {
        let destination = replayed(&any_order(random, &watcher.log), pages)?;
        same("the destination", &destination, "the table", &said)?;
    }
    Ok(())
}

fn same(name: &str, left: &[Contents], other: &str, right: &[Contents]) -> Result<(), String> {
    match (0..left.len()).find(|&page| left[page] != right[page]) {
        Some(page) => Err(format!("page {page}: {name} has {:x?}, {other} {:x?}", left[page], right[page])),
        None => Ok(()),
    }
}
