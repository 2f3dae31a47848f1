//! 'Guest and memory calls'.

use super::page::*;
use super::session::{at, Phase, Session, BYTES, LAST_EPOCH};
use super::{code, set_word, word};
use chirpsteeple_tests::bench::codes::*;

const GUEST: [Phase; 2] = [Phase::Idle, Phase::Live];

#[inline(never)]
pub fn new(session: &mut [u8], table: &mut [u8], streams: u64) -> u64 {
    if session.len() != BYTES || table.is_empty() || table.len() % 16 != 0 || table.len() > 16 * 4096 {
        return MALFORMED;
    }
    if !(2..=9).contains(&streams) {
        return OPERAND_INVALID;
    }
    table.fill(0);
    session.fill(0);
    set_word(session, at::PAGES, table.len() as u64 / 16);
    set_word(session, at::TLB, 1);
    set_word(session, at::CREATED, streams);
    DONE
}

/// A page's two words.
struct Page {
    record: u64,
    mark: u64,
}

/// A call on one page, after 40 and 41: 42, or what `change` makes of the page. `strange` is the code of a strange record.
fn on_page(
    table: &mut [u8],
    page: u64,
    strange: u64,
    change: impl FnOnce(u8, Page) -> Result<Page, u64>,
) -> Result<(), u64> {
    if page >= table.len() as u64 / 16 {
        return Err(OPERAND_INVALID);
    }
    let bytes = &mut table[16 * page as usize..][..16];
    let found = Page { record: word(bytes, 0), mark: word(bytes, 1) };
    let left = change(state(found.record).ok_or(strange)?, found)?;
    set_word(bytes, 0, left.record);
    set_word(bytes, 1, left.mark);
    Ok(())
}

#[inline(never)]
pub fn write(session: &[u8], table: &mut [u8], page: u64, mark: u64) -> u64 {
    code(Session::open(session, table, &GUEST).and_then(|_| {
        on_page(table, page, EPT_ENTRY_STATE_INCORRECT, |state, Page { record, .. }| {
            let cached = record & CACHED != 0;
            match state {
                4 | 24 | 25 if cached => Ok(Page { record, mark }),
                4 | 24 | 25 => Ok(Page { record: record | DIRTY | CACHED, mark }),
                1 | 26 if cached => Ok(Page { record, mark }),
                _ => Err(EPT_ENTRY_STATE_INCORRECT),
            }
        })
    }))
}

/// What add, accept and remove leave: no mark, Dirty, Cached or stamp, the migration epoch as it was.
fn cleared(state: u8, found: Page) -> Page {
    Page { record: with_epoch(state as u64, epoch(found.record)), mark: 0 }
}

#[inline(never)]
pub fn add(session: &[u8], table: &mut [u8], page: u64) -> u64 {
    code(Session::open(session, table, &GUEST).and_then(|_| {
        on_page(table, page, EPT_ENTRY_STATE_INCORRECT, |state, found| match state {
            0 => Ok(cleared(2, found)),
            _ => Err(EPT_ENTRY_STATE_INCORRECT),
        })
    }))
}

#[inline(never)]
pub fn accept(session: &[u8], table: &mut [u8], page: u64) -> u64 {
    code(Session::open(session, table, &GUEST).and_then(|session| {
        on_page(table, page, EPT_ENTRY_STATE_INCORRECT, |state, found| match state {
            2 => Ok(cleared(4, found)),
            29 | 30 if session.phase == Phase::Live => Ok(cleared(25, found)),
            _ => Err(EPT_ENTRY_STATE_INCORRECT),
        })
    }))
}

#[inline(never)]
pub fn block(session: &[u8], table: &mut [u8], page: u64) -> u64 {
    // 49 takes 41's place in Blackout alone.
    let opened = Session::open(session, table, &[Phase::Idle, Phase::Live, Phase::Blackout]);
    code(opened.and_then(|session| {
        if session.phase == Phase::Blackout {
            return Err(BLOCKING_DISALLOWED);
        }
        on_page(table, page, EPT_ENTRY_STATE_INCORRECT, |state, Page { record, mark }| {
            let state = match state {
                4 => 1,
                2 => 3,
                24 | 25 if session.phase == Phase::Live => 26,
                29 | 30 if session.phase == Phase::Live => 31,
                _ => return Err(EPT_ENTRY_STATE_INCORRECT),
            };
            Ok(Page { record: with_stamp(with_state(record, state), session.tlb), mark })
        })
    }))
}

/// Unblock and remove: a page in a state that `moved` knows, tracked since it was blocked, and not left in Idle by an abort.
fn on_blocked_page(
    session: &[u8],
    table: &mut [u8],
    page: u64,
    moved: impl Fn(u8) -> Option<u8>,
    change: impl FnOnce(u8, Page) -> Page,
) -> u64 {
    code(Session::open(session, table, &GUEST).and_then(|session| {
        on_page(table, page, GPA_RANGE_NOT_BLOCKED, |state, found| {
            if session.phase == Phase::Idle && state >= 24 {
                return Err(EPT_ENTRY_STATE_INCORRECT);
            }
            let state = moved(state).ok_or(GPA_RANGE_NOT_BLOCKED)?;
            if !tracked(found.record, session.tlb) {
                return Err(TLB_TRACKING_NOT_DONE);
            }
            Ok(change(state, found))
        })
    }))
}

#[inline(never)]
pub fn unblock(session: &[u8], table: &mut [u8], page: u64) -> u64 {
    let moved = |state| match state {
        1 => Some(4),
        3 => Some(2),
        26 => Some(25),
        31 => Some(30),
        _ => None,
    };
    on_blocked_page(session, table, page, moved, |state, Page { record, mark }| Page {
        record: with_stamp(with_state(record, state), 0),
        mark,
    })
}

#[inline(never)]
pub fn remove(session: &[u8], table: &mut [u8], page: u64) -> u64 {
    let moved = |state| match state {
        1 | 3 => Some(0),
        26 | 31 => Some(27),
        _ => None,
    };
    on_blocked_page(session, table, page, moved, cleared)
}

#[inline(never)]
pub fn track(session: &mut [u8], table: &mut [u8]) -> u64 {
    code(Session::open(session, table, &GUEST).and_then(|opened| {
        if opened.tlb == LAST_EPOCH {
            return Err(TLB_EPOCH_AT_LIMIT);
        }
        set_word(session, at::TLB, opened.tlb + 1);
        change_all(table, |_, record| record & !CACHED);
        Ok(())
    }))
}
