//! 'Guest and memory calls'.

use super::codes::*;
use super::record::{change_all, Record};
use super::session::{Check, Phase, Session};
use super::{legal_length, refusal, Answer, LAST_EPOCH};

/// The phases of the section's heading.
const GUEST: [Phase; 2] = [Phase::Idle, Phase::Live];

pub fn new(session: &mut Session, table: &mut [u64], created: u64) -> Answer {
    if !legal_length(table) {
        return Answer::plain(MALFORMED);
    }
    if !(2..=9).contains(&created) {
        return Answer::plain(OPERAND_INVALID);
    }
    table.fill(0);
    *session = Session {
        phase: Phase::Idle,
        pages: table.len() as u64 / 2,
        tlb: 1,
        epoch: 0,
        created,
        check: Check::RESET,
        streams: Session::STREAMS_AT_REST,
    };
    Answer::plain(DONE)
}

/// A page as a call finds or leaves it.
struct Page {
    record: Record,
    mark: u64,
}

/// A call on one page, after 40 and 41: 42, or what `change` makes of the page. `strange` is the code of a strange record, which is in none of the states that `change` knows.
fn on_page(table: &mut [u64], page: u64, strange: u64, change: impl Fn(Page) -> Result<Page, u64>) -> Answer {
    if page >= table.len() as u64 / 2 {
        return Answer::plain(OPERAND_INVALID);
    }
    let first = 2 * page as usize;
    let found = Record::of(table[first]).map(|record| Page { record, mark: table[first + 1] });
    match found.map_or(Err(strange), change) {
        Ok(left) => {
            table[first] = left.record.word();
            table[first + 1] = left.mark;
            Answer::plain(DONE)
        }
        Err(code) => Answer::plain(code),
    }
}

/// Any of these calls but write. While Idle, a page in a state of a migration, in which an abort left it, is 45 until RESTORE has brought it back.
fn on_settled_page(
    session: &Session,
    table: &mut [u64],
    page: u64,
    strange: u64,
    change: impl Fn(Page) -> Result<Page, u64>,
) -> Answer {
    let left = |record: Record| session.phase == Phase::Idle && matches!(record.state, 24..=27 | 29..=31);
    on_page(table, page, strange, |found| match left(found.record) {
        true => Err(EPT_ENTRY_STATE_INCORRECT),
        false => change(found),
    })
}

pub fn write(session: &mut Session, table: &mut [u64], page: u64, mark: u64) -> Answer {
    if let Some(code) = refusal(session, table, &GUEST) {
        return Answer::plain(code);
    }
    on_page(table, page, EPT_ENTRY_STATE_INCORRECT, |Page { record, .. }| match record.state {
        4 | 24 | 25 => {
            let dirty = if record.cached { record.dirty } else { true };
            Ok(Page { record: Record { dirty, cached: true, ..record }, mark })
        }
        1 | 26 if record.cached => Ok(Page { record, mark }),
        _ => Err(EPT_ENTRY_STATE_INCORRECT),
    })
}

/// What add, accept and remove leave: a state without mark, Dirty, Cached and stamp, with the migration epoch that was there.
fn cleared(state: u64, found: Page) -> Page {
    let epoch = found.record.epoch;
    Page { record: Record { state, dirty: false, cached: false, stamp: 0, epoch }, mark: 0 }
}

pub fn add(session: &mut Session, table: &mut [u64], page: u64) -> Answer {
    if let Some(code) = refusal(session, table, &GUEST) {
        return Answer::plain(code);
    }
    on_settled_page(session, table, page, EPT_ENTRY_STATE_INCORRECT, |found| match found.record.state {
        0 => Ok(cleared(2, found)),
        _ => Err(EPT_ENTRY_STATE_INCORRECT),
    })
}

pub fn accept(session: &mut Session, table: &mut [u64], page: u64) -> Answer {
    if let Some(code) = refusal(session, table, &GUEST) {
        return Answer::plain(code);
    }
    on_settled_page(session, table, page, EPT_ENTRY_STATE_INCORRECT, |found| match found.record.state {
        2 => Ok(cleared(4, found)),
        29 | 30 => Ok(cleared(25, found)),
        _ => Err(EPT_ENTRY_STATE_INCORRECT),
    })
}

pub fn block(session: &mut Session, table: &mut [u64], page: u64) -> Answer {
    match refusal(session, table, &GUEST) {
        // 49 takes 41's place in Blackout alone.
        Some(OP_STATE_INCORRECT) if session.phase == Phase::Blackout => return Answer::plain(BLOCKING_DISALLOWED),
        Some(code) => return Answer::plain(code),
        None => (),
    }
    on_settled_page(session, table, page, EPT_ENTRY_STATE_INCORRECT, |Page { record, mark }| {
        let state = match record.state {
            4 => 1,
            2 => 3,
            24 | 25 => 26,
            29 | 30 => 31,
            _ => return Err(EPT_ENTRY_STATE_INCORRECT),
        };
        Ok(Page { record: Record { state, stamp: session.tlb, ..record }, mark })
    })
}

/// 47 of unblock and remove.
fn tracked(session: &Session, record: Record) -> Result<(), u64> {
    if record.stamp == 0 || record.stamp >= session.tlb {
        return Err(TLB_TRACKING_NOT_DONE);
    }
    Ok(())
}

pub fn unblock(session: &mut Session, table: &mut [u64], page: u64) -> Answer {
    if let Some(code) = refusal(session, table, &GUEST) {
        return Answer::plain(code);
    }
    on_settled_page(session, table, page, GPA_RANGE_NOT_BLOCKED, |Page { record, mark }| {
        let state = match record.state {
            1 => 4,
            3 => 2,
            26 => 25,
            31 => 30,
            _ => return Err(GPA_RANGE_NOT_BLOCKED),
        };
        tracked(session, record)?;
        Ok(Page { record: Record { state, stamp: 0, ..record }, mark })
    })
}

pub fn remove(session: &mut Session, table: &mut [u64], page: u64) -> Answer {
    if let Some(code) = refusal(session, table, &GUEST) {
        return Answer::plain(code);
    }
    on_settled_page(session, table, page, GPA_RANGE_NOT_BLOCKED, |found| {
        let state = match found.record.state {
            1 | 3 => 0,
            26 | 31 => 27,
            _ => return Err(GPA_RANGE_NOT_BLOCKED),
        };
        tracked(session, found.record)?;
        Ok(cleared(state, found))
    })
}

pub fn track(session: &mut Session, table: &mut [u64]) -> Answer {
    if let Some(code) = refusal(session, table, &GUEST) {
        return Answer::plain(code);
    }
    if session.tlb == LAST_EPOCH {
        return Answer::plain(TLB_EPOCH_AT_LIMIT);
    }
    session.tlb += 1;
    change_all(table, |record| Record { cached: false, ..record });
    Answer::plain(DONE)
}
