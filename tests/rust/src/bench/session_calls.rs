//! 'Session calls'.

use super::codes::*;
use super::record::{change_all, records, Record};
use super::session::{Check, Phase, Session};
use super::{refusal, Answer, LAST_EPOCH};

pub fn start(session: &mut Session, table: &mut [u64]) -> Answer {
    if let Some(code) = refusal(session, table, &[Phase::Idle]) {
        return Answer::plain(code);
    }
    if !records(table).all(|record| matches!(record, Some(r) if r.state <= 4)) {
        return Answer::plain(EPT_ENTRY_STATE_INCORRECT);
    }
    change_all(table, Record::outside_epochs);
    session.phase = Phase::Live;
    session.epoch = 1;
    session.check = Check::RESET;
    session.streams = Session::STREAMS_AT_REST;
    Answer::plain(DONE)
}

pub fn pause(session: &mut Session, table: &mut [u64]) -> Answer {
    if let Some(code) = refusal(session, table, &[Phase::Live]) {
        return Answer::plain(code);
    }
    if records(table).flatten().any(|record| matches!(record.state, 1 | 3 | 26 | 31)) {
        return Answer::plain(BLOCKED_MEMORY_EXISTS);
    }
    if session.busy() {
        return Answer::plain(OPERAND_BUSY);
    }
    change_all(table, |record| Record { cached: false, ..record });
    session.phase = Phase::Blackout;
    Answer::plain(DONE)
}

/// It changes no record: RESTORE brings the pages back that a migration moved.
pub fn abort(session: &mut Session, table: &mut [u64]) -> Answer {
    if let Some(code) = refusal(session, table, &[Phase::Live, Phase::Blackout]) {
        return Answer::plain(code);
    }
    session.phase = Phase::Idle;
    session.epoch = 0;
    session.streams = Session::STREAMS_AT_REST;
    session.check = Check::RESET;
    Answer::plain(DONE)
}

pub fn new_epoch(session: &mut Session, table: &mut [u64]) -> Answer {
    if let Some(code) = refusal(session, table, &[Phase::Live, Phase::Blackout]) {
        return Answer::plain(code);
    }
    if session.busy() {
        return Answer::plain(OPERAND_BUSY);
    }
    if session.epoch == LAST_EPOCH {
        return Answer::plain(MIGRATION_EPOCH_OVERFLOW);
    }
    session.epoch += 1;
    Answer::plain(DONE)
}

pub fn start_token(session: &mut Session, table: &mut [u64]) -> Answer {
    if let Some(code) = refusal(session, table, &[Phase::Blackout]) {
        return Answer::plain(code);
    }
    if session.busy() {
        return Answer::plain(OPERAND_BUSY);
    }
    if !session.check.complete {
        return Answer::plain(MEM_SCAN_DCHECK_NOT_DONE);
    }
    let dirty = |record: Option<Record>| match record {
        Some(r) => matches!(r.state, 25 | 26 | 27 | 30 | 31) || matches!(r.state, 24 | 29) && r.dirty,
        None => false,
    };
    let unexported = |record: Option<Record>| match record {
        Some(r) => matches!(r.state, 1..=4),
        None => true,
    };
    if let Some(page) = records(table).position(dirty) {
        return Answer { page: page as u64, ..Answer::plain(EXPORTED_DIRTY_PAGES_REMAIN) };
    }
    if let Some(page) = records(table).position(unexported) {
        return Answer { page: page as u64, ..Answer::plain(UNEXPORTED_MEMORY_REMAINS) };
    }
    session.phase = Phase::Done;
    Answer::plain(DONE)
}
