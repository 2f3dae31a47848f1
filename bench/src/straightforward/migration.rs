//! 'Session calls'.

use super::page::*;
use super::session::{at, reset_check, rest_streams, Phase, Session, LAST_EPOCH};
use super::{code, set_word};
use chirpsteeple_tests::bench::codes::*;
use host_tests::interface::TokenAnswer;

#[inline(never)]
pub fn start(session: &mut [u8], table: &mut [u8]) -> u64 {
    code(Session::open(session, table, &[Phase::Idle]).and_then(|_| {
        if !records(table).all(|record| matches!(state(record), Some(0..=4))) {
            return Err(EPT_ENTRY_STATE_INCORRECT);
        }
        change_all(table, outside_epochs);
        set_word(session, at::PHASE, Phase::Live as u64);
        set_word(session, at::EPOCH, 1);
        reset_check(session);
        rest_streams(session);
        Ok(())
    }))
}

#[inline(never)]
pub fn pause(session: &mut [u8], table: &mut [u8]) -> u64 {
    code(Session::open(session, table, &[Phase::Live]).and_then(|opened| {
        if records(table).any(|record| matches!(state(record), Some(1 | 3 | 26 | 31))) {
            return Err(BLOCKED_MEMORY_EXISTS);
        }
        if opened.busy {
            return Err(OPERAND_BUSY);
        }
        change_all(table, |_, record| record & !CACHED);
        set_word(session, at::PHASE, Phase::Blackout as u64);
        Ok(())
    }))
}

#[inline(never)]
pub fn abort(session: &mut [u8], table: &[u8]) -> u64 {
    code(Session::open(session, table, &[Phase::Live, Phase::Blackout]).map(|_| {
        set_word(session, at::PHASE, Phase::Idle as u64);
        set_word(session, at::EPOCH, 0);
        reset_check(session);
        rest_streams(session);
    }))
}

#[inline(never)]
pub fn new_epoch(session: &mut [u8], table: &[u8]) -> u64 {
    code(Session::open(session, table, &[Phase::Live, Phase::Blackout]).and_then(|opened| {
        if opened.busy {
            return Err(OPERAND_BUSY);
        }
        if opened.epoch == LAST_EPOCH {
            return Err(MIGRATION_EPOCH_OVERFLOW);
        }
        set_word(session, at::EPOCH, opened.epoch + 1);
        Ok(())
    }))
}

#[inline(never)]
pub fn start_token(session: &mut [u8], table: &[u8]) -> TokenAnswer {
    let opened = match Session::open(session, table, &[Phase::Blackout]) {
        Ok(opened) => opened,
        Err(code) => return TokenAnswer { code, page: 0 },
    };
    if opened.busy {
        return TokenAnswer { code: OPERAND_BUSY, page: 0 };
    }
    if !opened.complete {
        return TokenAnswer { code: MEM_SCAN_DCHECK_NOT_DONE, page: 0 };
    }
    let mut unexported = None;
    for (page, record) in (0..).zip(records(table)) {
        match state(record) {
            Some(0) => (),
            Some(24 | 29) if record & DIRTY == 0 => (),
            Some(24..) => return TokenAnswer { code: EXPORTED_DIRTY_PAGES_REMAIN, page },
            Some(_) | None => {
                unexported.get_or_insert(page);
            }
        }
    }
    if let Some(page) = unexported {
        return TokenAnswer { code: UNEXPORTED_MEMORY_REMAINS, page };
    }
    set_word(session, at::PHASE, Phase::Done as u64);
    TokenAnswer { code: DONE, page: 0 }
}
