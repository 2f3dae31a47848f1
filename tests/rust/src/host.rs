//! The functions of the C interface on bytes: the bytes are read, the call is made on what they mean, and unless it refused they are written back.

pub mod bytes;

use crate::bench::codes::{MALFORMED, MEM_SCAN_FAILED_BLOCKED_RANGE, OPERAND_INVALID};
use crate::bench::export::{self, Operands};
use crate::bench::session::{Phase, Session};
use crate::bench::{memory, refusal, restore, scans, session_calls, Answer};

/// 51 is no refusal, and nor is what stands below 40.
fn refused(code: u64) -> bool {
    code >= MALFORMED && code != MEM_SCAN_FAILED_BLOCKED_RANGE
}

/// A call on session and table as `given`; None stands for bytes that fit no layout.
fn perform(
    given: Option<Session>,
    session: &mut [u8],
    table: &mut [u8],
    call: impl FnOnce(&mut Session, &mut [u64]) -> Answer,
) -> Answer {
    let (mut read, mut words) = match (given, bytes::words(table)) {
        (Some(read), Some(words)) => (read, words),
        _ => return Answer::plain(MALFORMED),
    };
    let answer = call(&mut read, &mut words);
    if !refused(answer.code) {
        session.copy_from_slice(&bytes::session_bytes(&read));
        table.copy_from_slice(&bytes::bytes(&words));
    }
    answer
}

/// Every call but New.
fn on_bytes(session: &mut [u8], table: &mut [u8], call: impl FnOnce(&mut Session, &mut [u64]) -> Answer) -> Answer {
    perform(bytes::session(session), session, table, call)
}

/// Of the session's bytes New looks at their number alone.
pub fn new(session: &mut [u8], table: &mut [u8], streams: u64) -> Answer {
    let right = session.len() == bytes::SESSION_WORDS * bytes::WORD;
    perform(right.then_some(Session::BLANK), session, table, |session, table| memory::new(session, table, streams))
}

pub fn write(session: &mut [u8], table: &mut [u8], page: u64, mark: u64) -> Answer {
    on_bytes(session, table, |session, table| memory::write(session, table, page, mark))
}

pub fn add(session: &mut [u8], table: &mut [u8], page: u64) -> Answer {
    on_bytes(session, table, |session, table| memory::add(session, table, page))
}

pub fn accept(session: &mut [u8], table: &mut [u8], page: u64) -> Answer {
    on_bytes(session, table, |session, table| memory::accept(session, table, page))
}

pub fn block(session: &mut [u8], table: &mut [u8], page: u64) -> Answer {
    on_bytes(session, table, |session, table| memory::block(session, table, page))
}

pub fn unblock(session: &mut [u8], table: &mut [u8], page: u64) -> Answer {
    on_bytes(session, table, |session, table| memory::unblock(session, table, page))
}

pub fn remove(session: &mut [u8], table: &mut [u8], page: u64) -> Answer {
    on_bytes(session, table, |session, table| memory::remove(session, table, page))
}

pub fn track(session: &mut [u8], table: &mut [u8]) -> Answer {
    on_bytes(session, table, memory::track)
}

pub fn start(session: &mut [u8], table: &mut [u8]) -> Answer {
    on_bytes(session, table, session_calls::start)
}

pub fn pause(session: &mut [u8], table: &mut [u8]) -> Answer {
    on_bytes(session, table, session_calls::pause)
}

pub fn abort(session: &mut [u8], table: &mut [u8]) -> Answer {
    on_bytes(session, table, session_calls::abort)
}

pub fn new_epoch(session: &mut [u8], table: &mut [u8]) -> Answer {
    on_bytes(session, table, session_calls::new_epoch)
}

pub fn reset(session: &mut [u8], table: &mut [u8]) -> Answer {
    on_bytes(session, table, scans::reset)
}

pub fn start_token(session: &mut [u8], table: &mut [u8]) -> Answer {
    on_bytes(session, table, session_calls::start_token)
}

/// A call that comes in these phases and is lent a list, or a list and a buffer. The order is 40, 41, 42: so what is not in whole words is refused after the first two, and before anything that the call itself asks further.
fn on_lists<const LISTS: usize>(
    session: &mut [u8],
    table: &mut [u8],
    lists: [&mut [u8]; LISTS],
    phases: &[Phase],
    call: impl FnOnce(&mut Session, &mut [u64], &mut [Vec<u64>; LISTS]) -> Answer,
) -> Answer {
    on_bytes(session, table, |session, table| {
        if let Some(code) = refusal(session, table, phases) {
            return Answer::plain(code);
        }
        let mut read: [Vec<u64>; LISTS] = std::array::from_fn(|_| Vec::new());
        for (words, list) in read.iter_mut().zip(&lists) {
            *words = match bytes::words(list) {
                Some(words) => words,
                None => return Answer::plain(OPERAND_INVALID),
            };
        }
        let answer = call(session, table, &mut read);
        if !refused(answer.code) {
            lists.into_iter().zip(read).for_each(|(list, words)| list.copy_from_slice(&bytes::bytes(&words)));
        }
        answer
    })
}

pub fn dscan(session: &mut [u8], table: &mut [u8], first: u64, count: u64, list: &mut [u8], budget: u64) -> Answer {
    on_lists(session, table, [list], &scans::DSCAN, |session, table, [list]| {
        scans::dscan(session, table, list, first, count, budget)
    })
}

pub fn dcheck(session: &mut [u8], table: &mut [u8], list: &mut [u8], budget: u64) -> Answer {
    on_lists(session, table, [list], &scans::DCHECK, |session, table, [list]| {
        scans::dcheck(session, table, list, budget)
    })
}

#[allow(clippy::too_many_arguments)]
pub fn export(
    session: &mut [u8],
    table: &mut [u8],
    list: &mut [u8],
    buffer: &mut [u8],
    stream: u64,
    resume: u64,
    info: u64,
    budget: u64,
) -> Answer {
    on_lists(session, table, [list, buffer], &export::PHASES, |session, table, [list, buffer]| {
        // With the first group of 42, so before 44.
        if resume > 1 {
            return Answer::plain(OPERAND_INVALID);
        }
        let operands = Operands { stream, resume: resume == 1, info, budget };
        export::export(session, table, list, buffer, operands)
    })
}

pub fn restore(session: &mut [u8], table: &mut [u8], list: &mut [u8], info: u64, budget: u64) -> Answer {
    on_lists(session, table, [list], &restore::PHASES, |session, table, [list]| {
        restore::restore(session, table, list, info, budget)
    })
}
