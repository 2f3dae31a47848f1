//! 'Export of a list'.

use super::lists::{field, first_and_last, ill_formed, page_of, with_first};
use super::page::*;
use super::session::{Phase, Session, Stream};
use super::{set_word, word};
use chirpsteeple_tests::bench::codes::*;
use chirpsteeple_tests::bench::lists::{operation, status};
use host_tests::interface::ExportAnswer;

#[inline(never)]
#[allow(clippy::too_many_arguments)]
pub fn export(
    session: &mut [u8],
    table: &mut [u8],
    list: &mut [u8],
    buffer: &mut [u8],
    stream: u64,
    resume: u64,
    info: u64,
    budget: u64,
) -> ExportAnswer {
    let refused = |code| ExportAnswer { code, ..ExportAnswer::default() };
    let opened = match Session::open(session, table, &[Phase::Live, Phase::Blackout]) {
        Ok(opened) => opened,
        Err(code) => return refused(code),
    };
    if stream >= opened.created - 1 || resume > 1 || buffer.len() != list.len() {
        return refused(OPERAND_INVALID);
    }
    let (first, last) = match first_and_last(list, info) {
        Some(found) => found,
        None => return refused(OPERAND_INVALID),
    };
    let stream = stream as usize;
    let mut done = match Stream::of(session, stream) {
        Some(found) if resume == 1 && found.next == first && found.last == last => found,
        None if resume == 0 && first == 0 => Stream { next: 0, last, errors: 0, data: 0 },
        None if resume == 0 => return refused(OPERAND_INVALID),
        _ => return refused(INVALID_RESUMPTION),
    };
    let mut left = budget;
    while done.next <= last && left > 0 {
        let index = done.next as usize;
        let taken = take(&opened, table, word(list, index));
        set_word(list, index, taken.entry);
        set_word(buffer, index, taken.content);
        done.next += 1;
        done.errors += taken.error as u64;
        done.data += taken.data as u64;
        left -= 1;
    }
    let info = with_first(info, done.next);
    if done.next <= last {
        Stream::write(Some(done), session, stream);
        return ExportAnswer { code: INTERRUPTED, info, errors: 0, buffers: 0 };
    }
    Stream::write(None, session, stream);
    let macs = if last >= 256 { 2 } else { 1 };
    ExportAnswer { code: DONE, info, errors: done.errors, buffers: 1 + macs + done.data }
}

/// An entry after it was taken.
struct Taken {
    entry: u64,
    content: u64,
    error: bool,
    data: bool,
}

/// Takes an entry: its page is exported or cancelled, or is as it was.
fn take(session: &Session, table: &mut [u8], entry: u64) -> Taken {
    match exportable(session, table, entry) {
        Ok(state) => succeed(session, table, entry, state),
        Err(found) => Taken {
            entry: out(entry, operation::NONE, false, found),
            content: 0,
            error: found != status::SKIPPED,
            data: false,
        },
    }
}

/// The state of the entry's page, or the status that says why it is not exported.
fn exportable(session: &Session, table: &[u8], entry: u64) -> Result<u8, u64> {
    let asked = field(entry, 52, 2);
    if ill_formed(entry) || asked >= 2 {
        return Err(status::INVALID);
    }
    if asked == 0 {
        return Err(status::SKIPPED);
    }
    let page = page_of(entry);
    if page >= session.pages {
        return Err(status::BEYOND_THE_TABLE);
    }
    let record = word(table, 2 * page as usize);
    let dirty = record & DIRTY != 0;
    let state = match state(record) {
        None | Some(0 | 1 | 3) => return Err(status::STATE_INCORRECT),
        Some(24 | 29) if !dirty => return Err(status::STATE_INCORRECT),
        Some(state) => state,
    };
    if epoch(record) == session.epoch {
        return Err(status::MIGRATED_THIS_EPOCH);
    }
    if !matches!(state, 26 | 27 | 31) {
        if dirty {
            return Err(status::DIRTY);
        }
        if session.phase == Phase::Live && !tracked(record, session.tlb) {
            return Err(status::NOT_TRACKED);
        }
    }
    Ok(state)
}

fn succeed(session: &Session, table: &mut [u8], entry: u64, state: u8) -> Taken {
    let (moved, done, pending, data) = match state {
        4 => (24, operation::MIGRATE, false, true),
        2 => (29, operation::MIGRATE, true, false),
        25 => (24, operation::REMIGRATE, false, true),
        30 => (29, operation::REMIGRATE, true, false),
        26 => (1, operation::CANCEL, false, false),
        31 => (3, operation::CANCEL, true, false),
        _ => (0, operation::CANCEL, false, false),
    };
    let page = 2 * page_of(entry) as usize;
    let record = word(table, page);
    set_word(table, page, with_epoch(with_state(record, moved), session.epoch));
    Taken {
        entry: out(entry, done, pending, status::SUCCESS),
        content: if data { word(table, page + 1) } else { 0 },
        error: false,
        data,
    }
}

/// The entry on the way out: PENDING, STATE, L2_MAP, OPERATION and STATUS anew, the rest kept.
fn out(entry: u64, operation: u64, pending: bool, status: u64) -> u64 {
    let anew = 1 << 2 | 0x3 << 3 | 0x7 << 7 | 0x3 << 52 | 0x1f << 56;
    entry & !anew | (pending as u64) << 2 | operation << 52 | status << 56
}
