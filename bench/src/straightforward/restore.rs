//! RESTORE of a list.

use super::lists::{field, first_and_last, ill_formed, page_of, with_first};
use super::page::*;
use super::session::{Phase, Session};
use super::{set_word, word};
use chirpsteeple_tests::bench::codes::*;
use chirpsteeple_tests::bench::lists::{operation, status};
use host_tests::interface::ListAnswer;

#[inline(never)]
pub fn restore(session: &[u8], table: &mut [u8], list: &mut [u8], info: u64, budget: u64) -> ListAnswer {
    let refused = |code| ListAnswer { code, info: 0 };
    let opened = match Session::open(session, table, &[Phase::Idle]) {
        Ok(opened) => opened,
        Err(code) => return refused(code),
    };
    let (first, last) = match first_and_last(list, info) {
        Some((first, last)) if first <= last => (first, last),
        _ => return refused(OPERAND_INVALID),
    };
    let (mut next, mut left) = (first, budget);
    while next <= last && left > 0 {
        let index = next as usize;
        let taken = take(&opened, table, word(list, index));
        set_word(list, index, taken);
        next += 1;
        left -= 1;
    }
    ListAnswer { code: if next > last { DONE } else { INTERRUPTED }, info: with_first(info, next) }
}

/// Takes an entry: its page is restored, or is as it was.
fn take(session: &Session, table: &mut [u8], entry: u64) -> u64 {
    match restorable(session, table, entry) {
        Ok(state) => {
            succeed(table, entry, state);
            out(entry, operation::RESTORE, status::SUCCESS)
        }
        Err(found) => out(entry, operation::NONE, found),
    }
}

/// The state of the entry's page, or the status that says why it is not restored.
fn restorable(session: &Session, table: &[u8], entry: u64) -> Result<u8, u64> {
    if ill_formed(entry) || field(entry, 3, 2) != 0 {
        return Err(status::INVALID);
    }
    if matches!(field(entry, 52, 2), 0 | 2) {
        return Err(status::SKIPPED);
    }
    let page = page_of(entry);
    if page >= session.pages {
        return Err(status::BEYOND_THE_TABLE);
    }
    match state(word(table, 2 * page as usize)) {
        None | Some(0..=4) => Err(status::STATE_INCORRECT),
        Some(state) => Ok(state),
    }
}

fn succeed(table: &mut [u8], entry: u64, state: u8) {
    let moved = match state {
        24 | 25 => 4,
        29 | 30 => 2,
        26 => 1,
        31 => 3,
        _ => 0,
    };
    let page = 2 * page_of(entry) as usize;
    let record = word(table, page);
    set_word(table, page, outside_epochs(moved, with_state(record, moved)));
}

/// The entry on the way out: OPERATION and STATUS anew, the rest kept.
fn out(entry: u64, operation: u64, status: u64) -> u64 {
    let anew = 0x3 << 52 | 0x1f << 56;
    entry & !anew | operation << 52 | status << 56
}
