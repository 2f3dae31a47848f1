//! RESTORE of a list: it brings pages that an abort left in states of a migration back to those that start takes.

use super::codes::*;
use super::lists::{in_turn, info_back, invalid, malformed, operation, page_of, part, status, told};
use super::record::Record;
use super::session::{Phase, Session};
use super::{refusal, Answer};
use crate::words::ENTRY;

/// The phase that it comes in.
pub const PHASES: [Phase; 1] = [Phase::Idle];

/// The session comes back as it came; the budget is of entries.
pub fn restore(session: &mut Session, table: &mut [u64], list: &mut [u64], info: u64, budget: u64) -> Answer {
    if let Some(code) = refusal(session, table, &PHASES) {
        return Answer::plain(code);
    }
    let (first, last) = part(info);
    if invalid(list, info) || first > last {
        return Answer::plain(OPERAND_INVALID);
    }
    let entries = in_turn(first, last, budget);
    let next = entries.end as u64;
    for word in &mut list[entries] {
        *word = take(table, *word);
    }
    let code = if next > last { DONE } else { INTERRUPTED };
    Answer { info: info_back(info, next), ..Answer::plain(code) }
}

/// Takes an entry: its page is restored, or is as it was. Of the word OPERATION and STATUS alone change.
fn take(table: &mut [u64], word: u64) -> u64 {
    match restored(table, word) {
        Ok(record) => {
            table[2 * page_of(word) as usize] = record.word();
            told(word, operation::RESTORE, status::SUCCESS)
        }
        Err(status) => told(word, operation::NONE, status),
    }
}

/// What the record of the entry's page becomes, or the status that says why it stays.
fn restored(table: &[u64], word: u64) -> Result<Record, u64> {
    let [_, _, state, _, _, _, _, operation, ..] = ENTRY;
    if malformed(word) || state.of(word) != 0 {
        return Err(status::INVALID);
    }
    if matches!(operation.of(word), 0 | 2) {
        return Err(status::SKIPPED);
    }
    let page = page_of(word);
    if page >= table.len() as u64 / 2 {
        return Err(status::BEYOND_THE_TABLE);
    }
    let record = Record::of(table[2 * page as usize]).ok_or(status::STATE_INCORRECT)?;
    let state = match record.state {
        24 | 25 => 4,
        29 | 30 => 2,
        26 => 1,
        31 => 3,
        27 => 0,
        _ => return Err(status::STATE_INCORRECT),
    };
    Ok(Record { state, ..record }.outside_epochs())
}
