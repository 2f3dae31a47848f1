//! 'Export of a list'.

use super::codes::*;
use super::lists::{in_turn, info_back, invalid, malformed, operation, page_of, part, status, told};
use super::record::Record;
use super::session::{Phase, Session, Stream};
use super::{refusal, Answer};
use crate::words::ENTRY;

/// The phases that it comes in.
pub const PHASES: [Phase; 2] = [Phase::Live, Phase::Blackout];

/// The numbers that export is given.
#[derive(Clone, Copy)]
pub struct Operands {
    pub stream: u64,
    pub resume: bool,
    pub info: u64,
    /// Of entries.
    pub budget: u64,
}

pub fn export(
    session: &mut Session,
    table: &mut [u64],
    list: &mut [u64],
    buffer: &mut [u64],
    operands: Operands,
) -> Answer {
    if let Some(code) = refusal(session, table, &PHASES) {
        return Answer::plain(code);
    }
    if operand_invalid(session, list, buffer, operands) {
        return Answer::plain(OPERAND_INVALID);
    }
    let stream = operands.stream as usize;
    let mut progress = match progress(session.streams[stream], operands) {
        Ok(progress) => progress,
        Err(code) => return Answer::plain(code),
    };
    for index in in_turn(progress.next, progress.last, operands.budget) {
        let taken = take(session, table, list[index]);
        list[index] = taken.word;
        buffer[index] = taken.buffer;
        progress.count(&taken);
    }
    session.streams[stream] = progress.stream();
    progress.answer(operands.info)
}

/// The cases of 42 that come before 44.
fn operand_invalid(session: &Session, list: &[u64], buffer: &[u64], operands: Operands) -> bool {
    operands.stream >= session.created - 1 || buffer.len() != list.len() || invalid(list, operands.info)
}

/// How far an operation has come over all its calls.
struct Progress {
    next: u64,
    last: u64,
    errors: u64,
    data: u64,
}

/// Where the call goes on, or 44, or the 42 that comes after it.
fn progress(stream: Stream, operands: Operands) -> Result<Progress, u64> {
    let (first, last) = part(operands.info);
    let resume = operands.resume;
    match stream {
        Stream::Interrupted { next, last: then, errors, data } if resume && (next, then) == (first, last) => {
            Ok(Progress { next, last, errors, data })
        }
        Stream::AtRest if !resume && first == 0 => Ok(Progress { next: 0, last, errors: 0, data: 0 }),
        Stream::AtRest if !resume => Err(OPERAND_INVALID),
        _ => Err(INVALID_RESUMPTION),
    }
}

impl Progress {
    fn count(&mut self, taken: &Taken) {
        self.next += 1;
        self.errors += !matches!(taken.status, status::SUCCESS | status::SKIPPED) as u64;
        self.data += taken.data as u64;
    }

    fn over(&self) -> bool {
        self.next > self.last
    }

    fn stream(&self) -> Stream {
        let Progress { next, last, errors, data } = *self;
        match self.over() {
            true => Stream::AtRest,
            false => Stream::Interrupted { next, last, errors, data },
        }
    }

    fn answer(&self, info: u64) -> Answer {
        let info = info_back(info, self.next);
        if !self.over() {
            return Answer { info, ..Answer::plain(INTERRUPTED) };
        }
        let macs = if self.last >= 256 { 2 } else { 1 };
        Answer { info, errors: self.errors, buffers: 1 + macs + self.data, ..Answer::plain(DONE) }
    }
}

/// An entry after it was taken.
struct Taken {
    word: u64,
    buffer: u64,
    status: u64,
    /// A data page was exported.
    data: bool,
}

/// Takes an entry: its page is exported or cancelled, or is as it was.
fn take(session: &Session, table: &mut [u64], word: u64) -> Taken {
    let found = match exportable(session, table, word) {
        Ok(found) => found,
        Err(status) => {
            return Taken { word: out(word, operation::NONE, false, status), buffer: 0, status, data: false };
        }
    };
    let (state, operation) = match found.state {
        4 => (24, operation::MIGRATE),
        2 => (29, operation::MIGRATE),
        25 => (24, operation::REMIGRATE),
        30 => (29, operation::REMIGRATE),
        26 => (1, operation::CANCEL),
        31 => (3, operation::CANCEL),
        _ => (0, operation::CANCEL),
    };
    let at = 2 * page_of(word) as usize;
    table[at] = Record { state, epoch: session.epoch, ..found }.word();
    let pending = matches!(found.state, 2 | 30 | 31);
    let data = matches!(found.state, 4 | 25);
    Taken {
        word: out(word, operation, pending, status::SUCCESS),
        buffer: if data { table[at + 1] } else { 0 },
        status: status::SUCCESS,
        data,
    }
}

/// The record of the entry's page, or the status that says why it is not exported.
fn exportable(session: &Session, table: &[u64], word: u64) -> Result<Record, u64> {
    let [_, _, _, _, _, _, _, operation, ..] = ENTRY;
    if malformed(word) || operation.of(word) >= 2 {
        return Err(status::INVALID);
    }
    if operation.of(word) == 0 {
        return Err(status::SKIPPED);
    }
    let page = page_of(word);
    if page >= session.pages {
        return Err(status::BEYOND_THE_TABLE);
    }
    let record = Record::of(table[2 * page as usize]).ok_or(status::STATE_INCORRECT)?;
    let clean = matches!(record.state, 24 | 29) && !record.dirty;
    if matches!(record.state, 0 | 1 | 3) || clean {
        return Err(status::STATE_INCORRECT);
    }
    if record.epoch == session.epoch {
        return Err(status::MIGRATED_THIS_EPOCH);
    }
    let cancelled = matches!(record.state, 26 | 27 | 31);
    if !cancelled && record.dirty {
        return Err(status::DIRTY);
    }
    let untracked = record.stamp == 0 || record.stamp >= session.tlb;
    if !cancelled && session.phase == Phase::Live && untracked {
        return Err(status::NOT_TRACKED);
    }
    Ok(record)
}

/// The entry on the way out.
fn out(word: u64, done: u64, pends: bool, found: u64) -> u64 {
    let [_, pending, state, _, l2_map, ..] = ENTRY;
    let word = l2_map.with(state.with(word, 0), 0);
    told(pending.with(word, pends as u64), done, found)
}
