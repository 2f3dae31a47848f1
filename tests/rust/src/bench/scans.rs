//! 'Scans'.

use super::codes::*;
use super::record::Record;
use super::session::{Check, Phase, Session};
use super::{refusal, Answer, MOST_ENTRIES};
use crate::words::ENTRY;
use std::ops::Range;

/// The phases that each scan comes in.
pub const DSCAN: [Phase; 1] = [Phase::Live];
pub const DCHECK: [Phase; 1] = [Phase::Blackout];

pub fn dscan(
    session: &mut Session,
    table: &mut [u64],
    list: &mut [u64],
    first: u64,
    count: u64,
    budget: u64,
) -> Answer {
    if let Some(code) = refusal(session, table, &DSCAN) {
        return Answer::plain(code);
    }
    let within = first < session.pages && (1..=session.pages - first).contains(&count);
    if !within || list.len() > MOST_ENTRIES {
        return Answer::plain(OPERAND_INVALID);
    }
    let scan = Scan { pages: first..first + count, tlb: session.tlb, stops_at_blocked: false };
    scan.run(table, list, budget)
}

pub fn dcheck(session: &mut Session, table: &mut [u64], list: &mut [u64], budget: u64) -> Answer {
    if let Some(code) = refusal(session, table, &DCHECK) {
        return Answer::plain(code);
    }
    if list.len() > MOST_ENTRIES {
        return Answer::plain(OPERAND_INVALID);
    }
    let Check { place, complete, failed } = session.check;
    if complete || failed {
        return Answer::plain(MEM_SCAN_RESET_REQUIRED);
    }
    let scan = Scan { pages: place..session.pages, tlb: session.tlb, stops_at_blocked: true };
    let mut answer = scan.run(table, list, budget);
    if answer.code == DONE {
        answer.code = CHECK_COMPLETE;
    }
    session.check = Check {
        place: answer.next,
        complete: answer.code == CHECK_COMPLETE,
        failed: answer.code == MEM_SCAN_FAILED_BLOCKED_RANGE,
    };
    answer
}

pub fn reset(session: &mut Session, table: &mut [u64]) -> Answer {
    if let Some(code) = refusal(session, table, &[Phase::Live, Phase::Blackout]) {
        return Answer::plain(code);
    }
    session.check = Check::RESET;
    Answer::plain(DONE)
}

/// What DSCAN and DCHECK have in common; only DCHECK stops at a blocked page.
struct Scan {
    pages: Range<u64>,
    tlb: u64,
    stops_at_blocked: bool,
}

impl Scan {
    fn run(&self, table: &mut [u64], list: &mut [u64], budget: u64) -> Answer {
        let mut listed = 0;
        for page in self.pages.clone() {
            let record = Record::of(table[2 * page as usize]);
            // Every page before this one has cost one of the budget, listed or not.
            if page - self.pages.start == budget {
                return ran(INTERRUPTED, page, listed);
            }
            if self.stops_at_blocked && record.map_or(false, blocked) {
                return ran(MEM_SCAN_FAILED_BLOCKED_RANGE, page, listed);
            }
            let (record, hint) = match record.and_then(|record| Some((record, hint(record)?))) {
                Some(hinted) => hinted,
                None => continue,
            };
            if listed == list.len() {
                return ran(LIST_FULL, page, listed);
            }
            list[listed] = listed_word(page, record, hint);
            listed += 1;
            table[2 * page as usize] = self.after(record).word();
        }
        ran(DONE, self.pages.end, listed)
    }

    /// What is left of a listed page's record.
    fn after(&self, record: Record) -> Record {
        let state = match record.state {
            24 => 25,
            29 => 30,
            state => state,
        };
        match state {
            2 | 4 | 25 | 30 => Record { state, dirty: false, stamp: self.tlb, ..record },
            _ => record,
        }
    }
}

fn blocked(record: Record) -> bool {
    matches!(record.state, 1 | 3 | 26 | 31)
}

/// The hint with which a page is listed, if it is.
fn hint(record: Record) -> Option<u64> {
    match record.state {
        2 | 4 => Some(0),
        25 | 30 => Some(1),
        24 | 29 if record.dirty => Some(1),
        26 | 31 => Some(2),
        27 => Some(3),
        _ => None,
    }
}

fn listed_word(page: u64, record: Record, hint: u64) -> u64 {
    let [_, pending, state, _, _, _, gpa, operation, ..] = ENTRY;
    let pends = matches!(record.state, 2 | 29 | 30 | 31) as u64;
    operation.with(gpa.with(state.with(pending.with(0, pends), hint), page), 1)
}

/// The answer of a scan that ran.
fn ran(code: u64, next: u64, listed: usize) -> Answer {
    let (first, last) = match listed {
        0 => (511, 0),
        listed => (0, listed as u64 - 1),
    };
    Answer { next, first, last, ..Answer::plain(code) }
}
