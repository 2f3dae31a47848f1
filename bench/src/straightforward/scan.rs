//! 'Scans'.

use super::page::*;
use super::session::{at, reset_check, Phase, Session};
use super::{code, set_word, word};
use chirpsteeple_tests::bench::codes::*;
use host_tests::interface::ScanAnswer;

fn refused(code: u64) -> ScanAnswer {
    ScanAnswer { code, ..ScanAnswer::default() }
}

fn list_invalid(list: &[u8]) -> bool {
    list.len() % 8 != 0 || list.len() > 8 * 512
}

#[inline(never)]
pub fn dscan(session: &[u8], table: &mut [u8], first: u64, count: u64, list: &mut [u8], budget: u64) -> ScanAnswer {
    let opened = match Session::open(session, table, &[Phase::Live]) {
        Ok(opened) => opened,
        Err(code) => return refused(code),
    };
    if first >= opened.pages || count == 0 || count > opened.pages - first || list_invalid(list) {
        return refused(OPERAND_INVALID);
    }
    let part = &mut table[16 * first as usize..16 * (first + count) as usize];
    Scan { first, tlb: opened.tlb, stops_at_blocked: false }.run(part, list, budget)
}

#[inline(never)]
pub fn dcheck(session: &mut [u8], table: &mut [u8], list: &mut [u8], budget: u64) -> ScanAnswer {
    let opened = match Session::open(session, table, &[Phase::Blackout]) {
        Ok(opened) => opened,
        Err(code) => return refused(code),
    };
    if list_invalid(list) {
        return refused(OPERAND_INVALID);
    }
    if opened.complete || opened.failed {
        return refused(MEM_SCAN_RESET_REQUIRED);
    }
    let part = &mut table[16 * opened.place as usize..];
    let mut answer = Scan { first: opened.place, tlb: opened.tlb, stops_at_blocked: true }.run(part, list, budget);
    if answer.code == DONE {
        answer.code = CHECK_COMPLETE;
    }
    set_word(session, at::PLACE, answer.next);
    set_word(session, at::COMPLETE, (answer.code == CHECK_COMPLETE) as u64);
    set_word(session, at::FAILED, (answer.code == MEM_SCAN_FAILED_BLOCKED_RANGE) as u64);
    answer
}

#[inline(never)]
pub fn reset(session: &mut [u8], table: &[u8]) -> u64 {
    code(Session::open(session, table, &[Phase::Live, Phase::Blackout]).map(|_| reset_check(session)))
}

/// What DSCAN and DCHECK have in common; only DCHECK stops at a blocked page.
struct Scan {
    first: u64,
    tlb: u64,
    stops_at_blocked: bool,
}

impl Scan {
    fn run(&self, part: &mut [u8], list: &mut [u8], budget: u64) -> ScanAnswer {
        let end = self.first + part.len() as u64 / 16;
        let mut listed = 0;
        for (passed, bytes) in (0..).zip(part.chunks_exact_mut(16)) {
            let page = self.first + passed;
            if passed == budget {
                return ran(INTERRUPTED, page, listed);
            }
            let record = word(bytes, 0);
            let state = match state(record) {
                Some(state) => state,
                None => continue,
            };
            if self.stops_at_blocked && matches!(state, 1 | 3 | 26 | 31) {
                return ran(MEM_SCAN_FAILED_BLOCKED_RANGE, page, listed);
            }
            let hint = match hint(state, record) {
                Some(hint) => hint,
                None => continue,
            };
            let entry = match list.get_mut(8 * listed..8 * listed + 8) {
                Some(entry) => entry,
                None => return ran(LIST_FULL, page, listed),
            };
            let pending = matches!(state, 2 | 29 | 30 | 31) as u64;
            set_word(entry, 0, 1 << 52 | page << 12 | hint << 3 | pending << 2);
            listed += 1;
            set_word(bytes, 0, self.left_of(state, record));
        }
        ran(DONE, end, listed)
    }

    /// A listed page's record afterwards.
    fn left_of(&self, state: u8, record: u64) -> u64 {
        let state = match state {
            24 => 25,
            29 => 30,
            state => state,
        };
        match state {
            2 | 4 | 25 | 30 => with_stamp(with_state(record & !DIRTY, state), self.tlb),
            _ => record,
        }
    }
}

/// The hint with which a page is listed, if it is.
fn hint(state: u8, record: u64) -> Option<u64> {
    match state {
        2 | 4 => Some(0),
        25 | 30 => Some(1),
        24 | 29 if record & DIRTY != 0 => Some(1),
        26 | 31 => Some(2),
        27 => Some(3),
        _ => None,
    }
}

fn ran(code: u64, next: u64, listed: usize) -> ScanAnswer {
    let (first, last) = if listed == 0 { (511, 0) } else { (0, listed as u64 - 1) };
    ScanAnswer { code, next, first, last }
}
