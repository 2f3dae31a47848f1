//! The bench of document 01. A call is a function of the session, the lent words and its operands; session and words are plain values, so that it can be called beside another implementation.

pub mod codes;
pub mod export;
pub mod lists;
pub mod memory;
pub mod record;
pub mod restore;
pub mod scans;
pub mod session;
pub mod session_calls;

use codes::{MALFORMED, OP_STATE_INCORRECT};
use session::{Phase, Session};

/// The limit of both epochs.
pub const LAST_EPOCH: u64 = 65_535;

/// The longest table, in words.
pub const MOST_WORDS: usize = 8_192;

/// The longest list and the longest buffer, in words.
pub const MOST_ENTRIES: usize = 512;

/// What a call answers. A number that the call does not give is 0, and in a refusal so is every number but the code and the page.
#[derive(Clone, Copy, Debug, Default, PartialEq, Eq)]
pub struct Answer {
    pub code: u64,
    /// The lowest page in the way for 53 and 54, else 0.
    pub page: u64,
    /// The page at which a scan stopped.
    pub next: u64,
    /// The first and the last entry that a scan listed; 511 and 0 when there is none.
    pub first: u64,
    pub last: u64,
    /// The info word of a call by list, with the next entry as its FIRST.
    pub info: u64,
    pub errors: u64,
    pub buffers: u64,
}

impl Answer {
    pub(crate) fn plain(code: u64) -> Self {
        Answer { code, ..Answer::default() }
    }
}

/// The answer of a call that gives a code alone.
impl From<u64> for Answer {
    fn from(code: u64) -> Self {
        Answer::plain(code)
    }
}

/// What 40 asks of a table whatever the session says.
fn legal_length(table: &[u64]) -> bool {
    !table.is_empty() && table.len() % 2 == 0 && table.len() <= MOST_WORDS
}

/// 40 and then 41, with which every call but New begins; `phases` are those that the call comes in.
pub(crate) fn refusal(session: &Session, table: &[u64], phases: &[Phase]) -> Option<u64> {
    if !legal_length(table) || table.len() as u64 / 2 != session.pages || session.malformed() {
        Some(MALFORMED)
    } else if !phases.contains(&session.phase) {
        Some(OP_STATE_INCORRECT)
    } else {
        None
    }
}
