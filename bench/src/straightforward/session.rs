//! The session's 48 words.

use super::{set_word, word};
use chirpsteeple_tests::bench::codes::{MALFORMED, OP_STATE_INCORRECT};

pub const BYTES: usize = 384;
pub const LAST_EPOCH: u64 = 65_535;

#[derive(Clone, Copy, PartialEq, Eq)]
pub enum Phase {
    Idle,
    Live,
    Blackout,
    Done,
}

/// Where the session's words are.
pub mod at {
    pub const PHASE: usize = 0;
    pub const PAGES: usize = 1;
    pub const TLB: usize = 2;
    pub const EPOCH: usize = 3;
    pub const CREATED: usize = 4;
    pub const PLACE: usize = 5;
    pub const COMPLETE: usize = 6;
    pub const FAILED: usize = 7;
    pub const STREAMS: usize = 8;
}

/// All but the streams, of which most calls ask only whether one is interrupted.
pub struct Session {
    pub phase: Phase,
    pub pages: u64,
    pub tlb: u64,
    pub epoch: u64,
    pub created: u64,
    pub place: u64,
    pub complete: bool,
    pub failed: bool,
    pub busy: bool,
}

impl Session {
    /// The session of a call that may come in these phases, else 40 or 41.
    pub fn open(bytes: &[u8], table: &[u8], phases: &[Phase]) -> Result<Session, u64> {
        let session = Session::read(bytes).ok_or(MALFORMED)?;
        if table.len() as u64 != 16 * session.pages {
            return Err(MALFORMED);
        }
        if !phases.contains(&session.phase) {
            return Err(OP_STATE_INCORRECT);
        }
        Ok(session)
    }

    /// None if it is malformed.
    fn read(bytes: &[u8]) -> Option<Session> {
        let bytes: &[u8; BYTES] = bytes.try_into().ok()?;
        let phase = match word(bytes, at::PHASE) {
            0 => Phase::Idle,
            1 => Phase::Live,
            2 => Phase::Blackout,
            3 => Phase::Done,
            _ => return None,
        };
        let mut session = Session {
            phase,
            pages: word(bytes, at::PAGES),
            tlb: word(bytes, at::TLB),
            epoch: word(bytes, at::EPOCH),
            created: word(bytes, at::CREATED),
            place: word(bytes, at::PLACE),
            complete: flag(word(bytes, at::COMPLETE))?,
            failed: flag(word(bytes, at::FAILED))?,
            busy: false,
        };
        if session.malformed() {
            return None;
        }
        for index in 0..8 {
            if let Some(stream) = Stream::read(bytes, index)? {
                let usable = index as u64 + 1 < session.created;
                let exporting = matches!(phase, Phase::Live | Phase::Blackout);
                if !usable || !exporting || stream.malformed() {
                    return None;
                }
                session.busy = true;
            }
        }
        Some(session)
    }

    fn malformed(&self) -> bool {
        let epochs = if self.phase == Phase::Idle { 0..=0 } else { 1..=LAST_EPOCH };
        !(1..=4096).contains(&self.pages)
            || !(1..=LAST_EPOCH).contains(&self.tlb)
            || !epochs.contains(&self.epoch)
            || !(2..=9).contains(&self.created)
            || self.place > self.pages
            || self.complete && self.place != self.pages
            || self.complete && self.failed
    }
}

fn flag(word: u64) -> Option<bool> {
    match word {
        0 => Some(false),
        1 => Some(true),
        _ => None,
    }
}

/// An interrupted stream.
pub struct Stream {
    pub next: u64,
    pub last: u64,
    pub errors: u64,
    pub data: u64,
}

impl Stream {
    /// None if the words fit no stream, else the stream if it is interrupted.
    fn read(bytes: &[u8; BYTES], index: usize) -> Option<Option<Stream>> {
        let first = at::STREAMS + 5 * index;
        let stream = Stream {
            next: word(bytes, first + 1),
            last: word(bytes, first + 2),
            errors: word(bytes, first + 3),
            data: word(bytes, first + 4),
        };
        match flag(word(bytes, first))? {
            true => Some(Some(stream)),
            false if stream.next == 0 && stream.last == 0 && stream.errors == 0 && stream.data == 0 => Some(None),
            false => None,
        }
    }

    fn malformed(&self) -> bool {
        self.next > self.last || self.last > 511 || self.errors > self.next || self.data > self.next
    }

    /// The stream of a session that was opened, if it is interrupted.
    pub fn of(bytes: &[u8], index: usize) -> Option<Stream> {
        Stream::read(bytes.try_into().ok()?, index)?
    }

    pub fn write(stream: Option<Stream>, bytes: &mut [u8], index: usize) {
        let words = match stream {
            Some(Stream { next, last, errors, data }) => [1, next, last, errors, data],
            None => [0; 5],
        };
        for (i, value) in words.into_iter().enumerate() {
            set_word(bytes, at::STREAMS + 5 * index + i, value);
        }
    }
}

/// The check at page 0, neither complete nor failed.
pub fn reset_check(bytes: &mut [u8]) {
    bytes[8 * at::PLACE..8 * at::STREAMS].fill(0);
}

pub fn rest_streams(bytes: &mut [u8]) {
    bytes[8 * at::STREAMS..].fill(0);
}
