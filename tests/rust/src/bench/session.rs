//! The session: its fields and their ranges.

use super::{LAST_EPOCH, MOST_WORDS};

#[derive(Clone, Copy, Debug, PartialEq, Eq)]
pub enum Phase {
    Idle,
    Live,
    Blackout,
    Done,
}

impl Phase {
    /// In the order of their numbers.
    pub const ALL: [Phase; 4] = [Phase::Idle, Phase::Live, Phase::Blackout, Phase::Done];
}

/// The progress of the check: its next page, and how it ended if it did.
#[derive(Clone, Copy, Debug, PartialEq, Eq)]
pub struct Check {
    pub place: u64,
    pub complete: bool,
    pub failed: bool,
}

impl Check {
    pub const RESET: Check = Check { place: 0, complete: false, failed: false };
}

#[derive(Clone, Copy, Debug, PartialEq, Eq)]
pub enum Stream {
    AtRest,
    Interrupted { next: u64, last: u64, errors: u64, data: u64 },
}

#[derive(Clone, Copy, Debug, PartialEq, Eq)]
pub struct Session {
    pub phase: Phase,
    pub pages: u64,
    /// The TLB epoch.
    pub tlb: u64,
    /// The migration epoch.
    pub epoch: u64,
    /// N, the number of created streams.
    pub created: u64,
    pub check: Check,
    pub streams: [Stream; 8],
}

impl Session {
    pub const STREAMS_AT_REST: [Stream; 8] = [Stream::AtRest; 8];

    /// Every number 0; malformed, and so of no use but to New.
    pub const BLANK: Session = Session {
        phase: Phase::Idle,
        pages: 0,
        tlb: 0,
        epoch: 0,
        created: 0,
        check: Check::RESET,
        streams: Session::STREAMS_AT_REST,
    };

    /// Some stream is interrupted.
    pub fn busy(&self) -> bool {
        self.streams.iter().any(|&stream| stream != Stream::AtRest)
    }

    /// One of the cases of 'Malformed' in document 01; what is not named there is well-formed, reached or not.
    pub fn malformed(&self) -> bool {
        let epochs = match self.phase {
            Phase::Idle => 0..=0,
            Phase::Live | Phase::Blackout | Phase::Done => 1..=LAST_EPOCH,
        };
        let Check { place, complete, failed } = self.check;
        !(1..=MOST_WORDS as u64 / 2).contains(&self.pages)
            || !(1..=LAST_EPOCH).contains(&self.tlb)
            || !epochs.contains(&self.epoch)
            || !(2..=9).contains(&self.created)
            || place > self.pages
            || complete && place != self.pages
            || complete && failed
            || (0..8).any(|index| self.malformed_stream(index))
    }

    fn malformed_stream(&self, index: usize) -> bool {
        // An index below N-1 is usable.
        let usable = index as u64 + 1 < self.created;
        match self.streams[index] {
            Stream::AtRest => false,
            Stream::Interrupted { next, last, errors, data } => {
                !usable
                    || matches!(self.phase, Phase::Idle | Phase::Done)
                    || next > last
                    || last > 511
                    || errors > next
                    || data > next
            }
        }
    }
}
