//! The archive as a bench to be compared.

use crate::calls::{Bench, Call, Lent};
use crate::interface::{self, Slice};
use crate::made_by;
use crate::memory::Guarded;
use chirpsteeple_tests::bench::Answer;
use chirpsteeple_tests::host::bytes::WORD;

/// The archive that this package is linked with.
#[derive(Default)]
pub struct Library {
    calls: usize,
    memory: [Guarded; 4],
}

impl Bench for Library {
    /// Each slice lies at an end of its memory, where a touch of what is behind or before it ends the program: at one end and the other by turns, and
    /// at every distance from a word's bound.
    fn call(&mut self, call: Call, lent: &mut Lent) -> Answer {
        self.calls += 1;
        let (distance, at_end) = (self.calls % WORD, self.calls / WORD % 2 == 0);
        let mut memory = self.memory.iter_mut();
        let mut placed = lent.slices().map(|(_, slice)| {
            let memory = memory.next().unwrap().bytes();
            let before = if at_end { memory.len() - slice.len() - distance } else { distance };
            Placed::new(memory, slice, before)
        });
        let [session, table, list, buffer] = &mut placed;
        let answer = made_by!(interface, call, [session.lend(), table.lend(), list.lend(), buffer.lend()]);
        for (slice, placed) in lent.slices_mut().into_iter().zip(placed) {
            assert!(placed.unwritten_around(), "{call}: a byte beside a slice was written");
            slice.copy_from_slice(placed.slice);
        }
        answer
    }
}

/// What stands beside a slice, which no call may write.
const BESIDE: u8 = 0xa5;

/// A slice in memory, and the bytes beside it, at most a word on either side.
struct Placed<'a> {
    before: &'a mut [u8],
    slice: &'a mut [u8],
    behind: &'a mut [u8],
}

impl<'a> Placed<'a> {
    /// The slice copied behind so many bytes of the memory.
    fn new(memory: &'a mut [u8], slice: &[u8], before: usize) -> Self {
        let (before, rest) = memory.split_at_mut(before);
        let (copy, behind) = rest.split_at_mut(slice.len());
        copy.copy_from_slice(slice);
        let (far, near) = (before.len().saturating_sub(WORD), behind.len().min(WORD));
        let placed = Placed { before: &mut before[far..], slice: copy, behind: &mut behind[..near] };
        placed.before.fill(BESIDE);
        placed.behind.fill(BESIDE);
        placed
    }

    /// A slice without bytes may have no pointer.
    fn lend(&mut self) -> Slice<'_> {
        match &mut *self.slice {
            [] => Slice::NULL,
            slice => slice.into(),
        }
    }

    fn unwritten_around(&self) -> bool {
        self.before.iter().chain(&*self.behind).all(|&byte| byte == BESIDE)
    }
}
