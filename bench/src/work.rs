//! What is measured or counted in a row.

use crate::guests::Guest;
use host_tests::interface::{ExportAnswer, ListAnswer, ScanAnswer, TokenAnswer};
use std::fmt::Debug;

pub trait Answer: PartialEq + Debug {
    fn code(&self) -> u64;
}

impl Answer for u64 {
    fn code(&self) -> u64 {
        *self
    }
}

macro_rules! coded {
    ($($answer:ty),*) => {
        $(impl Answer for $answer {
            fn code(&self) -> u64 {
                self.code
            }
        })*
    };
}

coded!(TokenAnswer, ScanAnswer, ExportAnswer, ListAnswer);

/// Several calls in a row: the last one's code.
impl<A: Answer, const N: usize> Answer for [A; N] {
    fn code(&self) -> u64 {
        self[N - 1].code()
    }
}

/// A call on each of some guests, `steps` times with the numbers from 0 on.
pub struct Work {
    pub name: String,
    pub given: Vec<Guest>,
    pub steps: u64,
    /// The code that every call must answer.
    pub code: u64,
}

impl Work {
    /// Compares a call of the library with Rust's, answer by answer.
    pub fn compare<A: Answer>(&self, library: impl Fn(&mut Guest, u64) -> A, rust: impl Fn(&mut Guest, u64) -> A) {
        for given in &self.given {
            let (mut ours, mut theirs) = (given.clone(), given.clone());
            for step in 0..self.steps {
                let answer = library(&mut ours, step);
                assert_eq!(answer, rust(&mut theirs, step), "{}, step {step}: answers", self.name);
                assert_eq!(answer.code(), self.code, "{}, step {step}: code", self.name);
            }
            assert!(ours == theirs, "{}: bytes", self.name);
        }
    }
}

/// Whoever takes the rows, to time them or to have them counted.
pub trait Meter {
    /// A row: what is done, with a call of the library and with Rust's.
    fn row<A: Answer>(&mut self, work: Work, calls: (impl Fn(&mut Guest, u64) -> A, impl Fn(&mut Guest, u64) -> A));
}

/// Makes the compiler believe that the code is read, at no cost.
#[inline(always)]
pub fn keep(code: u64) {
    // SAFETY: this is no instruction, but a comment.
    unsafe { std::arch::asm!("# {0}", in(reg) code, options(nostack, preserves_flags)) };
}
