//! The lines of a scenario, with the host's hand on bytes: it can make a session that fits no layout, where the program `scenario` could not.

use crate::calls::{Call, Lent};
use crate::comparison::{Comparison, Difference};
use crate::strays::stray;
use chirpsteeple_tests::histories::CALLS;
use chirpsteeple_tests::host::bytes::{self, SESSION_WORDS, STREAMS, STREAM_WORDS};
use chirpsteeple_tests::random::Random;
use chirpsteeple_tests::scenario::parts;
use chirpsteeple_tests::spaces::Spaces;

/// The session's words before its streams, as lines name them.
const FIELDS: [&str; STREAMS] = ["phase", "pages", "tlb", "epoch", "created", "place", "complete", "failed"];

struct Host {
    session: [u64; SESSION_WORDS],
    spaces: Spaces,
}

/// Makes the calls of the lines, and strays between them.
pub fn play(comparison: &mut Comparison, random: &mut Random, lines: &str) -> Result<(), Difference> {
    let mut host = Host { session: [0; SESSION_WORDS], spaces: Spaces::default() };
    for line in lines.lines() {
        let (word, numbers) = match parts(line) {
            Some((word, Some(numbers))) => (word, numbers),
            _ => continue,
        };
        let [a, b, c, d, _] = numbers;
        match CALLS.iter().find(|call| **call == word) {
            Some(call) => host.call(comparison, random, Call::new(call, &[a, b, c, d]))?,
            None => host.hand(word, numbers),
        }
    }
    Ok(())
}

impl Host {
    fn hand(&mut self, word: &str, [a, b, c, d, e]: [u64; 5]) {
        match word {
            "stream" => self.put_stream(a, [1, b, c, d, e]),
            "rest" => self.put_stream(a, [0; STREAM_WORDS]),
            _ => match FIELDS.iter().position(|field| *field == word) {
                Some(field) => self.session[field] = a,
                None => _ = self.spaces.hand(word, a, b),
            },
        }
    }

    fn put_stream(&mut self, index: u64, words: [u64; STREAM_WORDS]) {
        if index < 8 {
            let first = STREAMS + STREAM_WORDS * index as usize;
            self.session[first..first + STREAM_WORDS].copy_from_slice(&words);
        }
    }

    fn call(&mut self, comparison: &mut Comparison, random: &mut Random, call: Call) -> Result<(), Difference> {
        let [table, list, buffer] = self.spaces.lent();
        let mut lent = Lent::new(&self.session, table, list, buffer);
        if random.one_in(8) {
            stray(comparison, random, &lent)?;
        }
        comparison.call(call, &mut lent)?;
        let Lent { session, table, list, buffer } = lent;
        self.session.copy_from_slice(&bytes::words(&session).unwrap());
        for (words, lent) in self.spaces.lent().into_iter().zip([table, list, buffer]) {
            words.copy_from_slice(&bytes::words(&lent).unwrap());
        }
        Ok(())
    }
}
