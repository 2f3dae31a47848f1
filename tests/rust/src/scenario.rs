//! What the program `scenario` prints: calls on a bench, typed line by line, with the host's hand on session and words between them.

use crate::bench::export::{export, Operands};
use crate::bench::memory::{accept, add, block, new, remove, track, unblock, write};
use crate::bench::restore::restore;
use crate::bench::scans::{dcheck, dscan, reset};
use crate::bench::session::{Phase, Session, Stream};
use crate::bench::session_calls::{abort, new_epoch, pause, start, start_token};
use crate::bench::Answer;
use crate::spaces::Spaces;

pub struct Scenario {
    pub session: Session,
    /// What the last call answered.
    pub answer: Answer,
    pub spaces: Spaces,
}

/// What a line prints for which there is no reading.
const UNREADABLE: &str = "unreadable";

impl Default for Scenario {
    fn default() -> Self {
        Scenario {
            session: Session::BLANK,
            answer: Answer::default(),
            spaces: Spaces::default(),
        }
    }
}

impl Scenario {
    /// Does what the line says, and returns what that prints, if anything.
    pub fn line(&mut self, line: &str) -> Option<String> {
        let (word, numbers) = parts(line)?;
        let numbers = match numbers {
            Some(numbers) => numbers,
            None => return Some(UNREADABLE.to_owned()),
        };
        if self.hand(word, numbers) {
            return None;
        }
        let [a, b, ..] = numbers;
        Some(match word {
            "show" => self.spaces.table.show(a, b),
            "listed" => self.spaces.list.show(a, b),
            "sent" => self.spaces.buffer.show(a, b),
            _ => match self.call(word, numbers) {
                Some(answer) => {
                    self.answer = answer;
                    self.state()
                }
                None => UNREADABLE.to_owned(),
            },
        })
    }

    /// The host's hand; false if the word is none of its.
    fn hand(&mut self, word: &str, [a, b, c, d, e]: [u64; 5]) -> bool {
        let session = &mut self.session;
        match word {
            "phase" => session.phase = Phase::ALL[a.min(3) as usize],
            "pages" => session.pages = a,
            "tlb" => session.tlb = a,
            "epoch" => session.epoch = a,
            "created" => session.created = a,
            "place" => session.check.place = a,
            "complete" => session.check.complete = a != 0,
            "failed" => session.check.failed = a != 0,
            "stream" => {
                if a < 8 {
                    session.streams[a as usize] = Stream::Interrupted { next: b, last: c, errors: d, data: e };
                }
            }
            "rest" => {
                if a < 8 {
                    session.streams[a as usize] = Stream::AtRest;
                }
            }
            _ => return self.spaces.hand(word, a, b),
        }
        true
    }

    fn call(&mut self, word: &str, [a, b, c, d, _]: [u64; 5]) -> Option<Answer> {
        let session = &mut self.session;
        let [table, list, buffer] = self.spaces.lent();
        Some(match word {
            "new" => new(session, table, a),
            "write" => write(session, table, a, b),
            "add" => add(session, table, a),
            "accept" => accept(session, table, a),
            "block" => block(session, table, a),
            "unblock" => unblock(session, table, a),
            "remove" => remove(session, table, a),
            "track" => track(session, table),
            "start" => start(session, table),
            "pause" => pause(session, table),
            "abort" => abort(session, table),
            "newepoch" => new_epoch(session, table),
            "dscan" => dscan(session, table, list, a, b, c),
            "dcheck" => dcheck(session, table, list, a),
            "reset" => reset(session, table),
            "export" => {
                let operands = Operands { stream: a, resume: b != 0, info: c, budget: d };
                export(session, table, list, buffer, operands)
            }
            "restore" => restore(session, table, list, a, b),
            "token" => start_token(session, table),
            _ => return None,
        })
    }

    fn state(&self) -> String {
        let Session { phase, pages, tlb, epoch, created, check, streams } = self.session;
        let streams: Vec<String> = streams
            .iter()
            .map(|stream| match stream {
                Stream::AtRest => "-".to_owned(),
                Stream::Interrupted { next, last, errors, data } => format!("{next}/{last}/{errors}/{data}"),
            })
            .collect();
        let Answer { code, page, next, first, last, info, errors, buffers } = self.answer;
        let Spaces { table, list, buffer } = &self.spaces;
        let [table, list, buffer] = [table, list, buffer].map(|space| digest(&space.words));
        [
            format!("code {code} page {page} next {next} first {first} last {last}"),
            format!("info {info:016x} errors {errors} buffers {buffers}"),
            format!("phase {} pages {pages} tlb {tlb} epoch {epoch} created {created}", phase as u64),
            format!("place {} complete {} failed {}", check.place, check.complete as u64, check.failed as u64),
            format!("streams {} table {table} list {list} buffer {buffer}", streams.join(" ")),
        ]
        .join(" ")
    }
}

/// The word of a line, and the five numbers behind it unless one is none; a line without a word says nothing.
pub fn parts(line: &str) -> Option<(&str, Option<[u64; 5]>)> {
    let content = line.split('#').next().unwrap_or("");
    let mut parts = content.split(|c| matches!(c, ' ' | '\t' | '\r')).filter(|part| !part.is_empty());
    let word = parts.next()?;
    let mut numbers = [0; 5];
    for (index, part) in parts.enumerate() {
        match number(part) {
            Some(n) if index < 5 => numbers[index] = n,
            Some(_) => (),
            None => return Some((word, None)),
        }
    }
    Some((word, Some(numbers)))
}

/// A number of 64 bits, leading zeros or not: decimal, or hexadecimal behind an x that follows zeros alone.
fn number(part: &str) -> Option<u64> {
    let (base, digits) = match part.split_once('x') {
        Some((zeros, digits)) if !zeros.is_empty() && zeros.bytes().all(|zero| zero == b'0') => (16, digits),
        _ => (10, part),
    };
    digits.chars().try_fold(0u64, |n, c| {
        let digit = c.to_digit(base).filter(|_| !c.is_ascii_uppercase())?;
        n.checked_mul(base as u64)?.checked_add(digit as u64)
    })
}

/// One number for all the words, so that a change anywhere shows.
fn digest(words: &[u64]) -> u64 {
    let half = 1 << 32;
    words.iter().fold(0, |d, w| (d * 65_599 + w % half * 31 + w / half) % 4_294_967_291)
}

/// What the lines of `input` print, each with its place among them.
pub fn printed(input: &str) -> Vec<(usize, String)> {
    let mut scenario = Scenario::default();
    input.lines().enumerate().filter_map(|(place, line)| Some((place, scenario.line(line)?))).collect()
}

#[cfg(test)]
mod tests {
    use super::*;
    use crate::bench::{MOST_ENTRIES, MOST_WORDS};
    use crate::spaces::Space;

    #[test]
    fn every_word_weighs_in_the_digest() {
        for most in [MOST_WORDS, MOST_ENTRIES] {
            let Space { mut words, .. } = Space::beyond(most);
            words[most + 1] = (1 << 32) + 1;
            assert_eq!(digest(&words), 32);
            words[most] = 1;
            assert_eq!(digest(&words), 32 + 31 * 65_599);
            // Both halves are 4 above the modulus.
            words[most] = u64::MAX;
            assert_eq!(digest(&words), 32 + 32 * 4 * 65_599);
        }
    }

    #[test]
    fn each_space_has_a_digest_of_its_own() {
        let mut scenario = Scenario::default();
        for (hand, digests) in [
            ("word 8193 1", "table 31 list 0 buffer 0"),
            ("entry 513 2", "table 31 list 62 buffer 0"),
            ("content 513 3", "table 31 list 62 buffer 93"),
            ("entry 514 9", "table 31 list 62 buffer 93"),
        ] {
            assert_eq!(scenario.line(hand), None);
            let line = scenario.line("reset").unwrap();
            assert!(line.ends_with(&format!(" - {digests}")), "{hand}: {line}");
        }
    }

    #[test]
    fn a_number_is_decimal_or_hexadecimal() {
        for (part, value) in [
            ("0", 0),
            ("0012", 12),
            ("18446744073709551615", u64::MAX),
            ("0x", 0),
            ("0x1f", 31),
            ("00x5", 5),
            ("0x0000000000000000000a", 10),
            ("0xffffffffffffffff", u64::MAX),
        ] {
            assert_eq!(number(part), Some(value), "{part}");
        }
        for part in "18446744073709551616 0x10000000000000000 x5 1x5 0x5x 0xx5 5a 0xA 0X5 0xg -1".split(' ') {
            assert_eq!(number(part), None, "{part}");
        }
    }

    #[test]
    fn a_line_is_a_word_and_up_to_five_numbers() {
        let mut scenario = Scenario::default();
        for silent in ["", "  ", "# lend 4", "lend 4", "lend 2 3 4 5 6 7 ", "word  1  18446744073709551615 # all bits"] {
            assert_eq!(scenario.line(silent), None, "{silent}");
        }
        assert_eq!(scenario.spaces.table.lent, 2);
        assert_eq!(scenario.line("show 0 3").unwrap(), "0000000000000000 ffffffffffffffff 0000000000000000");
        assert_eq!(scenario.line("show 5").unwrap(), "");
        for unreadable in ["word 0 18446744073709551616", "lend -1", "lend 1,2", "Lend 1", "lent 1", "7", "lend 8 x"] {
            assert_eq!(scenario.line(unreadable).unwrap(), UNREADABLE, "{unreadable}");
        }
        assert_eq!(scenario.spaces.table.lent, 2);
    }
}
