//! The words that a host keeps and lends to calls.

use crate::bench::{MOST_ENTRIES, MOST_WORDS};

/// Two words more than a call may be lent, so that too many can be.
pub struct Space {
    pub words: Vec<u64>,
    /// How many of them, from the first, are lent to a call.
    pub lent: usize,
}

impl Space {
    pub fn beyond(most: usize) -> Self {
        Space { words: vec![0; most + 2], lent: 0 }
    }

    fn lend(&mut self, length: u64) {
        self.lent = length.min(self.words.len() as u64) as usize;
    }

    fn put(&mut self, at: u64, word: u64) {
        if at < self.words.len() as u64 {
            self.words[at as usize] = word;
        }
    }

    fn lent(&mut self) -> &mut [u64] {
        &mut self.words[..self.lent]
    }

    /// The words from a to b-1.
    pub fn show(&self, a: u64, b: u64) -> String {
        let shown = a..b.min(self.words.len() as u64);
        let words: Vec<String> = shown.map(|i| format!("{:016x}", self.words[i as usize])).collect();
        words.join(" ")
    }
}

pub struct Spaces {
    pub table: Space,
    pub list: Space,
    pub buffer: Space,
}

impl Default for Spaces {
    fn default() -> Self {
        Spaces {
            table: Space::beyond(MOST_WORDS),
            list: Space::beyond(MOST_ENTRIES),
            buffer: Space::beyond(MOST_ENTRIES),
        }
    }
}

impl Spaces {
    /// The host's hand on them; false if the word of the line is none of its.
    pub fn hand(&mut self, word: &str, a: u64, b: u64) -> bool {
        match word {
            "lend" => self.table.lend(a),
            "list" => self.list.lend(a),
            "buffer" => self.buffer.lend(a),
            "word" => self.table.put(a, b),
            "entry" => self.list.put(a, b),
            "content" => self.buffer.put(a, b),
            _ => return false,
        }
        true
    }

    /// What is lent of table, list and buffer.
    pub fn lent(&mut self) -> [&mut [u64]; 3] {
        [self.table.lent(), self.list.lent(), self.buffer.lent()]
    }
}
