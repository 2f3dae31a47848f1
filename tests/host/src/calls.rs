//! A call as numbers, what is lent to it, and who may answer it.

use chirpsteeple_tests::bench::session::Session;
use chirpsteeple_tests::bench::Answer;
use chirpsteeple_tests::host::{self, bytes};
use std::fmt;

/// A call by its word in `histories::CALLS`, and its numbers in the order of the C function.
#[derive(Clone, Copy)]
pub struct Call {
    pub word: &'static str,
    pub numbers: [u64; 4],
}

impl Call {
    /// A call with as many numbers as it takes.
    pub fn new(word: &'static str, given: &[u64]) -> Self {
        let mut numbers = [0; 4];
        numbers[..given.len()].copy_from_slice(given);
        Call { word, numbers }
    }

    /// How many numbers it takes.
    pub fn arity(word: &str) -> usize {
        match word {
            "export" => 4,
            "dscan" => 3,
            "write" | "restore" => 2,
            "new" | "add" | "accept" | "block" | "unblock" | "remove" | "dcheck" => 1,
            _ => 0,
        }
    }
}

impl fmt::Display for Call {
    fn fmt(&self, f: &mut fmt::Formatter) -> fmt::Result {
        write!(f, "{}", self.word)?;
        self.numbers[..Call::arity(self.word)].iter().try_for_each(|number| write!(f, " {number:#x}"))
    }
}

/// The slices that are lent to a call, each with no byte to spare behind it.
#[derive(Clone)]
pub struct Lent {
    pub session: Box<[u8]>,
    pub table: Box<[u8]>,
    pub list: Box<[u8]>,
    pub buffer: Box<[u8]>,
}

impl Lent {
    pub fn new(session: &[u64], table: &[u64], list: &[u64], buffer: &[u64]) -> Self {
        let [session, table, list, buffer] = [session, table, list, buffer].map(|words| bytes::bytes(words).into());
        Lent { session, table, list, buffer }
    }

    pub fn of_session(session: &Session, table: &[u64], list: &[u64], buffer: &[u64]) -> Self {
        Lent { session: bytes::session_bytes(session).into(), ..Lent::new(&[], table, list, buffer) }
    }

    /// The slices by their names.
    pub fn slices(&self) -> [(&'static str, &[u8]); 4] {
        [("session", &self.session), ("table", &self.table), ("list", &self.list), ("buffer", &self.buffer)]
    }

    /// The slices in the same order, for a call to change.
    pub fn slices_mut(&mut self) -> [&mut [u8]; 4] {
        [&mut self.session, &mut self.table, &mut self.list, &mut self.buffer]
    }
}

/// Whoever answers calls: the library, the implementation that it is compared with, or one that is wrong on purpose.
pub trait Bench {
    fn call(&mut self, call: Call, lent: &mut Lent) -> Answer;
}

/// Makes a call by the functions of a module, which have the C functions' names and arguments, and answers what they answer.
#[macro_export]
macro_rules! made_by {
    ($functions:ident, $call:expr, $slices:expr) => {{
        let [session, table, list, buffer] = $slices;
        let [a, b, c, d] = $call.numbers;
        match $call.word {
            "new" => $functions::new(session, table, a).into(),
            "write" => $functions::write(session, table, a, b).into(),
            "add" => $functions::add(session, table, a).into(),
            "accept" => $functions::accept(session, table, a).into(),
            "block" => $functions::block(session, table, a).into(),
            "unblock" => $functions::unblock(session, table, a).into(),
            "remove" => $functions::remove(session, table, a).into(),
            "track" => $functions::track(session, table).into(),
            "start" => $functions::start(session, table).into(),
            "pause" => $functions::pause(session, table).into(),
            "abort" => $functions::abort(session, table).into(),
            "newepoch" => $functions::new_epoch(session, table).into(),
            "dscan" => $functions::dscan(session, table, a, b, list, c).into(),
            "dcheck" => $functions::dcheck(session, table, list, a).into(),
            "reset" => $functions::reset(session, table).into(),
            "export" => $functions::export(session, table, list, buffer, a, b, c, d).into(),
            "restore" => $functions::restore(session, table, list, a, b).into(),
            "token" => $functions::start_token(session, table).into(),
            word => panic!("{word} is no call"),
        }
    }};
}

/// The implementation from document 01.
pub struct FromDocument;

impl Bench for FromDocument {
    // Its answers need no conversion.
    #[allow(clippy::useless_conversion)]
    fn call(&mut self, call: Call, lent: &mut Lent) -> Answer {
        made_by!(host, call, lent.slices_mut())
    }
}
