//! The library for C, called through tests/driver.c: its head says what lines it takes and what it answers.

use crate::independent::{Built, Proposal, Watch};
use std::fmt::LowerHex;
use std::io::{BufRead, BufReader, Write};
use std::process::{Child, ChildStdin, ChildStdout, Command, Stdio};

/// What can be lent: words, bytes and ends.
pub trait Lent: Copy + PartialEq + LowerHex {
    const BITS: u32;
    /// The low bits of a word.
    fn cut(word: u64) -> Self;

    /// What the driver lends at a place before the call: another one at nearly every place, never a byte of a plain writing, an end of a match or a
    /// state.
    fn before(place: usize) -> Self {
        let mixed = (place as u64 + 1).wrapping_mul(0x9e37_79b9_7f4a_7c15);
        Self::cut(mixed >> (64 - Self::BITS) | 1 << (Self::BITS - 1))
    }
}

macro_rules! lent {
    ($($t:ty),*) => {$(
        impl Lent for $t {
            const BITS: u32 = <$t>::BITS;
            fn cut(word: u64) -> $t {
                word as $t
            }
        }
    )*};
}
lent!(u8, u32, u64);

/// What a call gave: document 01's number, the count, and all that was lent as it is afterwards. With number 2 the place stands where the count does.
#[derive(Clone, PartialEq, Eq, Debug)]
pub struct Answer<T> {
    pub number: u64,
    pub count: u64,
    pub lent: Vec<T>,
}

impl<T: Lent> Answer<T> {
    /// Document 01: the count is the length of the whole (0 after a refusal), of which is written what fits, and what lies past it stays as it was.
    pub fn of(number: u64, whole: &[T], room: usize) -> Answer<T> {
        let kept = (whole.len()..room).map(T::before);
        Answer { number, count: whole.len() as u64, lent: whole.iter().take(room).copied().chain(kept).collect() }
    }

    /// What the call wrote, by its count.
    pub fn written(&self) -> &[T] {
        let count = if self.number == 0 { self.count as usize } else { 0 };
        &self.lent[..self.lent.len().min(count)]
    }
}

impl Answer<u64> {
    /// Build's refusal of what is not in the grammar.
    pub fn refused_at(place: usize, room: usize) -> Answer<u64> {
        Answer { count: place as u64, ..Answer::of(2, &[], room) }
    }

    /// What build gives by the independent program.
    pub fn built(built: &Built, room: usize) -> Answer<u64> {
        match built.number {
            2 => Answer::refused_at(built.place, room),
            number => Answer::of(number, &built.image, room),
        }
    }
}

/// What begin or step gave: number, count and ends, and the mask and the place that were lent as they are afterwards.
#[derive(Clone, PartialEq, Eq, Debug)]
pub struct Watched {
    pub found: Answer<u32>,
    pub watch: Watch,
}

impl Watched {
    pub fn of(number: u64, ends: &[u32], room: usize, watch: Watch) -> Watched {
        Watched { found: Answer::of(number, ends, room), watch }
    }
}

/// What a check of a spelling gave: the number, and 1 for yes.
#[derive(Clone, PartialEq, Eq, Debug)]
pub struct Judged {
    pub number: u64,
    pub yes: u64,
}

impl Judged {
    pub fn of((number, yes): (u64, bool)) -> Judged {
        Judged { number, yes: u64::from(yes) }
    }
}

/// What the proposer gave. Its states are free: answers that differ in them alone do not differ, and it is for the checkers to judge them.
#[derive(Clone, PartialEq, Eq, Debug)]
pub struct Proposed(pub Answer<u32>);

impl Proposed {
    pub fn of((number, count): (u64, usize), room: usize) -> Proposed {
        Proposed(Answer { number, count: count as u64, lent: (0..room).map(u32::before).collect() })
    }

    /// What is proposed for an end, if anything is.
    pub fn proposal(&self, end: u64) -> Option<Proposal> {
        let start = end.checked_sub(self.0.count).filter(|_| self.0.number == 0)?;
        Some(Proposal { start, end, states: self.0.written().to_vec() })
    }
}

/// An answer as the driver writes it.
pub trait Reply: Sized {
    fn read(fields: &[&str]) -> Option<Self>;
    /// Where this answer differs from the one expected, if it does.
    fn difference(&self, expected: &Self) -> Option<String>;
}

impl<T: Lent> Reply for Answer<T> {
    fn read(fields: &[&str]) -> Option<Answer<T>> {
        let [number, count, lent] = fields else { return None };
        Some(Answer { number: number.parse().ok()?, count: count.parse().ok()?, lent: elements(lent)? })
    }

    fn difference(&self, expected: &Answer<T>) -> Option<String> {
        let number = other("number", self.number, expected.number);
        let count = if expected.number == 2 { "place" } else { "count" };
        number.or_else(|| other(count, self.count, expected.count)).or_else(|| other_lent("lent", &self.lent, &expected.lent))
    }
}

impl Reply for Watched {
    fn read(fields: &[&str]) -> Option<Watched> {
        let [number, count, mask, place, ends] = fields else { return None };
        let [place] = elements(place)?[..] else { return None };
        Some(Watched { found: Answer::read(&[number, count, ends])?, watch: Watch { mask: elements(mask)?, place } })
    }

    fn difference(&self, expected: &Watched) -> Option<String> {
        let found = self.found.difference(&expected.found);
        let place = || other("place", self.watch.place, expected.watch.place);
        found.or_else(|| other_lent("the mask", &self.watch.mask, &expected.watch.mask)).or_else(place)
    }
}

impl Reply for Judged {
    fn read(fields: &[&str]) -> Option<Judged> {
        let [number, yes] = fields else { return None };
        Some(Judged { number: number.parse().ok()?, yes: yes.parse().ok()? })
    }

    fn difference(&self, expected: &Judged) -> Option<String> {
        other("number", self.number, expected.number).or_else(|| other("yes", self.yes, expected.yes))
    }
}

impl Reply for Proposed {
    fn read(fields: &[&str]) -> Option<Proposed> {
        Answer::read(fields).map(Proposed)
    }

    fn difference(&self, expected: &Proposed) -> Option<String> {
        let mut expected = expected.0.clone();
        let states = expected.written().len().min(self.0.lent.len());
        expected.lent[..states].copy_from_slice(&self.0.lent[..states]);
        self.0.difference(&expected)
    }
}

fn other(what: &str, got: u64, expected: u64) -> Option<String> {
    (got != expected).then(|| format!("{what} {got}, expected {expected}"))
}

fn other_lent<T: Lent>(what: &str, got: &[T], expected: &[T]) -> Option<String> {
    if got.len() != expected.len() {
        return Some(format!("{what}: {} places, expected {}", got.len(), expected.len()));
    }
    let place = (0..got.len()).find(|i| got[*i] != expected[*i])?;
    Some(format!("{what}: place {place} holds {:x}, expected {:x}", got[place], expected[place]))
}

/// All elements of an area that was lent, from a field of the driver's answer.
fn elements<T: Lent>(field: &str) -> Option<Vec<T>> {
    let mut all = Vec::new();
    for run in field.split(',').filter(|r| *r != "-") {
        let (times, value) = run.split_once('*').unwrap_or(("1", run));
        let times: usize = times.parse().ok()?;
        if value == "=" {
            all.extend((all.len()..all.len() + times).map(T::before));
        } else {
            all.extend(std::iter::repeat_n(T::cut(u64::from_str_radix(value, 16).ok()?), times));
        }
    }
    Some(all)
}

/// Words or bytes as the driver takes them.
pub fn listed<T: PartialEq + LowerHex>(values: &[T]) -> String {
    let run = |run: &[T]| if run.len() == 1 { format!("{:x}", run[0]) } else { format!("{}*{:x}", run.len(), run[0]) };
    let runs: Vec<String> = values.chunk_by(|a, b| a == b).map(run).collect();
    if runs.is_empty() { "-".to_string() } else { runs.join(",") }
}

pub fn build_call(rule: &[u8], room: usize) -> String {
    format!("build {} {room}", listed(rule))
}

pub fn read_back_call(image: &[u64], room: usize) -> String {
    format!("readback {} {room}", listed(image))
}

pub fn match_call(image: &[u64], text: &[u8], room: usize) -> String {
    format!("match {} {} {room}", listed(image), listed(text))
}

pub fn begin_call(image: &[u64], lent: &Watch, room: usize) -> String {
    format!("begin {} {} {:x} {room}", listed(image), listed(&lent.mask), lent.place)
}

pub fn step_call(image: &[u64], lent: &Watch, stretch: &[u8], room: usize) -> String {
    format!("step {} {} {:x} {} {room}", listed(image), listed(&lent.mask), lent.place, listed(stretch))
}

pub fn check_call(image: &[u64], text: &[u8], Proposal { start, end, states }: &Proposal) -> String {
    format!("check {} {} {start:x} {end:x} {}", listed(image), listed(text), listed(states))
}

pub fn propose_call(image: &[u64], text: &[u8], end: u64, room: usize) -> String {
    format!("propose {} {} {end:x} {room}", listed(image), listed(text))
}

/// The driver, running.
pub struct Driver {
    child: Child,
    to: ChildStdin,
    from: BufReader<ChildStdout>,
}

impl Driver {
    pub fn start(program: &str) -> Driver {
        let started = Command::new(program).stdin(Stdio::piped()).stdout(Stdio::piped()).spawn();
        let mut child = started.unwrap_or_else(|e| panic!("{program}: {e}"));
        let (to, from) = (child.stdin.take().unwrap(), BufReader::new(child.stdout.take().unwrap()));
        Driver { child, to, from }
    }

    fn ask(&mut self, question: &str) -> Result<String, String> {
        let mut line = String::new();
        let asked = self.to.write_all(question.as_bytes()).and_then(|()| self.to.write_all(b"\n")).and_then(|()| self.to.flush());
        if asked.and_then(|()| self.from.read_line(&mut line)).unwrap_or(0) == 0 {
            return Err(format!("the driver is gone: {:?}", self.child.wait()));
        }
        Ok(line.trim_end().to_string())
    }

    /// A call, or one of the driver's other lines.
    pub fn call<R: Reply>(&mut self, call: &str) -> Result<R, String> {
        let line = self.ask(call)?;
        R::read(&line.split(' ').collect::<Vec<_>>()).ok_or_else(|| format!("the driver answers '{line}'"))
    }

    /// How many bytes of stack a call takes.
    pub fn stack(&mut self, call: &str) -> Result<usize, String> {
        let line = self.ask(&format!("stack {call}"))?;
        line.parse().map_err(|_| format!("the driver answers '{line}'"))
    }
}
