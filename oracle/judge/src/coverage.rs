//! What a comparison reached, counted from the Rust's own answers.

use std::collections::BTreeMap;
use std::fmt::Write;

use ledger::KINDS;
use subject::Queue;

use crate::configuration::Configuration;
use crate::registers::{CONFIG, READABLE, WRITABLE};
use crate::run::{Answer, Witness};
use crate::trace::{READ, WRITE};

const ANSWERED: [usize; 8] = [1, 3, 4, 5, 7, 8, 9, 10];
const STATUSES: [u32; 10] = [0x00, 0x01, 0x03, 0x0b, 0x0f, 0x80, 0x81, 0x83, 0x8b, 0x8f];
const BAD: [usize; 11] = [1, 2, 3, 4, 5, 6, 8, 9, 10, 11, 12];

#[derive(Default)]
pub struct Coverage {
    pub traces: usize,
    pub operations: usize,
    actions: [usize; KINDS + 1],
    refused: [usize; KINDS + 1],
    bad: [usize; 13],
    statuses: BTreeMap<u32, usize>,
    reads: BTreeMap<(u64, u32), usize>,
    writes: BTreeMap<(u64, u32), usize>,
}

impl Witness for &mut Coverage {
    fn bad(&mut self, number: u32) {
        self.traces += 1;
        self.bad[number as usize] += 1;
    }

    fn start(&mut self, _: &Configuration) {
        self.traces += 1;
    }

    fn answer(&mut self, _: usize, answer: &Answer) {
        self.operations += 1;
        *self.statuses.entry(answer.status).or_default() += 1;
        for action in answer.actions {
            self.actions[action[0] as usize] += 1;
        }
        if let Some(place) = answer.refused {
            self.refused[answer.actions[place][0] as usize] += 1;
        }
        let record = answer.record;
        // A configuration read has no reply: there its request shows that it was reached.
        let reached = answer.reply.is_some() || record.place == CONFIG && !answer.actions.is_empty();
        if record.kind == READ && reached {
            *self.reads.entry((record.place, record.length)).or_default() += 1;
        } else if record.kind == WRITE {
            *self.writes.entry((record.place, record.length)).or_default() += 1;
        }
    }

    fn queue(&mut self, _: usize, _: &Queue) {}

    fn end(&mut self, _: usize) {}
}

fn register((offset, length): &(u64, u32)) -> String {
    format!("{offset:03x}/{length}")
}

/// One line of counts, and a note of each thing that was never met.
fn row<T>(
    title: &str,
    things: &[T],
    name: impl Fn(&T) -> String,
    count: impl Fn(&T) -> usize,
) -> (String, Vec<String>) {
    let mut line = format!("{title}:");
    let mut missing = Vec::new();
    for thing in things {
        let _ = write!(line, " {}={}", name(thing), count(thing));
        if count(thing) == 0 {
            missing.push(format!("{title} {}", name(thing)));
        }
    }
    (line, missing)
}

impl Coverage {
    /// The counts as lines, and what is missing.
    pub fn report(&self) -> (Vec<String>, Vec<String>) {
        let kinds: Vec<usize> = (1..=KINDS).collect();
        let rows = [
            row("actions", &kinds, usize::to_string, |kind| self.actions[*kind]),
            row("refused", &ANSWERED, usize::to_string, |kind| self.refused[*kind]),
            row("status", &STATUSES, |s| format!("{s:02x}"), |s| self.statuses.get(s).copied().unwrap_or(0)),
            row("bad", &BAD, usize::to_string, |number| self.bad[*number]),
            row("read", &READABLE, register, |r| self.reads.get(r).copied().unwrap_or(0)),
            row("written", &WRITABLE, register, |r| self.writes.get(r).copied().unwrap_or(0)),
        ];
        let (lines, missing): (Vec<String>, Vec<Vec<String>>) = rows.into_iter().unzip();
        (lines, missing.concat())
    }
}
