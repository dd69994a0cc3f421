//! A run as text: document 01's lines, with action records and queue fields where asked for.

use std::fmt::Write;

use subject::Queue;

use crate::configuration::Configuration;
use crate::run::{Answer, Witness};

#[derive(Clone, Copy, Default)]
pub struct Options {
    pub actions: bool,
    pub fields: bool,
}

impl Options {
    pub const ALL: Options = Options { actions: true, fields: true };
}

pub struct Printer<'a> {
    pub options: Options,
    pub text: &'a mut String,
}

pub const HEADING: &str = "op status reply actions";

impl Witness for Printer<'_> {
    fn bad(&mut self, number: u32) {
        self.line(format_args!("bad {number}"));
    }

    fn start(&mut self, _: &Configuration) {
        self.line(format_args!("{HEADING}"));
    }

    fn answer(&mut self, number: usize, answer: &Answer) {
        let _ = write!(self.text, "{number} {:02x} ", answer.status);
        match answer.reply {
            Some(bytes) => bytes.iter().for_each(|byte| {
                let _ = write!(self.text, "{byte:02x}");
            }),
            None => self.text.push('-'),
        }
        self.line(format_args!(" {}", answer.actions.len()));
        if self.options.actions {
            for [kind, a, b, c, d] in answer.actions {
                self.line(format_args!("  {kind:x} {a:x} {b:x} {c:x} {d:x}"));
            }
        }
    }

    fn queue(&mut self, place: usize, queue: &Queue) {
        if self.options.fields {
            let (size, ready) = (queue.size, u8::from(queue.ready));
            let (descriptors, available, used) = (queue.descriptors, queue.available, queue.used);
            self.line(format_args!("  q {place} {size:x} {ready:x} {descriptors:x} {available:x} {used:x}"));
        }
    }

    fn end(&mut self, count: usize) {
        self.line(format_args!("end {count}"));
    }
}

impl Printer<'_> {
    fn line(&mut self, text: std::fmt::Arguments) {
        // Writing to a string can't fail.
        let _ = writeln!(self.text, "{text}");
    }
}
