//! One trace through the Rust: each record's answer, in order.

use ledger::Action;
use subject::{Queue, Transport};

use crate::configuration::Configuration;
use crate::trace::{self, Record, Trace, RAISE, READ};

/// A record's answer. `before` is the status that the operation met.
pub struct Answer<'a> {
    pub record: Record,
    pub before: u32,
    pub status: u32,
    pub reply: Option<&'a [u8]>,
    pub actions: &'a [Action],
    pub refused: Option<usize>,
}

/// Told what a run gives, piece by piece.
pub trait Witness {
    fn bad(&mut self, number: u32);
    fn start(&mut self, configuration: &Configuration);
    fn answer(&mut self, number: usize, answer: &Answer);
    fn queue(&mut self, place: usize, queue: &Queue);
    fn end(&mut self, count: usize);
}

/// Two witnesses of one run.
impl<A: Witness, B: Witness> Witness for (A, B) {
    fn bad(&mut self, number: u32) {
        self.0.bad(number);
        self.1.bad(number);
    }

    fn start(&mut self, configuration: &Configuration) {
        self.0.start(configuration);
        self.1.start(configuration);
    }

    fn answer(&mut self, number: usize, answer: &Answer) {
        self.0.answer(number, answer);
        self.1.answer(number, answer);
    }

    fn queue(&mut self, place: usize, queue: &Queue) {
        self.0.queue(place, queue);
        self.1.queue(place, queue);
    }

    fn end(&mut self, count: usize) {
        self.0.end(count);
        self.1.end(count);
    }
}

/// Runs a file's bytes. Nothing runs before every check has passed.
pub fn run(bytes: &[u8], witness: &mut impl Witness) {
    let opened = trace::open(bytes).and_then(|trace| {
        let configuration = Configuration::parse(trace.block);
        Ok((configuration.make()?, configuration, trace))
    });
    match opened {
        Err(number) => witness.bad(number),
        Ok((transport, configuration, trace)) => {
            witness.start(&configuration);
            run_records(&transport, &trace, witness);
        }
    }
}

fn run_records(transport: &Transport, trace: &Trace, witness: &mut impl Witness) {
    let mut buffer = Vec::new();
    for (place, record) in trace.records.iter().enumerate() {
        let before = transport.status();
        let replied = operate(transport, record, trace.pool, &mut buffer);
        transport.actions(|actions, refused| {
            let answer = Answer {
                record: *record,
                before,
                status: transport.status(),
                reply: replied.then_some(&buffer[..]),
                actions,
                refused,
            };
            witness.answer(place + 1, &answer);
        });
        transport.queues(|place, queue| witness.queue(place, queue));
    }
    witness.end(trace.records.len());
}

/// Does one record, and says whether the buffer now holds a reply.
fn operate(transport: &Transport, record: &Record, pool: &[u8], buffer: &mut Vec<u8>) -> bool {
    let (start, length) = (record.start as usize, record.length as usize);
    match record.kind {
        READ => return read(transport, record.place, length, buffer),
        RAISE => transport.raise(record.place as u32),
        _ => transport.write(record.place, &pool[start..start + length], record.k),
    }
    false
}

/// Two fills tell a reply from lent bytes that were left alone, even if the reply looks like the first fill. Reading twice
/// is harmless, since reads change nothing; the second read's requests are the ones recorded.
fn read(transport: &Transport, offset: u64, length: usize, buffer: &mut Vec<u8>) -> bool {
    [0xa5, 0x5a].iter().any(|fill| {
        buffer.clear();
        buffer.resize(length, *fill);
        transport.read(offset, buffer);
        buffer.iter().any(|byte| byte != fill)
    })
}
