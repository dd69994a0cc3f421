//! `judge compare`: the port's program and the Rust on the same traces.

use std::fs;
use std::io::{self, Read};
use std::panic::{catch_unwind, AssertUnwindSafe};
use std::path::{Path, PathBuf};
use std::process::{Command, Stdio};
use std::time::{Duration, Instant};

use crate::answers::{self, Differences};
use crate::coverage::Coverage;
use crate::makers::{make, Kind};
use crate::print::{Options, Printer};
use crate::run::run;

/// Enough files for a process to be worth its start, and few enough for its output to be held.
const BATCH_FILES: usize = 400;
const BATCH_BYTES: usize = 2_000_000;
const SHOWN: usize = 5;

pub struct Plan {
    pub port: PathBuf,
    pub traces: usize,
    pub operations: usize,
    pub seed: u64,
    /// Where traces with differing answers are kept.
    pub keep: PathBuf,
}

struct Comparison<'a> {
    plan: &'a Plan,
    folder: PathBuf,
    coverage: Coverage,
    differences: Differences,
    differing: usize,
    rust: Duration,
    both: Duration,
}

/// Runs the plan and says whether both agreed everywhere and everything was reached.
pub fn compare(plan: &Plan) -> io::Result<bool> {
    let folder = std::env::temp_dir().join(format!("judge-{}", std::process::id()));
    fs::create_dir_all(&folder)?;
    let mut comparison = Comparison {
        plan,
        folder: folder.clone(),
        coverage: Coverage::default(),
        differences: Differences::default(),
        differing: 0,
        rust: Duration::ZERO,
        both: Duration::ZERO,
    };
    let done = comparison.run_all();
    fs::remove_dir_all(&folder)?;
    done?;
    Ok(comparison.report())
}

impl Comparison<'_> {
    /// The fixed traces first, then random ones until both numbers are reached.
    fn run_all(&mut self) -> io::Result<()> {
        let Plan { traces, operations, seed, .. } = *self.plan;
        let shares = [(Kind::Bench, traces), (Kind::Damaged, traces / 12), (Kind::Sweep, traces * 2 / 5)];
        for (kind, share) in shares {
            self.run_traces(make(kind, seed, share))?;
        }
        let mut round = seed;
        while self.coverage.traces < traces || self.coverage.operations < operations {
            round = round.wrapping_add(1);
            let wanted = traces.saturating_sub(self.coverage.traces).clamp(BATCH_FILES, 4_000);
            self.run_traces(make(Kind::Random, round, wanted))?;
        }
        Ok(())
    }

    fn run_traces(&mut self, traces: impl Iterator<Item = Vec<u8>>) -> io::Result<()> {
        let mut batch: Vec<Vec<u8>> = Vec::new();
        let mut bytes = 0;
        for trace in traces {
            bytes += trace.len();
            batch.push(trace);
            if batch.len() == BATCH_FILES || bytes > BATCH_BYTES {
                self.run_batch(&batch)?;
                batch.clear();
                bytes = 0;
            }
        }
        if batch.is_empty() {
            return Ok(());
        }
        self.run_batch(&batch)
    }

    /// The port's process answers while the Rust does, and the whole texts are compared first.
    fn run_batch(&mut self, batch: &[Vec<u8>]) -> io::Result<()> {
        let begun = Instant::now();
        let files = self.write_files(batch)?;
        let mut child = Command::new(&self.plan.port).args(["-a", "-f"]).args(&files).stdout(Stdio::piped()).spawn()?;
        let mut pipe = child.stdout.take().expect("the output was piped");
        let reader = std::thread::spawn(move || {
            let mut found = Vec::new();
            pipe.read_to_end(&mut found).map(|_| found)
        });
        let (expected, ends) = self.run_rust(batch);
        let found = reader.join().expect("the reader doesn't panic")?;
        let status = child.wait()?;
        self.both += begun.elapsed();
        if found != expected.as_bytes() {
            self.note_differences(batch, &expected, &ends, &String::from_utf8_lossy(&found))?;
        }
        if !status.success() {
            self.differences.verdict += 1;
            println!(
                "the port's program ended with {status} on a batch that begins with trace {}",
                self.coverage.traces - batch.len()
            );
        }
        Ok(())
    }

    fn write_files(&self, batch: &[Vec<u8>]) -> io::Result<Vec<PathBuf>> {
        let write = |(place, bytes): (usize, &Vec<u8>)| {
            let file = self.folder.join(format!("{place}.trace"));
            fs::write(&file, bytes).map(|()| file)
        };
        batch.iter().enumerate().map(write).collect()
    }

    /// The Rust's text of a batch, and where each trace's part ends. A trace on which the stubs stop the Rust, since it
    /// did what document 01 rules out, ends early and so differs.
    fn run_rust(&mut self, batch: &[Vec<u8>]) -> (String, Vec<usize>) {
        let begun = Instant::now();
        let mut text = String::new();
        let mut ends = Vec::new();
        for trace in batch {
            let printer = Printer { options: Options::ALL, text: &mut text };
            let mut witness = (printer, &mut self.coverage);
            if catch_unwind(AssertUnwindSafe(|| run(trace, &mut witness))).is_err() {
                text.push_str("the Rust was stopped: see standard error\n");
            }
            ends.push(text.len());
        }
        self.rust += begun.elapsed();
        (text, ends)
    }

    fn note_differences(&mut self, batch: &[Vec<u8>], expected: &str, ends: &[usize], found: &str) -> io::Result<()> {
        let texts = answers::split(found);
        let mut start = 0;
        for (place, end) in ends.iter().enumerate() {
            let (ours, theirs) = (&expected[start..*end], texts.get(place).copied().unwrap_or(""));
            start = *end;
            if ours != theirs {
                self.differing += 1;
                let first = answers::compare(ours, theirs, &mut self.differences);
                if self.differing <= SHOWN {
                    let file = keep(&self.plan.keep, self.differing, &batch[place])?;
                    println!("differs: {}: {first}", file.display());
                }
            }
        }
        if texts.len() > ends.len() {
            self.differences.verdict += 1;
            println!("the port printed {} answers for {} traces", texts.len(), ends.len());
        }
        Ok(())
    }

    fn report(&self) -> bool {
        let Differences { verdict, status, reply, actions, fields } = self.differences;
        println!("traces {}, operations {}", self.coverage.traces, self.coverage.operations);
        println!("traces that differ {}: verdicts {verdict}, statuses {status}, replies {reply}, actions {actions}, fields {fields}", self.differing);
        let (lines, missing) = self.coverage.report();
        lines.iter().for_each(|line| println!("{line}"));
        missing.iter().for_each(|thing| println!("never reached: {thing}"));
        println!("seconds: {:.1} in all, the Rust {:.1} of them", self.both.as_secs_f64(), self.rust.as_secs_f64());
        self.differences.total() == 0 && self.differing == 0 && missing.is_empty()
    }
}

fn keep(folder: &Path, number: usize, trace: &[u8]) -> io::Result<PathBuf> {
    fs::create_dir_all(folder)?;
    let file = folder.join(format!("{number}.trace"));
    fs::write(&file, trace).map(|()| file)
}
