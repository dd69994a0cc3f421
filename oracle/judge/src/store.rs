//! `judge store DIR N`: a few small traces that reach as much as possible, with the Rust's answers.

use std::collections::hash_map::DefaultHasher;
use std::collections::{BinaryHeap, HashSet};
use std::fs;
use std::hash::{Hash, Hasher};
use std::io;
use std::path::Path;

use subject::Queue;

use crate::configuration::Configuration;
use crate::coverage::Coverage;
use crate::makers::{make, Kind};
use crate::print::{Options, Printer};
use crate::registers::{CONFIG, DOORBELLS};
use crate::run::{run, Answer, Witness};

/// Traces above this length are left to the comparison.
const LONGEST: usize = 2_600;
/// How long all of them may be together.
const ROOM: usize = 400_000;
/// What a file costs beside its bytes, so that the choice isn't all tiny files.
const OVERHEAD: usize = 100;
/// How many files of each `bad` number are worth having, since there is more than one way to each.
const BAD_SORTS: u64 = 5;
const SEED: u64 = 20_240_601;

/// What one trace reaches, as hashes.
#[derive(Default)]
struct Facets {
    found: HashSet<u64>,
    /// Tells files apart that are bad by the same number.
    sort: u64,
    last: Option<(u64, u32)>,
    fields: Vec<u64>,
}

impl Facets {
    fn add(&mut self, facet: impl Hash) {
        self.found.insert(hash(facet));
    }
}

fn hash(thing: impl Hash) -> u64 {
    let mut hasher = DefaultHasher::new();
    thing.hash(&mut hasher);
    hasher.finish()
}

/// Offsets that are handled alike count as one.
fn class(offset: u64) -> u64 {
    match offset {
        0..CONFIG => offset,
        CONFIG..DOORBELLS => CONFIG,
        _ => DOORBELLS,
    }
}

impl Witness for &mut Facets {
    fn bad(&mut self, number: u32) {
        self.add(("bad", number, self.sort));
    }

    fn start(&mut self, configuration: &Configuration) {
        self.add(("queues", configuration.all_queues(), configuration.control != 0));
        self.add(("flags", configuration.features_given, configuration.features & 7, configuration.wildcard != 0));
    }

    /// A register, the status it met and left, whether it replied, and what it asked.
    fn answer(&mut self, _: usize, answer: &Answer) {
        let record = answer.record;
        let place = (class(record.place), record.length.min(5));
        let kinds: Vec<u64> = answer.actions.iter().map(|action| action[0]).collect();
        let outcome = (answer.before, answer.status, answer.reply.is_some());
        self.add((record.kind, place, outcome, &kinds, answer.refused));
        for action in answer.actions {
            let [kind, first, _, width, value] = *action;
            self.add(("action", kind, first.min(20), width, value.min(20)));
        }
        if matches!(place.0, 0x00c | 0x034 | 0x044 | 0x050 | 0x060 | 0x070 | 0x0c0) {
            self.add((place, answer.reply));
        }
        self.last = (record.kind == crate::trace::WRITE).then_some(place);
    }

    /// Whether the last write moved a field of a queue.
    fn queue(&mut self, place: usize, queue: &Queue) {
        let now = hash((queue.size, queue.ready, queue.descriptors, queue.available, queue.used));
        self.fields.resize(self.fields.len().max(place + 1), 0);
        let moved = std::mem::replace(&mut self.fields[place], now) != now;
        if let Some(write) = self.last {
            self.add(("moved", write, place, moved));
        }
    }

    fn end(&mut self, count: usize) {
        self.add(("empty", count == 0));
    }
}

/// Traces to choose from, and how many of the first are in any case wanted.
fn candidates() -> (Vec<Vec<u8>>, usize) {
    let mut traces: Vec<Vec<u8>> = make(Kind::Bench, SEED, usize::MAX).collect();
    let fixed = traces.len();
    let kinds = [(Kind::Damaged, 3_000), (Kind::Sweep, 9_000), (Kind::Random, 12_000)];
    let more = kinds.into_iter().flat_map(|(kind, count)| make(kind, SEED, count));
    traces.extend(more.filter(|trace| trace.len() <= LONGEST));
    (traces, fixed)
}

/// After the fixed ones takes, time after time, the trace that adds most for its length. An old gain bounds a new one from
/// above, so that few gains are worked out again.
fn choose(candidates: &[Vec<u8>], fixed: usize, wanted: usize) -> Vec<usize> {
    let reached: Vec<HashSet<u64>> = candidates.iter().map(|trace| facets(trace)).collect();
    let worth = |place: usize, new: usize| (new << 32) / (candidates[place].len() + OVERHEAD);
    let mut heap: BinaryHeap<(usize, usize)> = (fixed..candidates.len()).map(|place| (usize::MAX, place)).collect();
    let mut chosen: Vec<usize> = (0..fixed).collect();
    let mut known: HashSet<u64> = reached[..fixed].iter().flatten().copied().collect();
    let mut room = ROOM - candidates[..fixed].iter().map(Vec::len).sum::<usize>();
    while let Some((_, place)) = heap.pop().filter(|_| chosen.len() < wanted) {
        let now = worth(place, reached[place].difference(&known).count());
        if now == 0 || candidates[place].len() > room {
            continue;
        }
        if heap.peek().is_some_and(|(next, _)| *next > now) {
            heap.push((now, place));
        } else {
            known.extend(&reached[place]);
            room -= candidates[place].len();
            chosen.push(place);
        }
    }
    chosen
}

fn facets(trace: &[u8]) -> HashSet<u64> {
    let mut facets = Facets { sort: hash(trace) % BAD_SORTS, ..Facets::default() };
    run(trace, &mut (&mut facets));
    facets.found
}

/// Writes data/NNN.trace, args (one word to a line) and stdout, as a test program's folder has them.
pub fn store(folder: &Path, wanted: usize) -> io::Result<()> {
    let (candidates, fixed) = candidates();
    let chosen = choose(&candidates, fixed, wanted);
    let data = folder.join("data");
    fs::create_dir_all(&data)?;
    let mut arguments = String::from("-a\n-f\n");
    let mut text = String::new();
    let mut coverage = Coverage::default();
    let mut bytes = 0;
    for (number, place) in chosen.iter().enumerate() {
        let name = format!("{number:03}.trace");
        let trace = &candidates[*place];
        fs::write(data.join(&name), trace)?;
        arguments += &format!("{name}\n");
        let options = Options::ALL;
        run(trace, &mut (Printer { options, text: &mut text }, &mut coverage));
        bytes += trace.len();
    }
    fs::write(folder.join("args"), arguments)?;
    fs::write(folder.join("stdout"), &text)?;
    println!(
        "{} traces of {bytes} bytes, {} operations, {} bytes of answers",
        chosen.len(),
        coverage.operations,
        text.len()
    );
    let (lines, missing) = coverage.report();
    lines.iter().for_each(|line| println!("{line}"));
    missing.iter().for_each(|thing| println!("never reached: {thing}"));
    Ok(())
}
