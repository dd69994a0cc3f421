//! Two texts of the same trace held against each other, operation by operation.

use crate::print::HEADING;

/// How many answers differ, by what differs in them.
#[derive(Default)]
pub struct Differences {
    pub verdict: usize,
    pub status: usize,
    pub reply: usize,
    pub actions: usize,
    pub fields: usize,
}

impl Differences {
    pub fn total(&self) -> usize {
        self.verdict + self.status + self.reply + self.actions + self.fields
    }
}

/// One operation's lines: its own, its action records, its queue fields.
#[derive(Default, PartialEq)]
struct Operation<'a> {
    line: &'a str,
    actions: Vec<&'a str>,
    fields: Vec<&'a str>,
}

/// Cuts a program's whole output into one text for each trace.
pub fn split(output: &str) -> Vec<&str> {
    let mut texts = Vec::new();
    let (mut start, mut at) = (0, 0);
    for line in output.split_inclusive('\n') {
        at += line.len();
        if line.starts_with("end ") || line.starts_with("bad ") {
            texts.push(&output[start..at]);
            start = at;
        }
    }
    if start < output.len() {
        texts.push(&output[start..]);
    }
    texts
}

fn operations(text: &str) -> Vec<Operation<'_>> {
    let mut list: Vec<Operation> = Vec::new();
    for line in text.lines() {
        match list.last_mut() {
            Some(operation) if line.starts_with("  q ") => operation.fields.push(line),
            Some(operation) if line.starts_with("  ") => operation.actions.push(line),
            _ => list.push(Operation { line, ..Operation::default() }),
        }
    }
    list
}

/// Counts what differs, and tells of the first place.
pub fn compare(expected: &str, found: &str, differences: &mut Differences) -> String {
    let (ours, theirs) = (operations(expected), operations(found));
    if ours.len() != theirs.len() || !found.ends_with('\n') {
        differences.verdict += 1;
    }
    let mut first = None;
    for (our, their) in ours.iter().zip(&theirs) {
        if our != their {
            first.get_or_insert_with(|| shown(our, their));
            count(our, their, differences);
        }
    }
    first.unwrap_or_else(|| format!("Rust has {} lines, port {}", ours.len(), theirs.len()))
}

/// The operation, and the first of its lines that differ.
fn shown(our: &Operation, their: &Operation) -> String {
    let lines = |operation: &Operation| -> Vec<String> {
        let all = [operation.line].into_iter().chain(operation.actions.iter().chain(&operation.fields).copied());
        all.map(String::from).collect()
    };
    let (ours, theirs) = (lines(our), lines(their));
    let same = ours.iter().zip(&theirs).take_while(|(a, b)| a == b).count();
    let at = |list: &[String]| list.get(same).cloned().unwrap_or_else(|| "nothing more".into());
    format!("at `{}` Rust `{}`, port `{}`", our.line, at(&ours), at(&theirs))
}

fn count(our: &Operation, their: &Operation, differences: &mut Differences) {
    let words = |operation: &Operation| operation.line.split(' ').map(String::from).collect::<Vec<_>>();
    let (ours, theirs) = (words(our), words(their));
    let whole = our.line != HEADING && ours.len() == 4 && theirs.len() == 4 && ours[0] == theirs[0];
    if !whole {
        differences.verdict += usize::from(our.line != their.line);
    } else {
        differences.status += usize::from(ours[1] != theirs[1]);
        differences.reply += usize::from(ours[2] != theirs[2]);
    }
    let counted = whole && ours[3] != theirs[3];
    differences.actions += usize::from(counted || our.actions != their.actions);
    differences.fields += usize::from(our.fields != their.fields);
}
