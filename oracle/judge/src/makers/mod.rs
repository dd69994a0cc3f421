//! Generators of traces. Each trace depends on its kind, seed and index alone.

mod bench;
mod damaged;
mod driver;
mod random;
mod sweep;

pub use sweep::Sweep;

/// The kinds that can be asked for by name.
#[derive(Clone, Copy, PartialEq)]
pub enum Kind {
    Sweep,
    Random,
    Damaged,
    Bench,
}

impl Kind {
    pub fn named(name: &str) -> Option<Kind> {
        let names =
            [("sweep", Kind::Sweep), ("random", Kind::Random), ("damaged", Kind::Damaged), ("bench", Kind::Bench)];
        names.iter().find(|(known, _)| *known == name).map(|(_, kind)| *kind)
    }
}

/// Up to `count` traces of a kind. Bench and sweep have an end.
pub fn make(kind: Kind, seed: u64, count: usize) -> Box<dyn Iterator<Item = Vec<u8>>> {
    match kind {
        Kind::Bench => Box::new(bench::all().into_iter().take(count).map(|draft| draft.bytes())),
        Kind::Sweep => Box::new(Sweep::new().spread(count)),
        Kind::Random => Box::new((0..count as u64).map(move |index| random::trace(seed, index).bytes())),
        Kind::Damaged => Box::new((0..count as u64).map(move |index| damaged::trace(seed, index))),
    }
}
