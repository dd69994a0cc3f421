//! Runs like a driver's, with mistakes: mostly sensible steps, so that deep states are met, and anything in between.

use super::driver::{climb, LADDER};
use crate::chance::Chance;
use crate::configuration::{Configuration, QUEUES, REGIONS, WINDOW};
use crate::draft::{Draft, ALL_ACCEPTED};
use crate::registers::{
    edges, ACKED, ACKED_PAGE, ACKNOWLEDGE, AVAILABLE, COMMAND, CONFIG, DESCRIPTORS, DOORBELLS, FEATURES_PAGE,
    INTERRUPTS, MODE, NOTIFY, QUEUE, READABLE, READY, REGION, SIZE, STATUS, USED, WRITABLE,
};

/// A driver's run under way.
struct Run {
    chance: Chance,
    draft: Draft,
    /// In how many of a hundred a step is a mistake.
    mistakes: u64,
    /// In how many of a hundred a request that can set FAILED is refused. FAILED is for good, so many runs have none.
    refusals: u64,
}

/// The `index`th random trace of a seed.
pub fn trace(seed: u64, index: u64) -> Draft {
    let mut chance = Chance::new(seed, index);
    let draft = Draft::new(configuration(&mut chance));
    let mistakes = chance.pick(&[0, 0, 1, 3, 10, 40]);
    let refusals = chance.pick(&[0, 0, 10, 50]);
    let length = chance.pick(&[12, 40, 120, 200, 400]);
    let mut run = Run { chance, draft, mistakes, refusals };
    while run.draft.records.len() < length && run.draft.has_room(200) {
        run.life();
    }
    run.draft
}

fn configuration(chance: &mut Chance) -> Configuration {
    let queues = chance.pick(&[1, 1, 1, 2, 2, 3, 0, 5, 15, 1]);
    let control = if queues == 0 || chance.percent(25) { size(chance).into() } else { 0 };
    let tops = [0xd000_0000, 0, WINDOW.wrapping_neg(), 0xffff_f000, 0x1_2345_6000];
    Configuration {
        base: chance.pick(&tops),
        size: WINDOW,
        memory: memory(chance),
        device_type: chance.pick(&[1, 2, 4, 26, u32::MAX]),
        features_given: chance.pick(&[0, 1, 1, 0x100]),
        features: chance.pick(&[0, 4, 4, 5, 7, 0xff, 0xffff_fffc]) ^ (chance.word() & 0xb0),
        wildcard: chance.pick(&[0, 1, 1, 1, 0x8000_0000]),
        msi: chance.pick(&[0, 1, 0x100]),
        pages: [chance.word(), chance.word() & !u32::from(chance.percent(50))],
        vectors: chance.pick(&[0, 1, 2, 3, 4, queues + 1, 32]),
        queues,
        control,
        sizes: std::array::from_fn(|place| if place < queues as usize { size(chance) } else { chance.word() as u16 }),
        regions: chance.pick(&[0, 1, 2, 8]),
        list: chance.pick(&[0, 0x1_0000_0001, 0x8000_0000, u64::MAX]),
        table: std::array::from_fn::<_, REGIONS, _>(|_| (wide(chance), wide(chance))),
    }
}

fn size(chance: &mut Chance) -> u16 {
    1 << chance.pick(&[0, 1, 3, 8, 8, 9, 10, 15])
}

fn memory(chance: &mut Chance) -> u64 {
    chance.pick(&[0x1000_0000, 0x1000_0000, 0x1000_0000, 1 << 40, u64::MAX, 0x10000, 0x1001, 0])
}

fn wide(chance: &mut Chance) -> u64 {
    let number = chance.next();
    chance.pick(&[number, number >> 32, number << 32, number >> 48, 0, u64::MAX])
}

impl Run {
    /// From wherever it is to a start, some work, and a reset: a device that is still sound can live again.
    fn life(&mut self) {
        if self.chance.percent(60) {
            let k = self.outcome();
            self.draft.write(MODE, &0x8000u16.to_le_bytes(), k);
        }
        self.some(2, Run::look);
        climb(&mut self.draft, 0, 2, ALL_ACCEPTED);
        self.some(3, Run::negotiate);
        self.maybe_wrong();
        climb(&mut self.draft, 2, 3, ALL_ACCEPTED);
        for queue in 0..self.draft.configuration.all_queues() as u32 {
            self.lay(queue);
            self.maybe_wrong();
        }
        self.some(3, Run::message);
        let k = self.outcome();
        self.draft.write(STATUS, &LADDER[4].to_le_bytes(), k);
        self.some(12, Run::work);
        let k = self.outcome();
        self.draft.write(STATUS, &LADDER[0].to_le_bytes(), k);
        self.some(2, Run::anything);
    }

    /// Does a step up to `most` times.
    fn some(&mut self, most: u64, step: fn(&mut Run)) {
        for _ in 0..self.chance.below(most + 1) {
            step(self);
            self.maybe_wrong();
        }
    }

    fn maybe_wrong(&mut self) {
        if self.chance.percent(self.mistakes) {
            self.anything();
        }
    }

    /// How many answered requests are accepted: all, or any number that a start can tell apart.
    fn outcome(&mut self) -> u32 {
        let few = self.chance.below(2 * self.draft.configuration.all_queues() + 4) as u32;
        if self.chance.percent(self.refusals) {
            self.chance.pick(&[few, few, 0])
        } else {
            ALL_ACCEPTED
        }
    }

    fn command(&mut self, value: u16) {
        let k = self.chance.pick(&[0, ALL_ACCEPTED, ALL_ACCEPTED, ALL_ACCEPTED]);
        self.draft.write(COMMAND, &value.to_le_bytes(), k);
    }

    fn look(&mut self) {
        let (offset, length) = self.chance.pick(&READABLE);
        self.draft.read(offset, length);
    }

    fn negotiate(&mut self) {
        let page = self.chance.pick(&[0, 1, 1, 2, u32::MAX]);
        let value = self.chance.word();
        // Unselected pages show what a reset left.
        if self.chance.percent(60) {
            self.draft.set(FEATURES_PAGE, page).set(ACKED_PAGE, page);
        }
        self.draft.read(0x010, 4).set(ACKED, value);
    }

    /// Lays a queue, mostly inside memory and sometimes against its end.
    fn lay(&mut self, queue: u32) {
        self.draft.set(QUEUE, queue);
        if self.chance.percent(40) {
            let size = self.chance.pick(&[1, 2, 8, 64, 256, 0x10100, 300]);
            self.draft.set(SIZE, size);
        }
        for (register, alignment) in [(DESCRIPTORS, 16), (AVAILABLE, 2), (USED, 4)] {
            let address = self.area(alignment);
            self.draft.set(register, address as u32);
            if address >> 32 != 0 || self.chance.percent(10) {
                self.draft.set(register + 4, (address >> 32) as u32);
            }
        }
        self.draft.set(READY, 1);
    }

    fn area(&mut self, alignment: u64) -> u64 {
        let memory = self.draft.configuration.memory;
        let size = self.chance.pick(&[1, 8, 256, 1024]);
        let end = memory.saturating_sub(self.chance.pick(&[16 * size, 6 + 2 * size, 6 + 8 * size, 16, 0]));
        let inside = self.chance.below(memory.clamp(1, 0x40_0000));
        let address = if self.chance.percent(1 + self.mistakes / 4) { end } else { inside };
        let unaligned = self.chance.percent(self.mistakes / 4);
        let slip = if unaligned { self.chance.pick(&[1, 2, 4, 8, 16]) } else { 0 };
        (address & !(alignment - 1)) + slip
    }

    /// What a driver does while the device runs.
    fn work(&mut self) {
        match self.chance.below(10) {
            0 | 1 => {
                let bits = self.chance.pick(&[1, 2, 3, 0x8000_0000, 0xa5a5_a5a5, 0x5a5a_5a5a, u32::MAX]);
                self.draft.raise(bits).read(INTERRUPTS, 4);
            }
            2 => {
                let bits = self.chance.pick(&[1, 2, 3, u32::MAX]);
                self.draft.set(ACKNOWLEDGE, bits).read(INTERRUPTS, 4);
            }
            3 => {
                let queue = self.chance.below(20) as u32;
                self.draft.set(NOTIFY, queue).set(DOORBELLS + u64::from(queue) * 4, 0).read(NOTIFY, 4);
            }
            4..=6 => self.message(),
            7 => self.config(),
            8 => {
                let region = self.chance.below(10) as u32;
                self.draft.set(REGION, region);
                [0x0b0, 0x0b4, 0x0b8, 0x0bc].iter().for_each(|offset| {
                    self.draft.read(*offset, 4);
                });
            }
            _ => self.look(),
        }
    }

    fn message(&mut self) {
        let value = self.chance.word();
        let register = self.chance.pick(&[0x0c4, 0x0c8, 0x0cc]);
        self.draft.set(register, value);
        let vector = self.chance.pick(&[0, 1, 2, 3, 4, 5, 31, 0x101]);
        let code = self.chance.pick(&[0x1000, 0x2000, 0x3000, 0x2000]);
        self.command(code | vector);
        if self.chance.percent(20) {
            self.command(code | vector);
        }
    }

    fn config(&mut self) {
        let offset = CONFIG + self.chance.pick(&[0, 1, 4, 0xeff, 0xefe, 0xf00, 0x10, 0x1_0000_0000]);
        let data = [7; 9];
        let length = self.chance.below(10) as usize;
        self.draft.write(offset, &data[..length], ALL_ACCEPTED).read(offset, length as u32);
    }

    /// A mistake, or just something else.
    fn anything(&mut self) {
        let (offset, length) = self.chance.pick(&WRITABLE);
        let value = self.chance.pick(edges(offset));
        match self.chance.below(8) {
            0..=2 => {
                let k = self.outcome();
                self.draft.write(offset, &value.to_le_bytes()[..length as usize], k);
            }
            3 => {
                let value = self.chance.pick(edges(STATUS));
                let k = self.outcome();
                self.draft.write(STATUS, &value.to_le_bytes(), k);
            }
            4 => {
                let queue = self.chance.below(QUEUES as u64 + 2) as u32;
                self.draft.set(QUEUE, queue).read(0x034, 4).read(READY, 4);
            }
            5 => {
                let offset = self.chance.below(0x1100);
                let length = self.chance.below(10) as u32;
                self.draft.read(offset, length).write(offset, &value.to_le_bytes()[..length.min(4) as usize], 0);
            }
            6 => self.config(),
            _ => self.look(),
        }
    }
}
