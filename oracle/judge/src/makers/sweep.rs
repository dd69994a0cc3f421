//! The systematic traces: every access in every state of the ladder, every register with its edges, every start.

use super::driver::{climb, configuration, lay_queues, start};
use crate::draft::{Draft, ALL_ACCEPTED};
use crate::registers::{
    edges, ACKED, ACKED_PAGE, AVAILABLE, COMMAND, DESCRIPTORS, FEATURES_PAGE, MODE, QUEUE, READABLE, READY, REGION,
    SIZE, STATUS, USED, WRITABLE,
};

/// A device brought to a rung of the ladder.
#[derive(Clone, Copy)]
struct Stage {
    rung: usize,
    failed: bool,
    /// The start was refused: FAILED on the last rung with the device inactive.
    refused: bool,
    doorbell: bool,
    msi: bool,
}

#[derive(Clone, Copy)]
enum Item {
    Reads { stage: Stage, chunk: usize },
    Writes { stage: Stage, chunk: usize },
    Register { stage: Stage, offset: u64, length: u32, value: u32, k: u32 },
    Start { queues: u32, doorbell: bool, control: bool, k: u32 },
    Messages { vectors: u32, queues: u32, k: u32 },
    Area { register: u64, start: u64, memory: u64 },
}

/// Offsets one by one, past the doorbells' start, and some far beyond.
const NEAR: u64 = 0x1100;
const FAR: [u64; 8] = [0x1ffc, 0x2000, 0xffff_ffff, 1 << 32, (1 << 32) + STATUS, 1 << 63, u64::MAX - 3, u64::MAX];
const LENGTHS: u64 = 10;
const CHUNK: usize = 1_900;
const ACCESSES: usize = ((NEAR + FAR.len() as u64) * LENGTHS) as usize;

pub struct Sweep {
    /// Starts, messages and areas, where each trace has a case of its own.
    cases: Vec<Item>,
    /// The accesses of each stage.
    accesses: Vec<Item>,
}

impl Sweep {
    pub fn new() -> Self {
        let cases = [start_items(), message_items(), area_items()].concat();
        let mut accesses = Vec::new();
        for stage in stages() {
            accesses.extend(register_items(stage));
            for chunk in 0..ACCESSES.div_ceil(CHUNK) {
                accesses.extend([Item::Reads { stage, chunk }, Item::Writes { stage, chunk }]);
            }
        }
        Sweep { cases, accesses }
    }

    /// Up to `count` traces: the cases first, then accesses, evenly spread over all.
    pub fn spread(self, count: usize) -> impl Iterator<Item = Vec<u8>> {
        let cases = self.cases.into_iter().take(count);
        let all = self.accesses.len();
        let wanted = (count - cases.len()).min(all);
        let accesses = (0..wanted).map(move |place| self.accesses[place * all / wanted]);
        cases.chain(accesses).map(|item| item.draft().bytes())
    }
}

fn stages() -> Vec<Stage> {
    let mut stages = Vec::new();
    for (doorbell, msi) in [(false, false), (false, true), (true, false), (true, true)] {
        let stage = |rung, failed, refused| Stage { rung, failed, refused, doorbell, msi };
        stages.extend((0..5).flat_map(|rung| [stage(rung, false, false), stage(rung, true, false)]));
        stages.push(stage(4, true, true));
    }
    stages
}

fn register_items(stage: Stage) -> Vec<Item> {
    let mut items = Vec::new();
    for (offset, length) in WRITABLE {
        let outcomes: &[u32] = match offset {
            STATUS => &[0, 1, 2, 4, 5, ALL_ACCEPTED],
            MODE | COMMAND => &[0, ALL_ACCEPTED],
            _ => &[ALL_ACCEPTED],
        };
        for &value in edges(offset) {
            items.extend(outcomes.iter().map(|&k| Item::Register { stage, offset, length, value, k }));
        }
    }
    items
}

/// Every number of queues, every outcome that a start can meet, and one beyond.
fn start_items() -> Vec<Item> {
    let mut items = Vec::new();
    for queues in 1..=16 {
        for (doorbell, control) in [(false, false), (false, true), (true, false), (true, true)] {
            let registrations = if doorbell { 2 * queues } else { queues };
            items.extend((0..=registrations + 3).map(|k| Item::Start { queues, doorbell, control, k }));
        }
    }
    items
}

fn message_items() -> Vec<Item> {
    let mut items = Vec::new();
    for vectors in [0, 1, 2, 3, 4, 5, 32] {
        for queues in 0..4 {
            items.extend([0, 1, ALL_ACCEPTED].map(|k| Item::Messages { vectors, queues, k }));
        }
    }
    items
}

/// Each of a queue's areas, close to the memory's end and to 2^64. The queue has N = 8.
fn area_items() -> Vec<Item> {
    let mut items = Vec::new();
    for (register, length) in [(DESCRIPTORS, 128), (AVAILABLE, 22), (USED, 70)] {
        for start in [0, 0x1000, 0xffff_ffe0, 0x7_ffff_fff0u64] {
            let memories = (0..5).map(|short| (start + length + 2).saturating_sub(short));
            items.extend(memories.map(|memory| Item::Area { register, start, memory }));
        }
        for start in (1..12u64).map(|step| (16 * step).wrapping_neg()) {
            items.push(Item::Area { register, start, memory: u64::MAX });
        }
    }
    items
}

impl Item {
    fn draft(&self) -> Draft {
        match *self {
            Item::Reads { stage, chunk } => accesses(stage, chunk, |draft, offset, length| {
                draft.read(offset, length);
            }),
            Item::Writes { stage, chunk } => accesses(stage, chunk, |draft, offset, length| {
                // A register's own writes would change the state under the sweep: they have traces of their own.
                if !WRITABLE[..WRITABLE.len() - 1].contains(&(offset, length)) {
                    draft.write_pooled(offset, (offset % 7) as u32, length);
                }
            }),
            Item::Register { stage, offset, length, value, k } => register(stage, offset, length, value, k),
            Item::Start { queues, doorbell, control, k } => starts(queues, doorbell, control, k),
            Item::Messages { vectors, queues, k } => messages(vectors, queues, k),
            Item::Area { register, start, memory } => area(register, start, memory),
        }
    }
}

impl Stage {
    fn draft(&self) -> Draft {
        let mut setup = configuration(2, self.doorbell);
        setup.msi = self.msi.into();
        setup.regions = 2;
        setup.list = 0x1_0000_0001;
        setup.table[0] = (0xffff_ffff_0000_0000, 0x11_2222_3333);
        setup.table[1] = (0x1000, 0xffff_ffff_ffff_ffff);
        let mut draft = Draft::new(setup);
        if self.msi {
            draft.set_short(MODE, 0x8000);
        }
        draft.raise(0x8000_0006);
        climb(&mut draft, 0, self.rung.min(3), ALL_ACCEPTED);
        if self.rung == 4 {
            lay_queues(&mut draft);
            climb(&mut draft, 3, 4, if self.refused { 1 } else { ALL_ACCEPTED });
        }
        if self.failed && !self.refused {
            // An unknown command sets FAILED at any status and changes nothing else.
            draft.set_short(COMMAND, 0);
        }
        draft
    }
}

fn accesses(stage: Stage, chunk: usize, access: impl Fn(&mut Draft, u64, u32)) -> Draft {
    let mut draft = stage.draft();
    // Enough for the writes, which all take their data from the pool's front.
    draft.pool.extend([1, 0, 0, 0, 0xf, 0x80, 0, 0, 0xb, 0, 0x20, 3, 0, 1, 0, 0]);
    for place in chunk * CHUNK..((chunk + 1) * CHUNK).min(ACCESSES) {
        let (step, length) = (place as u64 / LENGTHS, place as u64 % LENGTHS);
        let offset = if step < NEAR { step } else { FAR[(step - NEAR) as usize] };
        access(&mut draft, offset, length as u32);
    }
    draft
}

/// One write, then every register read, twice, with fields set and selectors moved in between.
fn register(stage: Stage, offset: u64, length: u32, value: u32, k: u32) -> Draft {
    let mut draft = stage.draft();
    draft.write(offset, &value.to_le_bytes()[..length as usize], k);
    read_all(&mut draft);
    // Counts only if the write left a queue selected and the device open to it.
    draft.set(SIZE, 2).set(SIZE, 256).set(SIZE, 128).set(AVAILABLE, 0x42).set(ACKED, 5);
    draft.set(QUEUE, 1).set(FEATURES_PAGE, 1).set(ACKED_PAGE, 7).set(REGION, 1);
    read_all(&mut draft);
    draft
}

fn read_all(draft: &mut Draft) {
    READABLE.iter().for_each(|(offset, length)| {
        draft.read(*offset, *length);
    });
}

/// A start with this outcome, a reset, and another start.
fn starts(queues: u32, doorbell: bool, control: bool, k: u32) -> Draft {
    let mut setup = configuration(queues - u32::from(control), doorbell);
    setup.control = if control { 64 } else { 0 };
    let mut draft = Draft::new(setup);
    start(&mut draft, k);
    draft.read(0x050, 4).set(STATUS, 0).read(0x050, 4);
    start(&mut draft, ALL_ACCEPTED);
    draft.write(STATUS, &0u32.to_le_bytes(), 0).set(STATUS, 0);
    draft
}

/// A queue of 8 whose other areas lie at 0, started with one area here.
fn area(register: u64, start: u64, memory: u64) -> Draft {
    let mut setup = configuration(1, false);
    setup.memory = memory;
    setup.sizes[0] = 8;
    let mut draft = Draft::new(setup);
    climb(&mut draft, 0, 3, ALL_ACCEPTED);
    draft.set(register, start as u32).set(register + 4, (start >> 32) as u32).set(READY, 1);
    climb(&mut draft, 3, 4, ALL_ACCEPTED);
    draft
}

/// Every command code and the arguments around the bounds, before a start, while active, and after a reset.
fn messages(vectors: u32, queues: u32, k: u32) -> Draft {
    let mut setup = configuration(queues, false);
    setup.vectors = vectors;
    setup.control = 8;
    let mut draft = Draft::new(setup);
    draft.set_short(MODE, 0x8000).set(0x0c4, 0xfee0_0000).set(0x0c8, 1).set(0x0cc, 0x41);
    commands(&mut draft, &[1, 2, 3], k);
    start(&mut draft, ALL_ACCEPTED);
    commands(&mut draft, &[1, 2, 3, 2, 3], k);
    commands(&mut draft, &[2, 1, 0, 3, 2, 4, 3], ALL_ACCEPTED);
    draft.set_short(MODE, 0);
    commands(&mut draft, &[2, 15, 3], k);
    draft.set(STATUS, 0);
    commands(&mut draft, &[1, 2, 3], ALL_ACCEPTED);
    draft
}

fn commands(draft: &mut Draft, codes: &[u16], k: u32) {
    for code in codes {
        for argument in [0, 1, 2, 3, 4, 5, 31, 32, 0x101, 0x802, 0xfff] {
            draft.write(COMMAND, &(code << 12 | argument).to_le_bytes(), k);
        }
    }
}
