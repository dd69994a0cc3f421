//! Steps that a driver takes, for traces that must get somewhere.

use crate::configuration::{Configuration, QUEUES, REGIONS, WINDOW};
use crate::draft::{Draft, ALL_ACCEPTED};
use crate::registers::{AVAILABLE, DESCRIPTORS, QUEUE, READY, SIZE, STATUS, USED};

/// The steps of the ladder.
pub const LADDER: [u32; 5] = [0, 1, 3, 0xb, 0xf];

/// Far enough apart for a queue of any size.
const QUEUE_APART: u32 = 0x10_0000;

/// A device with so many data queues of 256, and plenty of memory.
pub fn configuration(queues: u32, doorbell: bool) -> Configuration {
    Configuration {
        base: 0xd000_0000,
        size: WINDOW,
        memory: 0x1000_0000,
        device_type: 2,
        features_given: 1,
        features: if doorbell { 4 } else { 0 },
        wildcard: 1,
        msi: 0,
        pages: [0x3000_6e54, 0x8000_0010],
        vectors: queues + 1,
        queues,
        control: 0,
        sizes: [256; QUEUES],
        regions: 0,
        list: 0,
        table: [(0, 0); REGIONS],
    }
}

/// Writes the ladder's values from one rung up to another. The last may start the device, with outcome `k`.
pub fn climb(draft: &mut Draft, from: usize, to: usize, k: u32) {
    for value in &LADDER[from + 1..=to] {
        let k = if *value == LADDER[4] { k } else { ALL_ACCEPTED };
        draft.write(STATUS, &value.to_le_bytes(), k);
    }
}

/// Lays a queue whole and valid, with its areas one behind the other.
pub fn lay_queue(draft: &mut Draft, queue: u32, size: u32) {
    let descriptors = queue * QUEUE_APART;
    let available = descriptors + 16 * size;
    // Rounded up, since a used ring starts at a multiple of four.
    let used = (available + 6 + 2 * size).next_multiple_of(4);
    draft.set(QUEUE, queue).set(SIZE, size);
    draft.set(DESCRIPTORS, descriptors).set(AVAILABLE, available).set(USED, used);
    draft.set(READY, 1);
}

/// Lays every queue of the configuration at its maximum size.
pub fn lay_queues(draft: &mut Draft) {
    let configuration = draft.configuration.clone();
    for queue in 0..configuration.queues {
        lay_queue(draft, queue, configuration.sizes[queue as usize].into());
    }
    if configuration.control != 0 {
        lay_queue(draft, configuration.queues, configuration.control);
    }
}

/// From status 0 through a start with outcome `k`.
pub fn start(draft: &mut Draft, k: u32) {
    climb(draft, 0, 3, ALL_ACCEPTED);
    lay_queues(draft);
    climb(draft, 3, 4, k);
}
