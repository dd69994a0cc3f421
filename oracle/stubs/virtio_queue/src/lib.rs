//! A queue's eight fields, which values are fit for them, and when a queue is valid: document 01, "Queue fields".

use vm_memory::GuestMemory;

#[derive(Debug)]
pub enum Error {
    /// A maximum size that no queue can have.
    InvalidMaxSize,
}

const LARGEST_SIZE: u16 = 32_768;

pub trait QueueT: Sized {
    fn new(max_size: u16) -> Result<Self, Error>;
    fn is_valid<M: GuestMemory>(&self, memory: &M) -> bool;
    fn max_size(&self) -> u16;
    fn ready(&self) -> bool;
    fn set_size(&mut self, size: u16);
    fn set_ready(&mut self, ready: bool);
    fn set_desc_table_address(&mut self, low: Option<u32>, high: Option<u32>);
    fn set_avail_ring_address(&mut self, low: Option<u32>, high: Option<u32>);
    fn set_used_ring_address(&mut self, low: Option<u32>, high: Option<u32>);
}

#[derive(Clone)]
pub struct Queue {
    pub max_size: u16,
    pub size: u16,
    pub ready: bool,
    pub descriptors: u64,
    pub available: u64,
    pub used: u64,
}

impl QueueT for Queue {
    fn new(max_size: u16) -> Result<Self, Error> {
        if max_size > LARGEST_SIZE || !max_size.is_power_of_two() {
            return Err(Error::InvalidMaxSize);
        }
        Ok(Queue { max_size, size: max_size, ready: false, descriptors: 0, available: 0, used: 0 })
    }

    fn is_valid<M: GuestMemory>(&self, memory: &M) -> bool {
        let n = u64::from(self.size);
        self.ready
            && inside(memory.length(), self.descriptors, 16 * n)
            && inside(memory.length(), self.available, 6 + 2 * n)
            && inside(memory.length(), self.used, 6 + 8 * n)
    }

    fn max_size(&self) -> u16 {
        self.max_size
    }

    fn ready(&self) -> bool {
        self.ready
    }

    fn set_size(&mut self, size: u16) {
        if size <= self.max_size && size.is_power_of_two() {
            self.size = size;
        }
    }

    fn set_ready(&mut self, ready: bool) {
        self.ready = ready;
    }

    fn set_desc_table_address(&mut self, low: Option<u32>, high: Option<u32>) {
        set_address(&mut self.descriptors, 16, low, high);
    }

    fn set_avail_ring_address(&mut self, low: Option<u32>, high: Option<u32>) {
        set_address(&mut self.available, 2, low, high);
    }

    fn set_used_ring_address(&mut self, low: Option<u32>, high: Option<u32>) {
        set_address(&mut self.used, 4, low, high);
    }
}

/// Whether an area ends at or below the memory's length. An end past 2^64 is outside any memory.
fn inside(memory: u64, start: u64, length: u64) -> bool {
    start.checked_add(length).is_some_and(|end| end <= memory)
}

/// Sets the halves that are given. An unaligned low half is not fit; any high half is.
fn set_address(address: &mut u64, alignment: u32, low: Option<u32>, high: Option<u32>) {
    if let Some(low) = low.filter(|low| low % alignment == 0) {
        *address = *address >> 32 << 32 | u64::from(low);
    }
    if let Some(high) = high {
        *address = *address & 0xffff_ffff | u64::from(high) << 32;
    }
}
