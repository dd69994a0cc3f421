//! The configuration block, and checks 1 to 6. Checks 1 and 4 are the Rust's (4 by its queues); 2, 3, 5 and 6, and a
//! control size that no u16 holds, have no counterpart there and are made here from document 01.

use subject::{Error, Setup, Transport};

use crate::trace::{u32_at, u64_at};

pub const BLOCK_LENGTH: usize = 240;
pub const WINDOW: u64 = 0x2000;
pub const QUEUES: usize = 16;
pub const VECTORS: usize = 32;
pub const REGIONS: usize = 8;

/// The block's fields, as they stand in it.
#[derive(Clone, Debug)]
pub struct Configuration {
    pub base: u64,
    pub size: u64,
    pub memory: u64,
    pub device_type: u32,
    pub features_given: u32,
    pub features: u32,
    pub wildcard: u32,
    pub msi: u32,
    pub pages: [u32; 2],
    pub vectors: u32,
    pub queues: u32,
    pub control: u32,
    pub sizes: [u16; QUEUES],
    pub regions: u32,
    pub list: u64,
    pub table: [(u64, u64); REGIONS],
}

impl Configuration {
    pub fn parse(block: &[u8]) -> Self {
        let word = |at| u32_at(block, at);
        let long = |at| u64_at(block, at);
        Configuration {
            base: long(0),
            size: long(8),
            memory: long(16),
            device_type: word(24),
            features_given: word(28),
            features: word(32),
            wildcard: word(36),
            msi: word(40),
            pages: [word(44), word(48)],
            vectors: word(52),
            queues: word(56),
            control: word(60),
            sizes: std::array::from_fn(|i| u16::from_le_bytes([block[64 + 2 * i], block[65 + 2 * i]])),
            regions: word(96),
            list: long(104),
            table: std::array::from_fn(|i| (long(112 + 16 * i), long(120 + 16 * i))),
        }
    }

    pub fn bytes(&self) -> Vec<u8> {
        let mut block = Vec::with_capacity(BLOCK_LENGTH);
        let longs = |block: &mut Vec<u8>, values: &[u64]| values.iter().for_each(|v| block.extend(v.to_le_bytes()));
        longs(&mut block, &[self.base, self.size, self.memory]);
        let flags = [self.device_type, self.features_given, self.features, self.wildcard, self.msi];
        let counts = [self.pages[0], self.pages[1], self.vectors, self.queues, self.control];
        flags.iter().chain(&counts).for_each(|v| block.extend(v.to_le_bytes()));
        self.sizes.iter().for_each(|v| block.extend(v.to_le_bytes()));
        longs(&mut block, &[self.regions.into(), self.list]);
        self.table.iter().for_each(|(offset, length)| longs(&mut block, &[*offset, *length]));
        block
    }

    /// Queues, the control queue included whenever its size isn't 0.
    pub fn all_queues(&self) -> u64 {
        u64::from(self.queues) + u64::from(self.control != 0)
    }

    /// What the Rust is given. Counts that checks 3, 5 and 6 refuse are cut to the tables, so that it can be asked at all.
    fn setup(&self) -> Setup {
        let used = |count: u32, most: usize| most.min(count as usize);
        Setup {
            base: self.base,
            size: self.size,
            memory: self.memory,
            device_type: self.device_type,
            features: (self.features_given != 0).then_some(self.features),
            wildcard: self.wildcard != 0,
            msi: self.msi != 0,
            pages: self.pages,
            vectors: used(self.vectors, VECTORS),
            sizes: self.sizes[..used(self.queues, QUEUES)].to_vec(),
            control: self.control as u16,
            list: self.list,
            regions: self.table[..used(self.regions, REGIONS)].to_vec(),
        }
    }

    /// The Rust's transport, or the number of the first check that fails.
    pub fn make(&self) -> Result<Transport, u32> {
        let made = Transport::new(self.setup());
        if matches!(made, Err(Error::InvalidInput)) {
            return Err(1);
        }
        if self.base > WINDOW.wrapping_neg() {
            return Err(2);
        }
        if self.all_queues() == 0 || self.all_queues() > QUEUES as u64 {
            return Err(3);
        }
        if self.control > u16::MAX.into() || matches!(made, Err(Error::VirtioQueueError(_))) {
            return Err(4);
        }
        if self.vectors as usize > VECTORS {
            return Err(5);
        }
        if self.regions as usize > REGIONS {
            return Err(6);
        }
        Ok(made.unwrap_or_else(|error| panic!("the Rust refuses what document 01 accepts: {error}")))
    }
}
