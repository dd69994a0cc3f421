//! A trace being written.

use crate::configuration::Configuration;
use crate::trace::{Record, BLOCK_AT, LONGEST_FILE, MOST_RECORDS, RAISE, READ, RECORDS_AT, RECORD_LENGTH, WRITE};

/// An outcome number that refuses nothing.
pub const ALL_ACCEPTED: u32 = u32::MAX;

#[derive(Clone)]
pub struct Draft {
    pub configuration: Configuration,
    pub records: Vec<Record>,
    pub pool: Vec<u8>,
}

impl Draft {
    pub fn new(configuration: Configuration) -> Self {
        Draft { configuration, records: Vec::new(), pool: Vec::new() }
    }

    pub fn read(&mut self, offset: u64, length: u32) -> &mut Self {
        self.record(READ, 0, offset, length, 0)
    }

    pub fn write(&mut self, offset: u64, data: &[u8], k: u32) -> &mut Self {
        let start = self.pool.len() as u32;
        self.pool.extend(data);
        self.record(WRITE, k, offset, data.len() as u32, start)
    }

    /// Writes bytes that are already in the pool, which keeps long sweeps small.
    pub fn write_pooled(&mut self, offset: u64, start: u32, length: u32) -> &mut Self {
        self.record(WRITE, ALL_ACCEPTED, offset, length, start)
    }

    pub fn set(&mut self, offset: u64, value: u32) -> &mut Self {
        self.write(offset, &value.to_le_bytes(), ALL_ACCEPTED)
    }

    pub fn set_short(&mut self, offset: u64, value: u16) -> &mut Self {
        self.write(offset, &value.to_le_bytes(), ALL_ACCEPTED)
    }

    pub fn raise(&mut self, bits: u32) -> &mut Self {
        self.record(RAISE, 0, bits.into(), 0, 0)
    }

    fn record(&mut self, kind: u32, k: u32, place: u64, length: u32, start: u32) -> &mut Self {
        self.records.push(Record { kind, k, place, length, start });
        self
    }

    /// Whether so many more records, each with up to 16 bytes of data, still fit a file.
    pub fn has_room(&self, records: usize) -> bool {
        let count = self.records.len() + records;
        let length = RECORDS_AT + RECORD_LENGTH * count + self.pool.len() + 16 * records;
        count <= MOST_RECORDS && length <= LONGEST_FILE
    }

    pub fn bytes(&self) -> Vec<u8> {
        let pool_at = RECORDS_AT + RECORD_LENGTH * self.records.len();
        let header = [1, self.records.len(), BLOCK_AT, RECORDS_AT, pool_at, self.pool.len()];
        let mut bytes: Vec<u8> = header.iter().flat_map(|word| (*word as u32).to_le_bytes()).collect();
        bytes.extend(self.configuration.bytes());
        for record in &self.records {
            bytes.extend(record.kind.to_le_bytes());
            bytes.extend(record.k.to_le_bytes());
            bytes.extend(record.place.to_le_bytes());
            bytes.extend(record.length.to_le_bytes());
            bytes.extend(record.start.to_le_bytes());
        }
        bytes.extend(&self.pool);
        bytes
    }
}
