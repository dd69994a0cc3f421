//! The trace's format, and the checks that the Rust has no counterpart for: document 01, checks 8 to 12.

/// Where the configuration block and the records start.
pub const BLOCK_AT: usize = 24;
pub const RECORDS_AT: usize = 264;
pub const RECORD_LENGTH: usize = 24;
pub const LONGEST_FILE: usize = 65_536;
pub const MOST_RECORDS: usize = 2_000;
pub const LONGEST_DATA: u64 = 4_096;

pub const READ: u32 = 1;
pub const WRITE: u32 = 2;
pub const RAISE: u32 = 3;

/// A record as it stands in a file.
#[derive(Clone, Copy, Debug, PartialEq)]
pub struct Record {
    pub kind: u32,
    pub k: u32,
    pub place: u64,
    pub length: u32,
    pub start: u32,
}

/// A trace that passed checks 8 to 12.
pub struct Trace<'a> {
    pub block: &'a [u8],
    pub records: Vec<Record>,
    pub pool: &'a [u8],
}

pub fn u32_at(bytes: &[u8], at: usize) -> u32 {
    u32::from_le_bytes(bytes[at..at + 4].try_into().unwrap())
}

pub fn u64_at(bytes: &[u8], at: usize) -> u64 {
    u64::from_le_bytes(bytes[at..at + 8].try_into().unwrap())
}

/// The trace in a file's bytes, or the number of the first check that it fails.
pub fn open(bytes: &[u8]) -> Result<Trace<'_>, u32> {
    if bytes.len() < BLOCK_AT || bytes.len() > LONGEST_FILE {
        return Err(8);
    }
    if u32_at(bytes, 0) != 1 {
        return Err(9);
    }
    let pool_at = layout(bytes).ok_or(10u32)?;
    let pool = &bytes[pool_at..];
    let rows = bytes[RECORDS_AT..pool_at].chunks_exact(RECORD_LENGTH);
    let records: Vec<Record> = rows.map(record).collect();
    for record in &records {
        check_record(record, pool.len())?;
    }
    Ok(Trace { block: &bytes[BLOCK_AT..RECORDS_AT], records, pool })
}

/// Where the pool starts, if the header's counts and offsets are right.
fn layout(bytes: &[u8]) -> Option<usize> {
    let count = u32_at(bytes, 4) as usize;
    let pool_at = RECORDS_AT + RECORD_LENGTH * count;
    let header = [8, 12, 16, 20].map(|at| u32_at(bytes, at) as usize);
    let right = count <= MOST_RECORDS
        && bytes.len() >= pool_at
        && header == [BLOCK_AT, RECORDS_AT, pool_at, bytes.len() - pool_at];
    right.then_some(pool_at)
}

fn record(row: &[u8]) -> Record {
    Record {
        kind: u32_at(row, 0),
        k: u32_at(row, 4),
        place: u64_at(row, 8),
        length: u32_at(row, 16),
        start: u32_at(row, 20),
    }
}

fn check_record(record: &Record, pool: usize) -> Result<(), u32> {
    let (length, start) = (u64::from(record.length), u64::from(record.start));
    let fits = match record.kind {
        READ => length <= LONGEST_DATA && start == 0,
        WRITE => length <= LONGEST_DATA && start + length <= pool as u64,
        RAISE if record.place <= u32::MAX.into() => length == 0 && start == 0,
        _ => return Err(11),
    };
    fits.then_some(()).ok_or(12)
}
