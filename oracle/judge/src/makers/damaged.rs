//! Files with something wrong: header, records, configuration, length, or any byte at all.

use super::{driver, random};
use crate::chance::Chance;
use crate::configuration::Configuration;
use crate::draft::Draft;
use crate::trace::{BLOCK_AT, LONGEST_FILE, MOST_RECORDS, RECORDS_AT, RECORD_LENGTH};

/// The `index`th damaged file of a seed. One in four is damaged twice, which shows the order of the checks.
pub fn trace(seed: u64, index: u64) -> Vec<u8> {
    let chance = &mut Chance::new(!seed, index);
    let mut draft = base(chance, seed, index);
    let twice = chance.percent(25);
    if chance.percent(35) || twice {
        draft.configuration = damage_configuration(chance, &draft.configuration);
    }
    let mut bytes = draft.bytes();
    let times = if twice { 2 } else { 1 };
    for _ in 0..times {
        match chance.below(6) {
            0 => damage_header(chance, &mut bytes),
            1 | 2 => damage_record(chance, &mut bytes),
            3 => damage_length(chance, &mut bytes),
            4 if !bytes.is_empty() => {
                let place = chance.below(bytes.len() as u64) as usize;
                bytes[place] ^= 1 << chance.below(8);
            }
            _ => {}
        }
    }
    bytes
}

/// A short sound trace, now and then without records or with very many.
fn base(chance: &mut Chance, seed: u64, index: u64) -> Draft {
    let mut draft = random::trace(seed, index);
    draft.records.truncate(chance.pick(&[0, 1, 3, 8, 12]));
    if chance.percent(10) {
        draft = Draft::new(driver::configuration(1, true));
        draft.set(0x070, 1).raise(3).read(0x060, 4);
    }
    if chance.percent(1) {
        // As many records as a trace may have, or one more.
        let count = MOST_RECORDS + chance.below(2) as usize;
        (draft.records.len()..count).for_each(|_| {
            draft.read(0x070, 4);
        });
    }
    draft
}

fn put(bytes: &mut [u8], at: usize, value: u32) {
    // A file that an earlier damage cut short may have no such place.
    if let Some(four) = bytes.get_mut(at..at + 4) {
        four.copy_from_slice(&value.to_le_bytes());
    }
}

fn damage_header(chance: &mut Chance, bytes: &mut [u8]) {
    let at = 4 * chance.below(6) as usize;
    let mut old = [0; 4];
    if let Some(four) = bytes.get(at..at + 4) {
        old.copy_from_slice(four);
    }
    let old = u32::from_le_bytes(old);
    let any = chance.word();
    let value =
        chance.pick(&[0, 1, 2, old.wrapping_add(1), old.wrapping_sub(1), 2000, 2001, u32::MAX, any, 1 << 31 | old]);
    put(bytes, at, value);
}

fn damage_record(chance: &mut Chance, bytes: &mut [u8]) {
    let rows = (bytes.len().saturating_sub(RECORDS_AT) / RECORD_LENGTH).max(1) as u64;
    let at = RECORDS_AT + RECORD_LENGTH * chance.below(rows) as usize;
    let pool = bytes.len() as u32;
    let any = chance.word();
    match chance.below(5) {
        0 => put(bytes, at, chance.pick(&[0, 4, 1 << 16, 0x101, u32::MAX])),
        1 => {
            put(bytes, at, 3);
            put(bytes, at + 12, chance.pick(&[0, 1, u32::MAX]));
        }
        2 => put(bytes, at, chance.pick(&[1, 2, 3])),
        3 => put(bytes, at + 16, chance.pick(&[0, 1, 4095, 4096, 4097, u32::MAX, any, pool])),
        _ => put(bytes, at + 20, chance.pick(&[0, 1, 4, u32::MAX, u32::MAX - 3, any, pool])),
    }
}

fn damage_length(chance: &mut Chance, bytes: &mut Vec<u8>) {
    let length = bytes.len();
    let below = chance.below(length as u64 + 1) as usize;
    let lengths =
        [0, 23, BLOCK_AT, RECORDS_AT - 1, RECORDS_AT, below, length.saturating_sub(1), length + 1, length + 24];
    let target = if chance.percent(6) { LONGEST_FILE + chance.below(2) as usize } else { chance.pick(&lengths) };
    bytes.resize(target, 0);
    if chance.percent(50) && target >= BLOCK_AT {
        // A pool length that agrees again, so that only the file's length can be at fault.
        let records = u32::from_le_bytes(bytes[4..8].try_into().unwrap()) as usize;
        put(bytes, 20, target.saturating_sub(RECORDS_AT + RECORD_LENGTH * records) as u32);
    }
}

fn damage_configuration(chance: &mut Chance, sound: &Configuration) -> Configuration {
    let mut damaged = sound.clone();
    for _ in 0..chance.pick(&[1, 1, 2]) {
        match chance.below(8) {
            0 => damaged.size = chance.pick(&[0, 0x1000, 0x1fff, 0x2001, 0x1_0000_2000]),
            1 => damaged.base = chance.pick(&[0u64.wrapping_sub(0x1fff), u64::MAX, 0u64.wrapping_sub(0x2000)]),
            2 => damaged.queues = chance.pick(&[0, 15, 16, 17, u32::MAX]),
            3 => damaged.control = chance.pick(&[0, 3, 0x8000, 0x8001, 0xffff, 0x10000, 0x10001, u32::MAX, 1]),
            4 | 5 => damaged.sizes[chance.below(4) as usize] = chance.pick(&[0, 3, 0x8000, 0x8001, 0xffff, 6]),
            6 => damaged.vectors = chance.pick(&[32, 33, u32::MAX]),
            _ => damaged.regions = chance.pick(&[8, 9, u32::MAX]),
        }
    }
    damaged
}
