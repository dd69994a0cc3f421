//! The ways of an access come to the same, on random accesses: a poll and then the full function, the full function alone, and
//! by value. That is proved; this run shows that what was proved is what was linked.

use dewbracket::{Actions, Configuration, Device, Told};

/// Marsaglia's xorshift: enough to choose accesses by.
struct Chance(u64);

impl Chance {
    fn below(&mut self, n: u64) -> u64 {
        self.0 ^= self.0 << 13;
        self.0 ^= self.0 >> 7;
        self.0 ^= self.0 << 17;
        self.0 % n
    }

    fn of<T: Copy>(&mut self, list: &[T]) -> T {
        list[self.below(list.len() as u64) as usize]
    }
}

fn fresh() -> Device {
    let mut sizes = [0; 16];
    sizes[..3].fill(256);
    Device::new(Configuration {
        base: 0xd000_0000,
        size: 0x2000,
        memory: 0x1000_0000,
        kind: 2,
        given: true,
        features: 3,
        wildcard: true,
        msi: true,
        page0: 0x20,
        page1: 1,
        vectors: 4,
        dataqueues: 3,
        sizes,
        ..Configuration::default()
    })
    .unwrap()
}

const OFFSETS: [u64; 12] = [0x030, 0x038, 0x044, 0x050, 0x060, 0x064, 0x070, 0x080, 0x090, 0x0a0, 0x0c0, 0x0c2];
const STATUSES: [u32; 7] = [0x0, 0x1, 0x3, 0xb, 0xf, 0x8f, 0x80];

struct Ways {
    device: Device,
    lent: Actions,
    full: Actions,
    passed: Actions,
}

/// Which accesses a poll answers: no others.
fn polled_read(offset: u64, length: usize) -> bool {
    length == 4 && (offset == 0x060 || offset == 0x070)
}

fn polled_write(offset: u64, length: usize) -> bool {
    length == 4 && (offset == 0x050 || offset == 0x064)
}

impl Ways {
    fn new() -> Self {
        Ways { device: fresh(), lent: Actions::default(), full: Actions::default(), passed: Actions::default() }
    }

    fn agree(&self, devices: [Device; 2], tolds: [Told; 3]) {
        assert!(devices.iter().all(|device| *device == self.device));
        assert!(tolds.iter().all(|told| *told == tolds[0]));
        assert_eq!(self.lent.words(), self.passed.words());
        assert_eq!(self.full.words(), self.passed.words());
        assert!(self.lent.iter().eq(self.passed.iter()));
    }

    fn read(&mut self, offset: u64, length: usize) {
        let [mut a, mut b, mut c, mut d] = [[0xaa; 9]; 4];
        let (device, passed) = self.device.passed_read(0, offset, &mut a[..length], &mut self.passed);
        let full = self.device.full_read(0, offset, &mut b[..length], &mut self.full);
        let lent = self.device.read(0, offset, &mut c[..length], &mut self.lent);
        assert_eq!((a, a), (b, c));
        let done = self.device.poll_read(offset, &mut d[..length]);
        assert_eq!(done, polled_read(offset, length));
        assert_eq!(d, if done { a } else { [0xaa; 9] });
        self.agree([device, self.device], [lent, full, passed]);
    }

    fn write(&mut self, k: u32, offset: u64, bytes: &[u8]) {
        let [old, mut once, mut polled] = [self.device; 3];
        let (device, passed) = self.device.passed_write(k, offset, bytes, &mut self.passed);
        let full = once.full_write(k, offset, bytes, &mut self.full);
        let lent = self.device.write(k, offset, bytes, &mut self.lent);
        let done = polled.poll_write(offset, bytes);
        assert_eq!(done, polled_write(offset, bytes.len()));
        assert!(polled == if done { self.device } else { old });
        self.agree([device, once], [lent, full, passed]);
    }

    fn raise(&mut self, bits: u32) {
        let (device, passed) = self.device.passed_raise(bits, &mut self.passed);
        let lent = self.device.raise(bits, &mut self.lent);
        self.agree([device, self.device], [lent, lent, passed]);
    }
}

#[test]
fn all_ways_agree_on_random_accesses() {
    let mut chance = Chance(0x9e37_79b9_7f4a_7c15);
    for _ in 0..500 {
        let mut ways = Ways::new();
        for _ in 0..400 {
            let known = chance.below(8) != 0;
            let offset = if known { chance.of(&OFFSETS) } else { chance.below(0x1100) };
            let usual = if offset == 0x0c0 || offset == 0x0c2 { 2 } else { 4 };
            let length = if chance.below(8) == 0 { chance.below(9) as usize } else { usual };
            match chance.below(8) {
                0 => ways.raise(chance.below(16) as u32),
                1..=3 => ways.read(offset, length),
                _ => {
                    let value = match offset {
                        0x070 => chance.of(&STATUSES),
                        0x030 => chance.below(5) as u32,
                        _ => chance.of(&[0, 1, 2, 256, 0x1000, 0x8000, 0x1001, u32::MAX]),
                    };
                    let mut bytes = [0; 8];
                    bytes[..4].copy_from_slice(&value.to_le_bytes());
                    let k = if chance.below(4) == 0 { chance.below(8) as u32 } else { u32::MAX };
                    ways.write(k, offset, &bytes[..length.min(8)]);
                }
            }
        }
    }
}
