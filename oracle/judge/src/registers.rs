//! The registers by offset, for making traces and for counting what was reached. Nothing is judged by this list.

pub const FEATURES_PAGE: u64 = 0x014;
pub const ACKED: u64 = 0x020;
pub const ACKED_PAGE: u64 = 0x024;
pub const QUEUE: u64 = 0x030;
pub const SIZE: u64 = 0x038;
pub const READY: u64 = 0x044;
pub const NOTIFY: u64 = 0x050;
pub const INTERRUPTS: u64 = 0x060;
pub const ACKNOWLEDGE: u64 = 0x064;
pub const STATUS: u64 = 0x070;
pub const DESCRIPTORS: u64 = 0x080;
pub const AVAILABLE: u64 = 0x090;
pub const USED: u64 = 0x0a0;
pub const REGION: u64 = 0x0ac;
pub const MODE: u64 = 0x0c0;
pub const COMMAND: u64 = 0x0c2;
pub const CONFIG: u64 = 0x100;
pub const DOORBELLS: u64 = 0x1000;

/// Registers that reply, with their length.
#[rustfmt::skip]
pub const READABLE: [(u64, u32); 17] = [
    (0x000, 4), (0x004, 4), (0x008, 4), (0x00c, 4), (0x010, 4), (0x034, 4), (READY, 4), (NOTIFY, 4), (INTERRUPTS, 4),
    (STATUS, 4), (0x0b0, 4), (0x0b4, 4), (0x0b8, 4), (0x0bc, 4), (0x0fc, 4), (MODE, 2), (CONFIG, 4),
];

/// Registers that take a write, with their length.
#[rustfmt::skip]
pub const WRITABLE: [(u64, u32); 21] = [
    (FEATURES_PAGE, 4), (ACKED, 4), (ACKED_PAGE, 4), (QUEUE, 4), (SIZE, 4), (READY, 4), (ACKNOWLEDGE, 4), (STATUS, 4),
    (0x080, 4), (0x084, 4), (0x090, 4), (0x094, 4), (0x0a0, 4), (0x0a4, 4), (REGION, 4), (MODE, 2), (COMMAND, 2),
    (0x0c4, 4), (0x0c8, 4), (0x0cc, 4), (CONFIG, 4),
];

/// Values at the edges of what a register tells apart.
#[rustfmt::skip]
pub fn edges(offset: u64) -> &'static [u32] {
    match offset {
        SIZE => &[0, 1, 2, 3, 128, 255, 256, 257, 300, 512, 1024, 0x8000, 0x10000, 0x10001, 0x10100, 0xffff_ffff],
        READY => &[0, 1, 2, 3, 0x101, 0x10001, 0x8000_0001, 0xffff_ffff],
        STATUS => &[
            0, 1, 2, 3, 4, 7, 8, 0xb, 0xf, 0x1b, 0x40, 0x80, 0x81, 0x83, 0x8b, 0x8f, 0xff, 0x100, 0x101, 0x10f,
            0x8000_0000, 0xffff_ffff,
        ],
        MODE => &[0, 1, 0x7fff, 0x8000, 0xffff],
        COMMAND => &[
            0, 1, 0x0fff, 0x1000, 0x1001, 0x1002, 0x1003, 0x1004, 0x1fff, 0x2000, 0x2001, 0x2002, 0x2003, 0x2fff,
            0x3000, 0x3001, 0x3003, 0x4000, 0x8000, 0xf001, 0xffff,
        ],
        FEATURES_PAGE | ACKED_PAGE | QUEUE | REGION => &[0, 1, 2, 3, 15, 16, 0xff, 0x10000, 0x8000_0000, 0xffff_ffff],
        ACKNOWLEDGE => &[0, 1, 2, 3, 0x8000_0000, 0xffff_ffff],
        DESCRIPTORS | AVAILABLE | USED => &[
            0, 1, 2, 3, 4, 6, 8, 0xc, 0x10, 0x18, 0x1008, 0x1010, 0xfff0, 0x1_0002, 0xffff_fff0, 0xffff_ffff,
        ],
        _ => &[0, 1, 2, 0x1000, 0x7fff_ffff, 0x8000_0000, 0xffff_ffff],
    }
}
