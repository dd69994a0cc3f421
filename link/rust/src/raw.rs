//! What the archive exports, as dewbracket.h has it.

/// Where a shared-memory region lies in the list, and how long it is.
#[derive(Clone, Copy, Debug, Default, PartialEq, Eq)]
#[repr(C)]
pub struct Region {
    pub offset: u64,
    pub length: u64,
}

/// What the gateway hands over.
#[derive(Clone, Copy, Debug, Default, PartialEq, Eq)]
#[repr(C)]
pub struct Configuration {
    pub base: u64,
    pub size: u64,
    pub memory: u64,
    pub kind: u32,
    pub given: bool,
    pub features: u32,
    pub wildcard: bool,
    pub msi: bool,
    pub page0: u32,
    pub page1: u32,
    pub vectors: u32,
    pub dataqueues: u32,
    pub control: u32,
    pub sizes: [u16; 16],
    pub regions: u32,
    pub list: u64,
    pub table: [Region; 8],
}

#[derive(Clone, Copy, PartialEq, Eq)]
#[repr(C)]
pub struct Hot {
    words: [u32; 7],
    doorbell: bool,
    msi: bool,
}

#[derive(Clone, Copy, PartialEq, Eq)]
#[repr(C)]
pub struct Config {
    base: u64,
    memory: u64,
    list: u64,
    words: [u32; 7],
    sizes: [u16; 16],
    table: [Region; 8],
}

#[derive(Clone, Copy, PartialEq, Eq)]
#[repr(C)]
pub struct Queue {
    size: u16,
    ready: bool,
    words: [u32; 6],
}

#[derive(Clone, Copy, PartialEq, Eq)]
#[repr(C)]
pub struct Vector {
    words: [u32; 3],
    masked: bool,
}

#[derive(Clone, Copy, PartialEq, Eq)]
#[repr(C)]
pub struct Device {
    hot: Hot,
    config: Config,
    flags: [bool; 3],
    stage: [u32; 4],
    queues: [Queue; 16],
    held: [[bool; 2]; 16],
    vectors: [Vector; 32],
}

#[derive(Clone, Copy)]
#[repr(C)]
pub struct Made {
    pub refusal: u32,
    pub device: Device,
}

/// What is told of an access or a raise: refusal 7 or 0, how many reply bytes were written (0: there is no reply), and the
/// number of action records.
#[derive(Clone, Copy, Debug, Default, PartialEq, Eq)]
#[repr(C)]
pub struct Told {
    pub refusal: u32,
    pub reply: u32,
    pub count: usize,
}

/// Whether the short way was enough, and if so a register's word.
#[derive(Clone, Copy)]
#[repr(C)]
pub struct Quick {
    pub value: u32,
    pub done: bool,
}

/// What comes back by value: the device after it, and what is told.
#[derive(Clone, Copy)]
#[repr(C)]
pub struct Answer {
    pub device: Device,
    pub refusal: u32,
    pub reply: usize,
    pub count: usize,
}

#[repr(C)]
pub struct Reply {
    pub refusal: u32,
    pub value: u32,
}

/// What a registration is made with.
#[derive(Clone, Copy, Debug, Default, PartialEq, Eq)]
#[repr(C)]
pub struct Entry {
    pub queue: u64,
    pub address: u64,
    pub width: u64,
    pub value: u64,
}

#[repr(C)]
pub struct Standing {
    pub refusal: u32,
    pub stands: bool,
    pub entry: Entry,
}

/// Which lines a replay adds to a record's own: its actions, and the fields of the queues.
#[derive(Clone, Copy, Debug, Default, PartialEq, Eq)]
#[repr(C)]
pub struct Show {
    pub actions: bool,
    pub fields: bool,
}

#[repr(C)]
pub struct Played {
    pub device: Device,
    pub length: usize,
    pub whole: bool,
}

// The sizes that the archive's own code has.
const _: () = {
    assert!(size_of::<Hot>() == 32);
    assert!(size_of::<Config>() == 216);
    assert!(size_of::<Device>() == 1264);
    assert!(size_of::<Configuration>() == 232);
};

extern "C" {
    pub fn dewbracket_new(configuration: Configuration) -> Made;
    pub fn dewbracket_read(
        device: *const Device,
        k: u32,
        offset: u64,
        reply: *mut u8,
        length: usize,
        actions: *mut u64,
        words: usize,
    ) -> Told;
    pub fn dewbracket_write(
        device: *mut Device,
        k: u32,
        offset: u64,
        bytes: *const u8,
        length: usize,
        actions: *mut u64,
        words: usize,
    ) -> Told;
    pub fn dewbracket_poll_read(device: *const Device, offset: u64, length: usize, words: usize) -> Quick;
    pub fn dewbracket_poll_write(
        device: *mut Device,
        offset: u64,
        bytes: *const u8,
        length: usize,
        words: usize,
    ) -> bool;
    pub fn dewbracket_raise(device: *mut Device, bits: u32, actions: *mut u64, words: usize) -> Told;
    pub fn dewbracket_pass_read(
        device: Device,
        k: u32,
        offset: u64,
        reply: *mut u8,
        length: usize,
        actions: *mut u64,
        words: usize,
    ) -> Answer;
    pub fn dewbracket_pass_write(
        device: Device,
        k: u32,
        offset: u64,
        bytes: *const u8,
        length: usize,
        actions: *mut u64,
        words: usize,
    ) -> Answer;
    pub fn dewbracket_pass_raise(device: Device, bits: u32, actions: *mut u64, words: usize) -> Answer;
    pub fn dewbracket_driver_status(device: Device) -> u32;
    pub fn dewbracket_field(device: Device, queue: u32, field: u32) -> Reply;
    pub fn dewbracket_held_entry(device: Device, queue: u32, kind: u32) -> Standing;
    pub fn dewbracket_replay(trace: *const u8, length: usize, show: Show, text: *mut u8, room: usize) -> Played;
}
