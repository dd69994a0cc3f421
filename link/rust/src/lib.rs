//! The proved virtio MMIO device, for Rust. Nothing here is `unsafe` to its user.
//!
//! A [`Device`] is plain data and `Copy`. An access takes the words for the requests to the host, [`Actions`], and tells
//! what came of it, [`Told`].
//!
//! # The outcome number
//!
//! `k` says how many of the requests that the host answers are accepted: the first `k` are, the next is refused, and none
//! follows it. A host can't know that before it has seen them. So a VMM steps with [`ALL`], performs the actions, and where
//! it refuses the answered request `j`, counted from 0, it steps again from the old device with `k = j`. The records are
//! then the same as far as the refused one, and those after it undo what was done. [`Device::write_with`] does just that.

mod raw;

pub use raw::{Configuration, Entry, Region, Show, Told};

/// An outcome number by which every request is accepted.
pub const ALL: u32 = u32::MAX;

/// The words that an access must be lent, five for each of at most 64 records.
pub const ACTION_WORDS: usize = 320;

/// Room for the requests of one access.
pub struct Actions {
    words: [u64; ACTION_WORDS],
    count: usize,
}

/// A request to the host: its kind, and four operands of which the unused are 0.
#[derive(Clone, Copy, Debug, PartialEq, Eq)]
pub struct Action {
    pub kind: u64,
    pub operands: [u64; 4],
}

impl Action {
    /// Whether the host answers it: accepts or refuses.
    pub fn answered(self) -> bool {
        matches!(self.kind, 1 | 3 | 4 | 5 | 7 | 8 | 9 | 10)
    }
}

impl Default for Actions {
    fn default() -> Self {
        Actions { words: [0; ACTION_WORDS], count: 0 }
    }
}

impl Actions {
    fn answered(&mut self, answer: raw::Answer) -> (Device, Told) {
        self.count = answer.count;
        (Device(answer.device), Told { refusal: answer.refusal, reply: answer.reply as u32, count: answer.count })
    }

    /// All the lent words, those past the last record as an earlier access left them.
    pub fn words(&self) -> &[u64] {
        &self.words
    }

    /// The requests of the last access, in order.
    pub fn iter(&self) -> impl Iterator<Item = Action> + '_ {
        let records = self.words.chunks_exact(5).take(self.count);
        records.map(|words| Action { kind: words[0], operands: [words[1], words[2], words[3], words[4]] })
    }
}

/// A field of a queue.
#[derive(Clone, Copy, Debug, PartialEq, Eq)]
#[repr(u32)]
pub enum Field {
    Size,
    Ready,
    DescLow,
    DescHigh,
    AvailLow,
    AvailHigh,
    UsedLow,
    UsedHigh,
}

/// A registration of a queue.
#[derive(Clone, Copy, Debug, PartialEq, Eq)]
#[repr(u32)]
pub enum Kind {
    Doorbell,
    Notify,
}

/// What a replay must be lent: so many bytes, and so many more for each record, of which a good trace has at most 2,000.
const TEXT_ROOM: usize = 128;
const RECORD_ROOM: usize = 10304;
const MOST_RECORDS: usize = 2000;

/// The number of a refusal.
#[derive(Clone, Copy, Debug, PartialEq, Eq)]
pub struct Refusal(pub u32);

/// The device.
#[derive(Clone, Copy)]
pub struct Device(raw::Device);

impl Device {
    /// A fresh device, or refusal 1 to 6.
    pub fn new(configuration: Configuration) -> Result<Self, Refusal> {
        // SAFETY: the layouts are those of the archive, which `layout` in raw.rs and the tests hold to.
        let made = unsafe { raw::dewbracket_new(configuration) };
        match made.refusal {
            0 => Ok(Device(made.device)),
            number => Err(Refusal(number)),
        }
    }

    /// A read of as many bytes as `reply` has. Whatever `k` is, it goes the same.
    #[inline]
    pub fn read(&self, k: u32, offset: u64, reply: &mut [u8], actions: &mut Actions) -> Told {
        if self.poll_read(offset, reply) {
            actions.count = 0;
            return Told { refusal: 0, reply: 4, count: 0 };
        }
        self.full_read(k, offset, reply, actions)
    }

    /// A write of these bytes.
    #[inline]
    pub fn write(&mut self, k: u32, offset: u64, bytes: &[u8], actions: &mut Actions) -> Told {
        if self.poll_write(offset, bytes) {
            actions.count = 0;
            return Told::default();
        }
        self.full_write(k, offset, bytes, actions)
    }

    /// A read of 060 or 070, if it is one: then there are four reply bytes, and nothing is asked of the host. Else nothing
    /// happened.
    #[inline]
    pub fn poll_read(&self, offset: u64, reply: &mut [u8]) -> bool {
        // SAFETY: the pointer comes from a reference.
        let polled = unsafe { raw::dewbracket_poll_read(&self.0, offset, reply.len(), ACTION_WORDS) };
        match reply.first_chunk_mut() {
            // Only a read of four bytes is done.
            Some(word) if polled.done => {
                *word = polled.value.to_le_bytes();
                true
            }
            _ => false,
        }
    }

    /// A write of 050 or 064, if it is one: then nothing is asked of the host. Else nothing happened.
    #[inline]
    pub fn poll_write(&mut self, offset: u64, bytes: &[u8]) -> bool {
        // SAFETY: as in `full_read`.
        unsafe { raw::dewbracket_poll_write(&mut self.0, offset, bytes.as_ptr(), bytes.len(), ACTION_WORDS) }
    }

    /// As `read`, with no poll before it.
    pub fn full_read(&self, k: u32, offset: u64, reply: &mut [u8], actions: &mut Actions) -> Told {
        let words = &mut actions.words;
        // SAFETY: each pointer is good for its length, and no two overlap: they come from distinct references.
        let told = unsafe {
            raw::dewbracket_read(&self.0, k, offset, reply.as_mut_ptr(), reply.len(), words.as_mut_ptr(), words.len())
        };
        actions.count = told.count;
        told
    }

    /// As `write`, with no poll before it.
    pub fn full_write(&mut self, k: u32, offset: u64, bytes: &[u8], actions: &mut Actions) -> Told {
        let words = &mut actions.words;
        // SAFETY: as in `full_read`.
        let told = unsafe {
            raw::dewbracket_write(&mut self.0, k, offset, bytes.as_ptr(), bytes.len(), words.as_mut_ptr(), words.len())
        };
        actions.count = told.count;
        told
    }

    /// The given interrupt bits are set.
    #[inline]
    pub fn raise(&mut self, bits: u32, actions: &mut Actions) -> Told {
        let words = &mut actions.words;
        // SAFETY: as in `full_read`.
        let told = unsafe { raw::dewbracket_raise(&mut self.0, bits, words.as_mut_ptr(), words.len()) };
        actions.count = told.count;
        told
    }

    /// As `read`, by value: always the long way.
    pub fn passed_read(self, k: u32, offset: u64, reply: &mut [u8], actions: &mut Actions) -> (Self, Told) {
        let words = &mut actions.words;
        // SAFETY: as in `full_read`.
        let answer = unsafe {
            raw::dewbracket_pass_read(self.0, k, offset, reply.as_mut_ptr(), reply.len(), words.as_mut_ptr(), words.len())
        };
        actions.answered(answer)
    }

    /// As `write`, by value: always the long way.
    pub fn passed_write(self, k: u32, offset: u64, bytes: &[u8], actions: &mut Actions) -> (Self, Told) {
        let words = &mut actions.words;
        // SAFETY: as in `full_read`.
        let answer = unsafe {
            raw::dewbracket_pass_write(self.0, k, offset, bytes.as_ptr(), bytes.len(), words.as_mut_ptr(), words.len())
        };
        actions.answered(answer)
    }

    /// As `raise`, by value: always the long way.
    pub fn passed_raise(self, bits: u32, actions: &mut Actions) -> (Self, Told) {
        let words = &mut actions.words;
        // SAFETY: as in `full_read`.
        let answer = unsafe { raw::dewbracket_pass_raise(self.0, bits, words.as_mut_ptr(), words.len()) };
        actions.answered(answer)
    }

    /// A write whose requests `perform` carries out, each one once and in order. It answers whether it accepts one; of a
    /// request that isn't answered its answer is ignored. Where it refuses one, the device is that after the refusal, and
    /// the requests that undo the rest are performed too.
    pub fn write_with(&mut self, offset: u64, bytes: &[u8], mut perform: impl FnMut(Action) -> bool) {
        let mut actions = Actions::default();
        let old = *self;
        self.write(ALL, offset, bytes, &mut actions);
        let mut accepted = 0;
        let mut refused_at = None;
        for (index, action) in actions.iter().enumerate() {
            let accepts = perform(action);
            if action.answered() {
                if !accepts {
                    refused_at = Some(index);
                    break;
                }
                accepted += 1;
            }
        }
        if let Some(index) = refused_at {
            *self = old;
            self.write(accepted, offset, bytes, &mut actions);
            actions.iter().skip(index + 1).for_each(|action| {
                perform(action);
            });
        }
    }

    /// The status register.
    pub fn driver_status(&self) -> u32 {
        // SAFETY: by value.
        unsafe { raw::dewbracket_driver_status(self.0) }
    }

    /// What a field of a queue holds, or refusal 13.
    pub fn field(&self, queue: u32, field: Field) -> Result<u32, Refusal> {
        // SAFETY: by value.
        let reply = unsafe { raw::dewbracket_field(self.0, queue, field as u32) };
        match reply.refusal {
            0 => Ok(reply.value),
            number => Err(Refusal(number)),
        }
    }

    /// Whether a registration of a queue stands, and what it is made with, or refusal 13.
    pub fn held_entry(&self, queue: u32, kind: Kind) -> Result<(bool, Entry), Refusal> {
        // SAFETY: by value.
        let standing = unsafe { raw::dewbracket_held_entry(self.0, queue, kind as u32) };
        match standing.refusal {
            0 => Ok((standing.stands, standing.entry)),
            number => Err(Refusal(number)),
        }
    }
}

impl PartialEq for Device {
    /// Field by field: the bytes between fields say nothing.
    fn eq(&self, other: &Self) -> bool {
        self.0 == other.0
    }
}

impl Eq for Device {}

/// Replays a trace from a fresh device of its configuration: its text, as the program `replay` prints it, and the device at
/// its end. A bad trace is refused by its number.
pub fn replay(trace: &[u8], show: Show) -> Result<(String, Device), Refusal> {
    let records = trace.get(4..8).map_or(0, |word| u32::from_le_bytes(word.try_into().unwrap()) as usize);
    let mut text = vec![0; TEXT_ROOM + RECORD_ROOM * records.min(MOST_RECORDS)];
    // SAFETY: as in `full_read`.
    let played = unsafe { raw::dewbracket_replay(trace.as_ptr(), trace.len(), show, text.as_mut_ptr(), text.len()) };
    assert!(played.whole, "a good trace has at most {MOST_RECORDS} records, and there is room for as many as it names");
    text.truncate(played.length);
    let text = String::from_utf8(text).expect("a replay writes ASCII");
    match text.strip_prefix("bad ") {
        Some(number) => Err(Refusal(number.trim_end().parse().expect("a number stands behind `bad`"))),
        None => Ok((text, Device(played.device))),
    }
}

#[cfg(test)]
mod tests {
    use super::*;

    /// With fewer words lent than an access must have, a poll does nothing: the refusal is the full function's to tell.
    #[test]
    fn a_poll_with_too_few_words_does_nothing() {
        let mut sizes = [0; 16];
        sizes[0] = 256;
        let mut device = Device::new(Configuration {
            base: 0xd000_0000,
            size: 0x2000,
            memory: 0x1000_0000,
            kind: 2,
            dataqueues: 1,
            sizes,
            ..Configuration::default()
        })
        .unwrap();
        device.raise(3, &mut Actions::default());
        let (old, bytes) = (device, [1, 0, 0, 0]);
        for words in [0, 1, ACTION_WORDS - 1, ACTION_WORDS, ACTION_WORDS + 1] {
            let enough = words >= ACTION_WORDS;
            for offset in [0x060, 0x070] {
                // SAFETY: the pointer comes from a reference.
                let read = unsafe { raw::dewbracket_poll_read(&device.0, offset, 4, words) };
                assert_eq!(read.done, enough);
            }
            for offset in [0x050, 0x064] {
                device = old;
                // SAFETY: each pointer is good for its length, and they come from distinct references.
                let done = unsafe { raw::dewbracket_poll_write(&mut device.0, offset, bytes.as_ptr(), 4, words) };
                assert_eq!(done, enough);
                assert_eq!(device == old, !(enough && offset == 0x064));
            }
        }
    }
}
