//! The interrupt manager: requests 3 and 6 to 10, vectors, and the interrupt bits. Document 01, "Messages".

mod manager;
mod notifier;

use std::sync::atomic::{AtomicU32, Ordering};

pub use manager::{DeviceInterruptManager, DeviceInterruptMode, KvmIrqManager};
pub use notifier::{InterruptNotifier, LegacyNotifier, MsiNotifier, Signal};

/// A vector's number.
pub type InterruptIndex = u32;

#[derive(Clone, Copy)]
pub enum InterruptSourceType {
    LegacyIrq,
    MsiIrq,
}

/// Vectors in use, from an accepted enabling to the next reset.
pub trait InterruptSourceGroup {
    fn interrupt_type(&self) -> InterruptSourceType;
    fn mask(&self, index: InterruptIndex) -> std::io::Result<()>;
    fn unmask(&self, index: InterruptIndex) -> std::io::Result<()>;
}

/// The interrupt bits. A raise sets them, an acknowledge clears them, and nothing else does.
#[derive(Default)]
pub struct InterruptStatusRegister32(AtomicU32);

impl InterruptStatusRegister32 {
    pub fn new() -> Self {
        Self::default()
    }

    pub fn read(&self) -> u32 {
        self.0.load(Ordering::SeqCst)
    }

    pub fn set_bits(&self, bits: u32) {
        self.0.fetch_or(bits, Ordering::SeqCst);
    }

    pub fn clear_bits(&self, bits: u32) {
        self.0.fetch_and(!bits, Ordering::SeqCst);
    }
}
