//! Notifiers signal nothing here; they say what they would signal, so that the stub device can hold the subject to it.

use std::sync::Arc;

use crate::{InterruptIndex, InterruptSourceGroup, InterruptStatusRegister32};

#[derive(Debug, PartialEq)]
pub enum Signal {
    Bits(u32),
    Vector(InterruptIndex),
}

pub trait InterruptNotifier {
    fn signal(&self) -> Signal;
}

type Group = Arc<Box<dyn InterruptSourceGroup>>;

pub struct LegacyNotifier {
    bits: u32,
}

impl LegacyNotifier {
    pub fn new(_group: Group, _status: Arc<InterruptStatusRegister32>, bits: u32) -> Self {
        LegacyNotifier { bits }
    }
}

impl InterruptNotifier for LegacyNotifier {
    fn signal(&self) -> Signal {
        Signal::Bits(self.bits)
    }
}

pub struct MsiNotifier {
    index: InterruptIndex,
}

impl MsiNotifier {
    pub fn new(_group: Group, index: InterruptIndex) -> Self {
        MsiNotifier { index }
    }
}

impl InterruptNotifier for MsiNotifier {
    fn signal(&self) -> Signal {
        Signal::Vector(self.index)
    }
}
