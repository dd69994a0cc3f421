//! Guest memory is one range from address 0, of which only the length matters.

use std::ops::Deref;
use std::sync::Arc;

#[derive(Clone, Copy, Debug)]
pub struct GuestAddress(pub u64);

pub trait GuestMemory {
    /// How many bytes there are, from address 0.
    fn length(&self) -> u64;
}

pub trait GuestMemoryRegion {}

pub trait GuestAddressSpace {
    type M: GuestMemory;
    type T: Deref<Target = Self::M>;

    fn memory(&self) -> Self::T;
}

/// Memory of a stated length.
pub struct Memory {
    pub length: u64,
}

impl GuestMemory for Memory {
    fn length(&self) -> u64 {
        self.length
    }
}

impl GuestAddressSpace for Arc<Memory> {
    type M = Memory;
    type T = Arc<Memory>;

    fn memory(&self) -> Self::T {
        self.clone()
    }
}

/// What a shared-memory list would map. Nothing here maps anything.
pub struct Region;

impl GuestMemoryRegion for Region {}
