//! What the host hands to a device when it is made.

use std::slice::Iter;

#[derive(Clone)]
pub enum Resource {
    MmioAddressRange {
        base: u64,
        size: u64,
    },
    /// Message vectors: a first number and a count.
    GenericMsi {
        base: u32,
        size: u32,
    },
    KvmMemSlot(u32),
}

#[derive(Clone, Default)]
pub struct DeviceResources(Vec<Resource>);

impl DeviceResources {
    pub fn new() -> Self {
        Self::default()
    }

    pub fn append(&mut self, resource: Resource) {
        self.0.push(resource);
    }

    pub fn iter(&self) -> Iter<'_, Resource> {
        self.0.iter()
    }

    pub fn get_generic_msi_irqs(&self) -> Option<(u32, u32)> {
        self.iter().find_map(|resource| match resource {
            Resource::GenericMsi { base, size } => Some((*base, *size)),
            _ => None,
        })
    }

    pub fn get_mmio_address_ranges(&self) -> Vec<(u64, u64)> {
        self.pick(|resource| match resource {
            Resource::MmioAddressRange { base, size } => Some((*base, *size)),
            _ => None,
        })
    }

    pub fn get_kvm_mem_slots(&self) -> Vec<u32> {
        self.pick(|resource| match resource {
            Resource::KvmMemSlot(slot) => Some(*slot),
            _ => None,
        })
    }

    fn pick<T>(&self, choose: impl FnMut(&Resource) -> Option<T>) -> Vec<T> {
        self.iter().filter_map(choose).collect()
    }
}
