//! The Rust's transport over the stubs, driven one operation at a time.

use std::sync::Arc;

use dbs_device::resources::{DeviceResources, Resource};
use dbs_device::{DeviceIo, IoAddress};
use dbs_interrupt::KvmIrqManager;
use kvm_ioctls::VmFd;
use ledger::{Action, Ledger};
pub use virtio_queue::Queue;
use vm_memory::{Memory, Region};

use crate::device::Device;
use crate::mmio::MmioV2Device;
use crate::Result;

/// What one device is made from. Lists have their used entries only.
#[derive(Clone, Default)]
pub struct Setup {
    pub base: u64,
    pub size: u64,
    pub memory: u64,
    pub device_type: u32,
    pub features: Option<u32>,
    pub wildcard: bool,
    pub msi: bool,
    pub pages: [u32; 2],
    pub vectors: usize,
    pub sizes: Vec<u16>,
    pub control: u16,
    pub list: u64,
    pub regions: Vec<(u64, u64)>,
}

pub struct Transport {
    device: MmioV2Device<Arc<Memory>, Queue, Region>,
    ledger: Arc<Ledger>,
}

impl Transport {
    pub fn new(setup: Setup) -> Result<Self> {
        let ledger = Arc::new(Ledger::default());
        let device = MmioV2Device::new(
            Arc::new(VmFd::new(ledger.clone(), setup.wildcard)),
            Arc::new(Memory { length: setup.memory }),
            Arc::new(KvmIrqManager::new(ledger.clone(), setup.vectors)),
            Box::new(Device { setup: setup.clone(), ledger: ledger.clone() }),
            resources(&setup),
            setup.features,
        )?;
        Ok(Transport { device, ledger })
    }

    /// Reads into the lent bytes, which stay as they are where nothing replies. No answered request can follow.
    pub fn read(&self, offset: u64, data: &mut [u8]) {
        self.ledger.begin(0);
        self.device.read(IoAddress(0), IoAddress(offset), data);
    }

    pub fn write(&self, offset: u64, data: &[u8], k: u32) {
        self.ledger.begin(k);
        self.device.write(IoAddress(0), IoAddress(offset), data);
    }

    /// Sets interrupt bits, as a notifier would.
    pub fn raise(&self, bits: u32) {
        self.ledger.begin(0);
        self.device.interrupt_status().set_bits(bits);
    }

    pub fn status(&self) -> u32 {
        self.device.driver_status()
    }

    /// Shows the last operation's requests, and the place of the refused one if there is one.
    pub fn actions<T>(&self, look: impl FnOnce(&[Action], Option<usize>) -> T) -> T {
        self.ledger.show(look)
    }

    /// Shows the queues' fields.
    pub fn queues(&self, mut look: impl FnMut(usize, &Queue)) {
        for (place, queue) in self.device.state().queues().iter().enumerate() {
            look(place, &queue.queue);
        }
    }
}

/// The window, and with regions the range and slot that the Rust wants to give back when it is dropped.
fn resources(setup: &Setup) -> DeviceResources {
    let mut list = DeviceResources::new();
    list.append(Resource::MmioAddressRange { base: setup.base, size: setup.size });
    if setup.msi {
        list.append(Resource::GenericMsi { base: 0, size: 1 });
    }
    if !setup.regions.is_empty() {
        // Of any size but a window's, which the Rust would take for the window.
        list.append(Resource::MmioAddressRange { base: 0, size: 0 });
        list.append(Resource::KvmMemSlot(0));
    }
    list
}
