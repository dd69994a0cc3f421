//! The Rust's device over the oracle's stubs. Its inner device does nothing, so that what is timed is the transport; the
//! oracle's ledger takes the requests, and every one is accepted.

use std::sync::Arc;

use dbs_device::resources::{DeviceResources, Resource};
use dbs_device::DeviceIo;
use dbs_interrupt::KvmIrqManager;
use kvm_ioctls::VmFd;
use ledger::Ledger;
use subject::mmio::MmioV2Device;
use subject::{ActivateResult, Queue, Result, VirtioDevice, VirtioDeviceConfig, VirtioSharedMemoryList};
use vm_memory::{Memory, Region};

pub const BASE: u64 = 0xd000_0000;
pub const WINDOW: u64 = 0x2000;
pub const MEMORY: u64 = 0x1000_0000;
pub const KIND: u32 = 2;
pub const PAGES: [u32; 2] = [0x3000_6e54, 0x1];
pub const QUEUE_SIZE: u16 = 1024;

struct Disk;

impl VirtioDevice<Arc<Memory>, Queue, Region> for Disk {
    fn device_type(&self) -> u32 {
        KIND
    }

    fn queue_max_sizes(&self) -> &[u16] {
        &[QUEUE_SIZE]
    }

    fn ctrl_queue_max_sizes(&self) -> u16 {
        0
    }

    fn get_avail_features(&self, page: u32) -> u32 {
        PAGES.get(page as usize).copied().unwrap_or(0)
    }

    fn set_acked_features(&mut self, _page: u32, _value: u32) {}

    fn set_resource(&mut self, _: Arc<VmFd>, _: DeviceResources) -> Result<Option<VirtioSharedMemoryList<Region>>> {
        Ok(None)
    }

    fn activate(&mut self, _config: VirtioDeviceConfig<Arc<Memory>, Queue, Region>) -> ActivateResult {
        Ok(())
    }

    fn reset(&mut self) -> ActivateResult {
        Ok(())
    }

    fn read_config(&mut self, _offset: u64, _data: &mut [u8]) {}

    fn write_config(&mut self, _offset: u64, _data: &[u8]) {}

    fn remove(&mut self) {}
}

pub struct Host(MmioV2Device<Arc<Memory>, Queue, Region>);

impl Host {
    pub fn new() -> Self {
        let ledger = Arc::new(Ledger::default());
        ledger.begin(u32::MAX);
        let mut resources = DeviceResources::new();
        resources.append(Resource::MmioAddressRange { base: BASE, size: WINDOW });
        let made = MmioV2Device::new(
            Arc::new(VmFd::new(ledger.clone(), false)),
            Arc::new(Memory { length: MEMORY }),
            Arc::new(KvmIrqManager::new(ledger, 0)),
            Box::new(Disk),
            resources,
            None,
        );
        Host(made.ok().expect("an accepted configuration"))
    }

    pub fn device(&self) -> &dyn DeviceIo {
        &self.0
    }
}
