//! The device behind the transport: requests 4, 5 and 11 to 13. It also holds the transport to what it hands over at a
//! start, since no line of a replay shows that.

use std::sync::Arc;

use dbs_device::resources::DeviceResources;
use dbs_interrupt::Signal;
use kvm_ioctls::VmFd;
use ledger::{Kind, Ledger};
use virtio_queue::Queue;
use vm_memory::{GuestAddress, Memory, Region};

use crate::{
    ActivateError, ActivateResult, Result, Setup, VirtioDevice, VirtioDeviceConfig, VirtioQueueConfig,
    VirtioSharedMemory, VirtioSharedMemoryList, VIRTIO_INTR_CONFIG, VIRTIO_INTR_VRING,
};

pub struct Device {
    pub setup: Setup,
    pub ledger: Arc<Ledger>,
}

type Start = VirtioDeviceConfig<Arc<Memory>, Queue, Region>;

impl VirtioDevice<Arc<Memory>, Queue, Region> for Device {
    fn device_type(&self) -> u32 {
        self.setup.device_type
    }

    fn queue_max_sizes(&self) -> &[u16] {
        &self.setup.sizes
    }

    fn ctrl_queue_max_sizes(&self) -> u16 {
        self.setup.control
    }

    fn get_avail_features(&self, page: u32) -> u32 {
        self.setup.pages.get(page as usize).copied().unwrap_or(0)
    }

    fn set_acked_features(&mut self, page: u32, value: u32) {
        self.ledger.tell(Kind::AckedFeatures, [page.into(), value.into(), 0, 0]);
    }

    fn set_resource(&mut self, _: Arc<VmFd>, _: DeviceResources) -> Result<Option<VirtioSharedMemoryList<Region>>> {
        if self.setup.regions.is_empty() {
            return Ok(None);
        }
        let regions = self.setup.regions.iter();
        Ok(Some(VirtioSharedMemoryList {
            host_addr: 0,
            guest_addr: GuestAddress(self.setup.list),
            region_list: regions.map(|&(offset, len)| VirtioSharedMemory { offset, len }).collect(),
            mmap_region: Arc::new(Region),
        }))
    }

    fn activate(&mut self, config: Start) -> ActivateResult {
        self.check_start(&config);
        self.answer(Kind::Activate)
    }

    fn reset(&mut self) -> ActivateResult {
        self.answer(Kind::ResetDevice)
    }

    fn read_config(&mut self, offset: u64, data: &mut [u8]) {
        // The host fills the bytes elsewhere: here they stay as lent.
        self.ledger.tell(Kind::ReadConfig, [offset, data.len() as u64, 0, 0]);
    }

    fn write_config(&mut self, offset: u64, data: &[u8]) {
        self.ledger.tell(Kind::WriteConfig, [offset, data.len() as u64, 0, 0]);
    }

    fn remove(&mut self) {}
}

impl Device {
    fn answer(&self, kind: Kind) -> ActivateResult {
        let accepted = self.ledger.ask(kind, [0; 4]);
        accepted.then_some(()).ok_or(ActivateError::InternalError)
    }

    /// Data queues in order, then perhaps the control queue, each signalling vector q + 1 or the queue bit.
    fn check_start(&self, config: &Start) {
        assert_eq!(config.queues.len(), self.setup.sizes.len(), "data queues handed over at a start");
        assert_eq!(config.ctrl_queue.is_some(), self.setup.control > 0, "control queue handed over at a start");
        let messages = matches!(config.device_change_notifier.signal(), Signal::Vector(_));
        let expected = |vector, bits| if messages { Signal::Vector(vector) } else { Signal::Bits(bits) };
        assert_eq!(config.device_change_notifier.signal(), expected(0, VIRTIO_INTR_CONFIG));
        for (place, queue) in config.queues.iter().chain(&config.ctrl_queue).enumerate() {
            let signal = queue.notifier().map(|notifier| notifier.signal());
            assert_eq!(signal, Some(expected(place as u32 + 1, VIRTIO_INTR_VRING)), "queue {place} signals");
            check_event(queue, place);
        }
        let regions = config.shm_regions.as_ref().map_or(0, |list| list.region_list.len());
        assert_eq!(regions, self.setup.regions.len(), "regions handed over at a start");
    }
}

fn check_event(queue: &VirtioQueueConfig<Queue>, place: usize) {
    assert_eq!(usize::from(queue.eventfd.queue), place, "event of queue {place}");
    assert_eq!(usize::from(queue.index()), place, "index of queue {place}");
}
