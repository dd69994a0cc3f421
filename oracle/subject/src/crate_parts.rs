//! What the Rust's own crate gives to its module: errors, the device trait, a queue's set-up, shared memory.

use std::fmt;
use std::sync::Arc;

use dbs_device::resources::DeviceResources;
use dbs_interrupt::InterruptNotifier;
use kvm_ioctls::{EventFd, VmFd};
use virtio_queue::QueueT;
use vm_memory::{GuestAddress, GuestAddressSpace, GuestMemoryRegion};

#[derive(Debug)]
pub enum ActivateError {
    InternalError,
    InvalidQueueConfig,
}

pub type ActivateResult = std::result::Result<(), ActivateError>;

#[derive(Debug)]
pub enum Error {
    InvalidInput,
    IOError(std::io::Error),
    VirtioQueueError(virtio_queue::Error),
    ActivateError(ActivateError),
    InterruptError(std::io::Error),
}

pub type Result<T> = std::result::Result<T, Error>;

impl fmt::Display for Error {
    fn fmt(&self, out: &mut fmt::Formatter) -> fmt::Result {
        fmt::Debug::fmt(self, out)
    }
}

impl From<std::io::Error> for Error {
    fn from(error: std::io::Error) -> Self {
        Error::IOError(error)
    }
}

/// Outside test builds the original warns, and warnings are dropped here.
macro_rules! warn_or_panic {
    ($($message:tt)*) => {
        log::warn!($($message)*)
    };
}
pub(crate) use warn_or_panic;

pub trait VirtioDevice<AS: GuestAddressSpace, Q: QueueT, R: GuestMemoryRegion> {
    fn device_type(&self) -> u32;
    fn queue_max_sizes(&self) -> &[u16];
    fn ctrl_queue_max_sizes(&self) -> u16;
    fn get_avail_features(&self, page: u32) -> u32;
    fn set_acked_features(&mut self, page: u32, value: u32);
    fn set_resource(
        &mut self,
        vm_fd: Arc<VmFd>,
        resources: DeviceResources,
    ) -> Result<Option<VirtioSharedMemoryList<R>>>;
    fn activate(&mut self, config: VirtioDeviceConfig<AS, Q, R>) -> ActivateResult;
    fn reset(&mut self) -> ActivateResult;
    fn read_config(&mut self, offset: u64, data: &mut [u8]);
    fn write_config(&mut self, offset: u64, data: &[u8]);
    fn remove(&mut self);
}

/// A queue with the event that wakes it. Only an activated one has a notifier.
pub struct VirtioQueueConfig<Q: QueueT> {
    pub queue: Q,
    pub eventfd: Arc<EventFd>,
    notifier: Option<Arc<dyn InterruptNotifier>>,
    index: u16,
}

impl<Q: QueueT> VirtioQueueConfig<Q> {
    pub fn create(max_size: u16, index: u16) -> Result<Self> {
        Ok(VirtioQueueConfig {
            queue: Q::new(max_size).map_err(Error::VirtioQueueError)?,
            eventfd: Arc::new(EventFd { queue: index }),
            notifier: None,
            index,
        })
    }

    pub fn new(queue: Q, eventfd: Arc<EventFd>, notifier: Arc<dyn InterruptNotifier>, index: u16) -> Self {
        VirtioQueueConfig { queue, eventfd, notifier: Some(notifier), index }
    }

    pub fn index(&self) -> u16 {
        self.index
    }

    pub fn notifier(&self) -> Option<&dyn InterruptNotifier> {
        self.notifier.as_deref()
    }
}

/// What a device is activated with.
pub struct VirtioDeviceConfig<AS: GuestAddressSpace, Q: QueueT, R: GuestMemoryRegion> {
    pub vm_as: AS,
    pub queues: Vec<VirtioQueueConfig<Q>>,
    pub ctrl_queue: Option<VirtioQueueConfig<Q>>,
    pub device_change_notifier: Arc<dyn InterruptNotifier>,
    pub shm_regions: Option<VirtioSharedMemoryList<R>>,
}

impl<AS: GuestAddressSpace, Q: QueueT, R: GuestMemoryRegion> VirtioDeviceConfig<AS, Q, R> {
    pub fn new(
        vm_as: AS,
        _vm_fd: Arc<VmFd>,
        _resources: DeviceResources,
        queues: Vec<VirtioQueueConfig<Q>>,
        ctrl_queue: Option<VirtioQueueConfig<Q>>,
        device_change_notifier: Arc<dyn InterruptNotifier>,
    ) -> Self {
        VirtioDeviceConfig { vm_as, queues, ctrl_queue, device_change_notifier, shm_regions: None }
    }

    pub fn set_shm_regions(&mut self, regions: VirtioSharedMemoryList<R>) {
        self.shm_regions = Some(regions);
    }
}

#[derive(Clone)]
pub struct VirtioSharedMemory {
    pub offset: u64,
    pub len: u64,
}

pub struct VirtioSharedMemoryList<R> {
    pub host_addr: u64,
    pub guest_addr: GuestAddress,
    pub region_list: Vec<VirtioSharedMemory>,
    pub mmap_region: Arc<R>,
}

// Derived, this would ask that the region itself can be cloned.
impl<R> Clone for VirtioSharedMemoryList<R> {
    fn clone(&self) -> Self {
        VirtioSharedMemoryList {
            host_addr: self.host_addr,
            guest_addr: self.guest_addr,
            region_list: self.region_list.clone(),
            mmap_region: self.mmap_region.clone(),
        }
    }
}
