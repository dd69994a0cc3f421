//! Addresses, the access trait, and the list of resources that a device is made over.

pub mod resources;

use std::any::Any;

use resources::DeviceResources;

#[derive(Clone, Copy)]
pub struct IoAddress(pub u64);

impl IoAddress {
    pub fn raw_value(self) -> u64 {
        self.0
    }
}

pub trait DeviceIo {
    fn read(&self, base: IoAddress, offset: IoAddress, data: &mut [u8]);
    fn write(&self, base: IoAddress, offset: IoAddress, data: &[u8]);
    fn get_assigned_resources(&self) -> DeviceResources;
    fn get_trapped_io_resources(&self) -> DeviceResources;
    fn as_any(&self) -> &dyn Any;
}
