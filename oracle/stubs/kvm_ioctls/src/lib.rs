//! The host kernel: registrations (actions 1 and 2) and one capability.

use std::mem::size_of;
use std::sync::Arc;

use kvm_bindings::kvm_userspace_memory_region;
use ledger::{Kind, Ledger};

#[derive(Debug)]
pub struct Error;

impl Error {
    pub fn errno(&self) -> i32 {
        // Any error number will do: the subject passes it on and nobody looks.
        1
    }
}

#[derive(PartialEq)]
pub enum Cap {
    IoeventfdNoLength,
}

pub enum IoEventAddress {
    Mmio(u64),
}

/// Matches any value. It has no size, and a match's width is its type's size.
pub struct NoDatamatch;

impl From<NoDatamatch> for u64 {
    fn from(_: NoDatamatch) -> u64 {
        0
    }
}

/// The event that a registration signals. It knows its queue, so that a record can name it.
pub struct EventFd {
    pub queue: u16,
}

pub struct VmFd {
    ledger: Arc<Ledger>,
    wildcard: bool,
}

impl VmFd {
    pub fn new(ledger: Arc<Ledger>, wildcard: bool) -> Self {
        VmFd { ledger, wildcard }
    }

    pub fn check_extension(&self, capability: Cap) -> bool {
        capability == Cap::IoeventfdNoLength && self.wildcard
    }

    pub fn register_ioevent<T: Into<u64>>(
        &self,
        event: &EventFd,
        address: &IoEventAddress,
        datamatch: T,
    ) -> Result<(), Error> {
        let accepted = self.ledger.ask(Kind::Register, operands(event, address, datamatch));
        accepted.then_some(()).ok_or(Error)
    }

    pub fn unregister_ioevent<T: Into<u64>>(
        &self,
        event: &EventFd,
        address: &IoEventAddress,
        datamatch: T,
    ) -> Result<(), Error> {
        self.ledger.tell(Kind::Unregister, operands(event, address, datamatch));
        Ok(())
    }

    /// Asked only when a device is dropped, which is no operation and so no action.
    ///
    /// # Safety
    /// Nothing is mapped here, so any region is safe.
    pub unsafe fn set_user_memory_region(&self, _region: kvm_userspace_memory_region) -> Result<(), Error> {
        Ok(())
    }
}

fn operands<T: Into<u64>>(event: &EventFd, address: &IoEventAddress, datamatch: T) -> [u64; 4] {
    let IoEventAddress::Mmio(address) = address;
    [event.queue.into(), *address, size_of::<T>() as u64, datamatch.into()]
}
