//! The manager of one device's vectors.

use std::io::{Error, Result};
use std::sync::Arc;

use dbs_device::resources::DeviceResources;
use ledger::{Kind, Ledger};

use crate::{InterruptIndex, InterruptSourceGroup, InterruptSourceType};

/// The host's side: where requests go, and how many vectors the device has.
pub struct KvmIrqManager {
    ledger: Arc<Ledger>,
    vectors: usize,
}

impl KvmIrqManager {
    pub fn new(ledger: Arc<Ledger>, vectors: usize) -> Self {
        KvmIrqManager { ledger, vectors }
    }
}

#[derive(Clone, Copy)]
pub enum DeviceInterruptMode {
    LegacyIrq = 0,
    GenericMsiIrq = 1,
}

pub struct DeviceInterruptManager<T> {
    host: T,
    /// Each vector's mask. Its message is not kept, as no line of a replay shows it.
    masks: Vec<bool>,
    mode: DeviceInterruptMode,
    group: Option<Arc<Box<dyn InterruptSourceGroup>>>,
}

impl DeviceInterruptManager<Arc<KvmIrqManager>> {
    pub fn new(host: Arc<KvmIrqManager>, _resources: &DeviceResources) -> Result<Self> {
        let masks = vec![false; host.vectors];
        Ok(DeviceInterruptManager { host, masks, mode: DeviceInterruptMode::LegacyIrq, group: None })
    }

    pub fn enable(&mut self) -> Result<()> {
        self.ask(Kind::EnableInterrupts, 0)?;
        self.group = Some(Arc::new(Box::new(Group { ledger: self.host.ledger.clone(), mode: self.mode })));
        Ok(())
    }

    pub fn is_enabled(&self) -> bool {
        self.group.is_some()
    }

    pub fn get_group(&self) -> Option<Arc<Box<dyn InterruptSourceGroup>>> {
        self.group.clone()
    }

    pub fn reset(&mut self) -> Result<()> {
        self.host.ledger.tell(Kind::ResetInterrupts, [0; 4]);
        self.masks.fill(false);
        self.mode = DeviceInterruptMode::LegacyIrq;
        self.group = None;
        Ok(())
    }

    pub fn set_working_mode(&mut self, mode: DeviceInterruptMode) -> Result<()> {
        self.ask(Kind::Mode, mode as u64)?;
        self.mode = mode;
        Ok(())
    }

    pub fn set_msi_low_address(&mut self, index: InterruptIndex, _low: u32) -> Result<()> {
        self.mask(index).map(drop)
    }

    pub fn set_msi_high_address(&mut self, index: InterruptIndex, _high: u32) -> Result<()> {
        self.mask(index).map(drop)
    }

    pub fn set_msi_data(&mut self, index: InterruptIndex, _data: u32) -> Result<()> {
        self.mask(index).map(drop)
    }

    pub fn get_msi_mask(&mut self, index: InterruptIndex) -> Result<bool> {
        Ok(*self.mask(index)?)
    }

    pub fn set_msi_mask(&mut self, index: InterruptIndex, masked: bool) -> Result<()> {
        *self.mask(index)? = masked;
        Ok(())
    }

    pub fn update(&mut self, index: InterruptIndex) -> Result<()> {
        self.ask(Kind::Update, index.into())
    }

    fn ask(&self, kind: Kind, operand: u64) -> Result<()> {
        ask(&self.host.ledger, kind, operand)
    }

    fn mask(&mut self, index: InterruptIndex) -> Result<&mut bool> {
        self.masks.get_mut(index as usize).ok_or_else(|| Error::other("no such vector"))
    }
}

struct Group {
    ledger: Arc<Ledger>,
    mode: DeviceInterruptMode,
}

impl InterruptSourceGroup for Group {
    fn interrupt_type(&self) -> InterruptSourceType {
        match self.mode {
            DeviceInterruptMode::LegacyIrq => InterruptSourceType::LegacyIrq,
            DeviceInterruptMode::GenericMsiIrq => InterruptSourceType::MsiIrq,
        }
    }

    fn mask(&self, index: InterruptIndex) -> Result<()> {
        ask(&self.ledger, Kind::Mask, index.into())
    }

    fn unmask(&self, index: InterruptIndex) -> Result<()> {
        ask(&self.ledger, Kind::Unmask, index.into())
    }
}

fn ask(ledger: &Ledger, kind: Kind, operand: u64) -> Result<()> {
    let accepted = ledger.ask(kind, [operand, 0, 0, 0]);
    accepted.then_some(()).ok_or_else(|| Error::other("refused"))
}
