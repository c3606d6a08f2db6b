//! The state of the machine, as plain fields.

use crate::bus::Bus;
use crate::store::Store;

/// The status bit that stops the execution of instructions.
pub const WAIT: u32 = 0x8000;
/// The status bit that lets device requests in.
pub const DEVICES: u32 = 0x4000;
/// The status bit that makes arithmetic faults interrupt.
pub const ARITHMETIC: u32 = 0x1000;
/// The status bit that sends program addresses through the segmentation registers.
pub const RELOCATION: u32 = 0x0400;
/// The status bit that makes privileged codes illegal.
pub const PROTECTION: u32 = 0x0100;
/// The status bits that select the register set.
pub const REGISTER_SET: u32 = 0x00F0;
/// The status bits of the condition code.
pub const CONDITION: u32 = 0x000F;

/// The 20 bits of an address.
pub const ADDRESS: u32 = 0xF_FFFF;
/// The bits that a Location Counter can have: 20, the last of them clear.
pub const EVEN_ADDRESS: u32 = 0xF_FFFE;

/// The status of a machine newly made or initialised.
pub const FIRST_STATUS: u32 = WAIT;

/// The bits of a segmentation register that are in use; the others are always zero.
pub const SEGMENT: u32 = 0x0FFF_FFF0;

/// The console's switch.
#[derive(Clone, Copy, Debug, PartialEq, Eq)]
pub enum Key {
    Off = 0,
    On = 1,
    Lock = 2,
}

pub struct Machine {
    pub status: u32,
    /// The Location Counter: 20 bits, even.
    pub location: u32,
    /// Register set 0, then register set 15.
    pub sets: [[u32; 16]; 2],
    pub segments: [u32; 16],
    pub interrupt_status: u32,
    pub key: Key,
    pub store: Store,
    pub bus: Box<dyn Bus>,
}

impl Machine {
    /// A new machine: it waits, and its key is ON.
    pub fn make(store: Store, bus: impl Bus + 'static) -> Machine {
        Machine {
            status: FIRST_STATUS,
            location: 0,
            sets: [[0; 16]; 2],
            segments: [0; 16],
            interrupt_status: 0,
            key: Key::On,
            store,
            bus: Box::new(bus),
        }
    }

    /// Which of the two register sets the status selects, as an index of `sets`.
    pub fn selected(&self) -> usize {
        usize::from(self.status & REGISTER_SET != 0)
    }

    pub fn is_on(&self, status_bit: u32) -> bool {
        self.status & status_bit != 0
    }

    pub fn condition(&self) -> u32 {
        self.status & CONDITION
    }

    pub fn set_condition(&mut self, code: u32) {
        self.status = self.status & !CONDITION | code;
    }

    /// Loads the status and the Location Counter from two fullwords.
    pub fn load_psw(&mut self, status: u32, location: u32) {
        self.status = status;
        self.location = location & EVEN_ADDRESS;
    }
}
