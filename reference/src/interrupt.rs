//! Interrupts: what they save, the record they leave, and the PSW they load.

use crate::machine::Machine;
use crate::queue::Queue;
use crate::store::place_of;

/// What a step answers. From `Illegal` on, it is also the cause in a trace record.
#[derive(Clone, Copy, Debug, PartialEq, Eq)]
pub enum Answer {
    Done = 0,
    Waiting = 1,
    Illegal = 2,
    Arithmetic = 3,
    Access = 4,
    SupervisorCall = 5,
    Device = 6,
}

impl Answer {
    pub fn number(self) -> u8 {
        self as u8
    }
}

/// What an interrupt leaves in the trace.
#[derive(Clone, Copy, Debug, PartialEq, Eq)]
pub struct Record {
    pub cause: Answer,
    /// The status that was saved.
    pub status: u32,
    /// The Location Counter that was saved.
    pub location: u32,
    pub interrupt_status: u32,
}

/// The trace belongs to the caller, who hands it to each step, run and play.
pub type Trace = Queue<Record>;

const ILLEGAL_VECTOR: u32 = 0x30;
const ARITHMETIC_VECTOR: u32 = 0x48;
const ACCESS_VECTOR: u32 = 0x90;
const CALL_STATUS: u32 = 0x98;
const CALL_TABLE: u32 = 0x9C;
const DEVICE_TABLE: u32 = 0xD0;

/// The status that a device interrupt loads.
const DEVICE_STATUS: u32 = 0x0000_2800;

/// Interrupts save in register set 0, whatever set is selected. Each of these is called with the
/// Location Counter already at the value to be saved.
impl Machine {
    pub(crate) fn illegal_interrupt(&mut self, trace: &mut Trace) -> Answer {
        self.interrupt(Answer::Illegal, ILLEGAL_VECTOR, trace)
    }

    pub(crate) fn arithmetic_interrupt(&mut self, trace: &mut Trace) -> Answer {
        self.interrupt(Answer::Arithmetic, ARITHMETIC_VECTOR, trace)
    }

    pub(crate) fn access_interrupt(&mut self, trace: &mut Trace) -> Answer {
        self.interrupt(Answer::Access, ACCESS_VECTOR, trace)
    }

    fn interrupt(&mut self, cause: Answer, vector: u32, trace: &mut Trace) -> Answer {
        self.record(cause, trace);
        self.save_psw(14);
        self.load_psw(
            self.vector_fullword(vector),
            self.vector_fullword(vector + 4),
        );
        cause
    }

    pub(crate) fn supervisor_call(
        &mut self,
        address: u32,
        number: usize,
        trace: &mut Trace,
    ) -> Answer {
        self.record(Answer::SupervisorCall, trace);
        self.sets[0][13] = address;
        self.save_psw(14);
        let entry = self.vector_halfword(CALL_TABLE + 2 * number as u32);
        self.load_psw(self.vector_fullword(CALL_STATUS), u32::from(entry));
        Answer::SupervisorCall
    }

    pub(crate) fn device_interrupt(&mut self, device: u8, trace: &mut Trace) -> Answer {
        self.record(Answer::Device, trace);
        let entry = self.vector_halfword(DEVICE_TABLE + 2 * u32::from(device));
        self.save_psw(0);
        self.sets[0][2] = u32::from(device);
        self.sets[0][3] = u32::from(self.bus.status(device));
        self.sets[0][4] = u32::from(entry);
        self.load_psw(DEVICE_STATUS, u32::from(entry));
        Answer::Device
    }

    /// Saves the status in the register of this number, the Location Counter in the next.
    fn save_psw(&mut self, number: usize) {
        self.sets[0][number] = self.status;
        self.sets[0][number + 1] = self.location;
    }

    fn record(&self, cause: Answer, trace: &mut Trace) {
        let record = Record {
            cause,
            status: self.status,
            location: self.location,
            interrupt_status: self.interrupt_status,
        };
        let added = trace.add(record);
        debug_assert!(added.is_ok(), "no step is made at a full trace");
    }

    fn vector_halfword(&self, real: u32) -> u16 {
        self.store.read(place_of(real))
    }

    fn vector_fullword(&self, real: u32) -> u32 {
        u32::from(self.vector_halfword(real)) << 16 | u32::from(self.vector_halfword(real + 2))
    }
}
