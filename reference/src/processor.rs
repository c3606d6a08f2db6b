//! A step of the processor: taking a device, waiting, or one instruction.

use crate::access::wrapped;
use crate::codes::{self, Code, Form, Operand};
use crate::interrupt::{Answer, Trace};
use crate::machine::{Machine, ADDRESS, ARITHMETIC, DEVICES, EVEN_ADDRESS, PROTECTION, WAIT};

/// Why an instruction came to nothing.
pub(crate) enum Stop {
    Illegal,
    /// An access was refused; the instruction is abandoned.
    Refused,
}

/// How an instruction that ran to its end goes on.
pub(crate) enum Ending {
    Next,
    Branch(u32),
    /// The instruction has loaded the Location Counter itself.
    Loaded,
    ArithmeticFault,
    /// A supervisor call with its operand address.
    Call(u32),
}

/// An instruction in progress.
pub(crate) struct Execution<'m> {
    pub(crate) machine: &'m mut Machine,
    /// The register set selected when the instruction began, as an index.
    pub(crate) set: usize,
    /// The address of the instruction itself.
    pub(crate) own: u32,
    /// The address behind the halfwords fetched so far.
    pub(crate) next: u32,
    pub(crate) r1: usize,
    pub(crate) r2: usize,
    /// The instruction has made a write that is to be reported.
    pub(crate) reported: bool,
}

impl Machine {
    /// One step. The trace must have room for a record.
    pub(crate) fn advance(&mut self, trace: &mut Trace) -> Answer {
        if self.is_on(DEVICES) {
            if let Some(device) = self.bus.requesting() {
                return self.device_interrupt(device, trace);
            }
        }
        if self.is_on(WAIT) {
            return Answer::Waiting;
        }
        self.instruction(trace)
    }

    fn instruction(&mut self, trace: &mut Trace) -> Answer {
        let mut execution = Execution::new(self);
        let result = execution.perform();
        let Execution {
            next, r1, reported, ..
        } = execution;
        let ending = match result {
            Err(Stop::Illegal) => return self.illegal_interrupt(trace),
            Err(Stop::Refused) => return self.access_interrupt(trace),
            Ok(ending) => ending,
        };
        match ending {
            Ending::Loaded => {}
            Ending::Branch(target) => self.location = target & EVEN_ADDRESS,
            Ending::Next | Ending::ArithmeticFault | Ending::Call(_) => self.location = next,
        }
        match ending {
            Ending::ArithmeticFault if self.is_on(ARITHMETIC) => self.arithmetic_interrupt(trace),
            Ending::Call(address) => self.supervisor_call(address, r1, trace),
            _ if reported => self.access_interrupt(trace),
            _ => Answer::Done,
        }
    }
}

impl<'m> Execution<'m> {
    fn new(machine: &'m mut Machine) -> Execution<'m> {
        Execution {
            set: machine.selected(),
            own: machine.location,
            next: machine.location,
            r1: 0,
            r2: 0,
            reported: false,
            machine,
        }
    }

    fn perform(&mut self) -> Result<Ending, Stop> {
        let first = self.fetch_next()?;
        let code = self.legal_code((first >> 8) as u8).ok_or(Stop::Illegal)?;
        self.r1 = usize::from(first >> 4 & 0xF);
        self.r2 = usize::from(first & 0xF);
        let operand = self.operand(code)?;
        self.effect(code.operation, operand)
    }

    fn legal_code(&self, number: u8) -> Option<&'static Code> {
        let protected = self.machine.is_on(PROTECTION);
        codes::find(number).filter(|code| !(code.privileged && protected))
    }

    fn fetch_next(&mut self) -> Result<u16, Stop> {
        let halfword = self.fetch(self.next)?;
        self.next = wrapped(self.next, 2);
        Ok(halfword)
    }

    /// Fetches the rest of the instruction and makes its operand.
    fn operand(&mut self, code: &Code) -> Result<u32, Stop> {
        match code.form {
            Form::Rr | Form::Sf => Ok(self.short_operand(code.operand)),
            Form::Ri1 => {
                let halfword = self.fetch_next()?;
                Ok(sign_extended(halfword).wrapping_add(self.index(self.r2)))
            }
            Form::Ri2 => {
                let high = self.fetch_next()?;
                let low = self.fetch_next()?;
                Ok(joined(high, low).wrapping_add(self.index(self.r2)))
            }
            Form::Rx => {
                let address = self.operand_address()?;
                self.operand_at(address, code.operand)
            }
        }
    }

    fn short_operand(&self, operand: Operand) -> u32 {
        let number = self.r2 as u32;
        match operand {
            Operand::Backward => self.own.wrapping_sub(2 * number),
            Operand::Forward => self.own.wrapping_add(2 * number),
            Operand::Number => number,
            _ => self.register(self.r2),
        }
    }

    /// The address of an RX instruction, in any of its three forms.
    fn operand_address(&mut self) -> Result<u32, Stop> {
        let second = self.fetch_next()?;
        let base = match second >> 14 {
            0b00 => u32::from(second & 0x3FFF),
            0b01 => {
                let third = self.fetch_next()?;
                let second_index = self.index(usize::from(second >> 8 & 0xF));
                joined(second & 0xFF, third).wrapping_add(second_index)
            }
            // The 15 bits after the first are a signed distance from the next instruction.
            _ => sign_extended(second << 1 & 0x8000 | second & 0x7FFF).wrapping_add(self.next),
        };
        Ok(base.wrapping_add(self.index(self.r2)) & ADDRESS)
    }

    /// The address itself, or what stands there.
    fn operand_at(&mut self, address: u32, operand: Operand) -> Result<u32, Stop> {
        match operand {
            Operand::Fullword => self.read_fullword(address),
            Operand::Halfword => self.read_halfword(address).map(sign_extended),
            Operand::LogicalHalfword => self.read_halfword(address).map(u32::from),
            Operand::Byte => self.read_byte(address).map(u32::from),
            _ => Ok(address),
        }
    }

    /// A register of the selected set; the number wraps.
    pub(crate) fn register(&self, number: usize) -> u32 {
        self.machine.sets[self.set][number % 16]
    }

    pub(crate) fn set_register(&mut self, number: usize, value: u32) {
        self.machine.sets[self.set][number % 16] = value;
    }

    /// An index: register 0 counts as 0.
    fn index(&self, number: usize) -> u32 {
        match number {
            0 => 0,
            _ => self.register(number),
        }
    }
}

pub(crate) fn sign_extended(halfword: u16) -> u32 {
    i32::from(halfword as i16) as u32
}

fn joined(high: u16, low: u16) -> u32 {
    u32::from(high) << 16 | u32::from(low)
}
