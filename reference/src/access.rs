//! The access controller: it makes real addresses of program addresses, and refuses some.

use crate::machine::{Machine, ADDRESS, RELOCATION, SEGMENT};
use crate::processor::{Execution, Stop};
use crate::store::place_of;

/// Interrupt status bits, one for each check.
pub const OVER_LIMIT: u32 = 0x10;
pub const NOT_PRESENT: u32 = 0x08;
pub const WRITE_REFUSED: u32 = 0x04;
pub const WRITE_REPORTED: u32 = 0x02;
pub const FETCH_REFUSED: u32 = 0x01;

/// The addresses that reach the controller while relocation is off.
const CONTROLLER: std::ops::RangeInclusive<u32> = 0x300..=0x3FF;
const SEGMENT_REGISTERS: std::ops::RangeInclusive<u32> = 0x300..=0x33F;
const INTERRUPT_STATUS_LOW: u32 = 0x342;

#[derive(Clone, Copy, Debug, PartialEq, Eq)]
pub enum Access {
    Fetch,
    Read,
    Write,
}

/// A segmentation register, taken apart.
#[derive(Clone, Copy, Debug, PartialEq, Eq)]
pub struct Segment {
    pub limit: u32,
    pub relocation: u32,
    pub no_fetch: bool,
    pub no_write: bool,
    pub report: bool,
    pub present: bool,
}

impl Segment {
    pub fn of(register: u32) -> Segment {
        Segment {
            limit: register >> 20 & 0xFF,
            relocation: register >> 8 & 0xFFF,
            no_fetch: register & 0x80 != 0,
            no_write: register & 0x20 != 0,
            report: register & 0x60 == 0x40,
            present: register & 0x10 != 0,
        }
    }

    /// The interrupt status bit of the first check that fails, if one does.
    fn violation(&self, block: u32, access: Access) -> Option<u32> {
        if block > self.limit {
            Some(OVER_LIMIT)
        } else if !self.present {
            Some(NOT_PRESENT)
        } else if access == Access::Fetch && self.no_fetch {
            Some(FETCH_REFUSED)
        } else if access == Access::Write && self.no_write {
            Some(WRITE_REFUSED)
        } else {
            None
        }
    }
}

/// Where an access that passed its checks arrives.
#[derive(Clone, Copy, Debug, PartialEq, Eq)]
pub struct Arrival {
    pub real: u32,
    /// A write here is to be reported.
    pub report: bool,
}

/// Passes a program address through the segmentation registers. An error is the interrupt status
/// bit of the check that failed.
pub fn relocate(segments: &[u32; 16], address: u32, access: Access) -> Result<Arrival, u32> {
    let segment = Segment::of(segments[(address >> 16 & 0xF) as usize]);
    let block = address >> 8 & 0xFF;
    let displacement = address & 0xFF;
    match segment.violation(block, access) {
        Some(bit) => Err(bit),
        None => Ok(Arrival {
            real: (segment.relocation + block) % 4096 * 256 + displacement,
            report: segment.report,
        }),
    }
}

/// What stands at the end of an access.
enum Target {
    Store(Arrival),
    Controller,
}

impl Machine {
    fn target(&self, address: u32, access: Access) -> Result<Target, u32> {
        if self.is_on(RELOCATION) {
            relocate(&self.segments, address, access).map(Target::Store)
        } else if CONTROLLER.contains(&address) {
            Ok(Target::Controller)
        } else {
            Ok(Target::Store(Arrival {
                real: address,
                report: false,
            }))
        }
    }

    /// Reads a halfword of the controller. Reading the low half of the interrupt status clears it.
    fn read_controller(&mut self, address: u32) -> u16 {
        if SEGMENT_REGISTERS.contains(&address) {
            let [a, b, c, d] = self.segments[segment_number(address)].to_be_bytes();
            let half = if address & 2 == 0 { [a, b] } else { [c, d] };
            u16::from_be_bytes(half)
        } else if address == INTERRUPT_STATUS_LOW {
            std::mem::take(&mut self.interrupt_status) as u16
        } else {
            0
        }
    }

    /// Replaces bytes of a segmentation register; other addresses of the controller ignore a write.
    fn write_controller(&mut self, address: u32, bytes: &[u8]) {
        if SEGMENT_REGISTERS.contains(&address) {
            let register = &mut self.segments[segment_number(address)];
            let mut parts = register.to_be_bytes();
            let first = (address & 3) as usize;
            parts[first..first + bytes.len()].copy_from_slice(bytes);
            *register = u32::from_be_bytes(parts) & SEGMENT;
        }
    }
}

fn segment_number(address: u32) -> usize {
    (address as usize & 0x3F) / 4
}

/// The accesses of an instruction in progress. A check that fails sets its bit in the interrupt
/// status and stops the instruction.
impl Execution<'_> {
    fn target(&mut self, address: u32, access: Access) -> Result<Target, Stop> {
        self.machine.target(address, access).map_err(|bit| {
            self.machine.interrupt_status |= bit;
            Stop::Refused
        })
    }

    /// Makes the checks of an access, and no access.
    pub(crate) fn check(&mut self, address: u32, access: Access) -> Result<(), Stop> {
        self.target(address, access).map(drop)
    }

    fn halfword_at(&mut self, address: u32, access: Access) -> Result<u16, Stop> {
        Ok(match self.target(address, access)? {
            Target::Store(arrival) => self.machine.store.read(place_of(arrival.real)),
            Target::Controller => self.machine.read_controller(address),
        })
    }

    pub(crate) fn fetch(&mut self, address: u32) -> Result<u16, Stop> {
        self.halfword_at(address, Access::Fetch)
    }

    pub(crate) fn read_halfword(&mut self, address: u32) -> Result<u16, Stop> {
        self.halfword_at(address & !1, Access::Read)
    }

    pub(crate) fn read_byte(&mut self, address: u32) -> Result<u8, Stop> {
        let [high, low] = self.read_halfword(address)?.to_be_bytes();
        Ok(if address & 1 == 0 { high } else { low })
    }

    pub(crate) fn read_fullword(&mut self, address: u32) -> Result<u32, Stop> {
        let address = address & !3;
        let high = self.read_halfword(address)?;
        let low = self.read_halfword(address + 2)?;
        Ok(u32::from(high) << 16 | u32::from(low))
    }

    pub(crate) fn write_halfword(&mut self, address: u32, halfword: u16) -> Result<(), Stop> {
        let address = address & !1;
        match self.target(address, Access::Write)? {
            Target::Store(arrival) => {
                self.machine.store.write(place_of(arrival.real), halfword);
                self.report_write(arrival);
            }
            Target::Controller => self
                .machine
                .write_controller(address, &halfword.to_be_bytes()),
        }
        Ok(())
    }

    /// One write and no read: only the checks of a write apply.
    pub(crate) fn write_byte(&mut self, address: u32, byte: u8) -> Result<(), Stop> {
        match self.target(address, Access::Write)? {
            Target::Store(arrival) => {
                self.machine.store.write_byte(arrival.real, byte);
                self.report_write(arrival);
            }
            Target::Controller => self.machine.write_controller(address, &[byte]),
        }
        Ok(())
    }

    pub(crate) fn write_fullword(&mut self, address: u32, fullword: u32) -> Result<(), Stop> {
        let address = address & !3;
        self.write_halfword(address, (fullword >> 16) as u16)?;
        self.write_halfword(address + 2, fullword as u16)
    }

    fn report_write(&mut self, arrival: Arrival) {
        if arrival.report {
            self.machine.interrupt_status |= WRITE_REPORTED;
            self.reported = true;
        }
    }
}

/// The sum of an address and a distance, modulo 2^20.
pub fn wrapped(address: u32, distance: u32) -> u32 {
    address.wrapping_add(distance) & ADDRESS
}
