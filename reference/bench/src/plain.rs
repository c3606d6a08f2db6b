//! A straightforward interpreter of the machine of docs/MACHINE.md, to time another one beside. It has the whole step (device poll,
//! wait, fetch, decode, execute, interrupts, trace), the access controller with its checks at every access, and the instructions
//! between registers, with short, halfword and fullword operands, and the branches. It lacks multiplication, division, shifts by an
//! operand, bit and byte instructions but LB, additions to memory, index branches, TS, EXBR, load and store multiple, input and output, EPSR
//! and the loading of a PSW: their codes are illegal here. So no code here is privileged, and no instruction ends in an arithmetic fault.

/// The devices of a machine.
pub trait Bus {
    fn requests(&self, device: u8) -> bool;
    fn status(&self, device: u8) -> u8;

    /// The lowest device that requests an interrupt.
    fn requesting(&self) -> Option<u8> {
        (1..=255).find(|device| self.requests(*device))
    }
}

/// A bus on which no device answers or requests.
pub struct SilentBus;

impl Bus for SilentBus {
    fn requests(&self, _device: u8) -> bool {
        false
    }

    fn status(&self, _device: u8) -> u8 {
        0
    }

    fn requesting(&self) -> Option<u8> {
        None
    }
}

#[derive(Clone, Copy, PartialEq, Eq, Debug)]
pub enum Cause {
    Illegal,
    Access,
    SupervisorCall,
    Device,
}

/// What an interrupt adds to the trace.
#[derive(Clone, Copy, PartialEq, Eq, Debug)]
pub struct Record {
    pub cause: Cause,
    pub status: u32,
    pub location: u32,
    pub faults: u32,
}

#[derive(Clone, Copy, PartialEq, Eq, Debug)]
pub enum Answer {
    Done,
    Waiting,
    Interrupted(Cause),
}

/// Why an instruction is not done to its end.
enum Trap {
    Illegal,
    Access,
    SupervisorCall(u32, u32),
}

#[derive(Clone, Copy, PartialEq, Eq)]
enum Access {
    Fetch,
    Read,
    Write,
}

const WAIT: u32 = 0x8000;
const DEVICES: u32 = 0x4000;
const RELOCATION: u32 = 0x0400;

const C: u32 = 8;
const V: u32 = 4;
const G: u32 = 2;
const L: u32 = 1;

/// Store addresses and program addresses have 20 bits.
const ADDRESS: u32 = 0xf_ffff;

pub struct Machine<B> {
    pub status: u32,
    pub location: u32,
    pub registers: [[u32; 16]; 2],
    pub segments: [u32; 16],
    pub faults: u32,
    reported: bool,
    pub store: Vec<u16>,
    bus: B,
}

impl<B: Bus> Machine<B> {
    pub fn new(store: Vec<u16>, bus: B) -> Self {
        Machine {
            status: WAIT,
            location: 0,
            registers: [[0; 16]; 2],
            segments: [0; 16],
            faults: 0,
            reported: false,
            store,
            bus,
        }
    }

    fn set(&self) -> usize {
        usize::from(self.status & 0xf0 != 0)
    }

    fn reg(&self, number: u32) -> u32 {
        self.registers[self.set()][number as usize & 15]
    }

    fn set_reg(&mut self, number: u32, value: u32) {
        self.registers[self.set()][number as usize & 15] = value;
    }

    fn set_code(&mut self, code: u32) {
        self.status = self.status & !15 | code;
    }

    fn half(&self, real: u32) -> u16 {
        self.store.get(real as usize >> 1).copied().unwrap_or(0)
    }

    fn full(&self, real: u32) -> u32 {
        u32::from(self.half(real)) << 16 | u32::from(self.half(real + 2))
    }

    fn fault(&mut self, bit: u32) -> Trap {
        self.faults |= bit;
        Trap::Access
    }

    /// The real address of an access.
    fn translate(&mut self, access: Access, address: u32) -> Result<u32, Trap> {
        if self.status & RELOCATION == 0 {
            return Ok(address);
        }
        let segment = self.segments[address as usize >> 16 & 15];
        let block = address >> 8 & 0xff;
        if block > segment >> 20 & 0xff {
            return Err(self.fault(0x10));
        }
        if segment & 0x10 == 0 {
            return Err(self.fault(0x08));
        }
        match access {
            Access::Fetch => {
                if segment & 0x80 != 0 {
                    return Err(self.fault(0x01));
                }
            }
            Access::Read => {}
            Access::Write => match segment >> 5 & 3 {
                0 => {}
                2 => {
                    self.faults |= 0x02;
                    self.reported = true;
                }
                _ => return Err(self.fault(0x04)),
            },
        }
        Ok((((segment >> 8 & 0xfff) + block) & 0xfff) << 8 | address & 0xff)
    }

    /// Whether a real address is one of the controller's own.
    fn is_controller(&self, real: u32) -> bool {
        self.status & RELOCATION == 0 && real >> 8 == 3
    }

    fn read_controller(&mut self, real: u32) -> u16 {
        let word = match real & 0xff {
            0x00..=0x3f => self.segments[real as usize >> 2 & 15],
            0x40..=0x43 => self.faults,
            _ => 0,
        };
        if real & 0xfe == 0x42 {
            self.faults = 0;
        }
        if real & 2 == 0 {
            (word >> 16) as u16
        } else {
            word as u16
        }
    }

    fn write_controller(&mut self, real: u32, half: u16) {
        if real & 0xff < 0x40 {
            let segment = &mut self.segments[real as usize >> 2 & 15];
            let word = if real & 2 == 0 {
                u32::from(half) << 16 | *segment & 0xffff
            } else {
                *segment & 0xffff_0000 | u32::from(half)
            };
            *segment = word & 0x0fff_fff0;
        }
    }

    fn read(&mut self, access: Access, address: u32) -> Result<u16, Trap> {
        let real = self.translate(access, address)?;
        if self.is_controller(real) {
            return Ok(self.read_controller(real));
        }
        Ok(self.half(real))
    }

    fn fetch(&mut self, address: u32) -> Result<u16, Trap> {
        self.read(Access::Fetch, address)
    }

    fn load_half(&mut self, address: u32) -> Result<u16, Trap> {
        self.read(Access::Read, address & !1)
    }

    fn load_full(&mut self, address: u32) -> Result<u32, Trap> {
        let high = self.read(Access::Read, address & !3)?;
        let low = self.read(Access::Read, address & !3 | 2)?;
        Ok(u32::from(high) << 16 | u32::from(low))
    }

    fn write(&mut self, address: u32, half: u16) -> Result<(), Trap> {
        let real = self.translate(Access::Write, address)?;
        if self.is_controller(real) {
            self.write_controller(real, half);
        } else if let Some(word) = self.store.get_mut(real as usize >> 1) {
            *word = half;
        }
        Ok(())
    }

    fn store_half(&mut self, address: u32, half: u16) -> Result<(), Trap> {
        self.write(address & !1, half)
    }

    fn store_full(&mut self, address: u32, value: u32) -> Result<(), Trap> {
        self.write(address & !3, (value >> 16) as u16)?;
        self.write(address & !3 | 2, value as u16)
    }

    fn index(&self, number: u32) -> u32 {
        if number == 0 {
            0
        } else {
            self.reg(number)
        }
    }

    /// The operand address of an RX instruction, and the address of the next instruction.
    fn address(&mut self, own: u32, first: u16) -> Result<(u32, u32), Trap> {
        let second = u32::from(self.fetch((own + 2) & ADDRESS)?);
        let index = self.index(u32::from(first) & 15);
        Ok(match second >> 14 {
            0 => (second.wrapping_add(index) & ADDRESS, (own + 4) & ADDRESS),
            1 => {
                let third = u32::from(self.fetch((own + 4) & ADDRESS)?);
                let sum = ((second & 0xff) << 16 | third)
                    .wrapping_add(index)
                    .wrapping_add(self.index(second >> 8 & 15));
                (sum & ADDRESS, (own + 6) & ADDRESS)
            }
            _ => {
                let displacement = ((second << 17) as i32 >> 17) as u32;
                let next = (own + 4) & ADDRESS;
                let sum = displacement.wrapping_add(next).wrapping_add(index);
                (sum & ADDRESS, next)
            }
        })
    }

    fn set_result(&mut self, r1: u32, value: u32) {
        self.set_reg(r1, value);
        self.set_code(marks(value));
    }

    /// Applies the function that the second digit of a code names.
    fn apply(&mut self, code: u8, r1: u32, y: u32) {
        let x = self.reg(r1);
        match code & 15 {
            0x4 => self.set_result(r1, x & y),
            0x5 => self.set_code(compared(x < y, x == y)),
            0x6 => self.set_result(r1, x | y),
            0x7 => self.set_result(r1, x ^ y),
            0x8 => self.set_result(r1, y),
            0x9 => self.set_code(compared((x as i32) < y as i32, x == y)),
            0xa => {
                let (sum, carry) = x.overflowing_add(y);
                let overflow = (x as i32).overflowing_add(y as i32).1;
                self.set_reg(r1, sum);
                self.set_code(
                    marks(sum) | if carry { C } else { 0 } | if overflow { V } else { 0 },
                );
            }
            0xb => {
                let (difference, borrow) = x.overflowing_sub(y);
                let overflow = (x as i32).overflowing_sub(y as i32).1;
                self.set_reg(r1, difference);
                self.set_code(
                    marks(difference) | if borrow { C } else { 0 } | if overflow { V } else { 0 },
                );
            }
            _ => self.set_code(marks(x & y)),
        }
    }

    fn branch(&mut self, on: bool, mask: u32, target: u32, next: u32) {
        let met = self.status & mask & 15 != 0;
        self.location = if met == on {
            target & ADDRESS & !1
        } else {
            next
        };
    }

    fn execute(&mut self, first: u16) -> Result<(), Trap> {
        let own = self.location;
        let code = (first >> 8) as u8;
        let r1 = u32::from(first) >> 4 & 15;
        let r2 = u32::from(first) & 15;
        let next = (own + 2) & ADDRESS;
        match code {
            0x01 => {
                let target = self.reg(r2);
                self.set_reg(r1, next);
                self.location = target & ADDRESS & !1;
            }
            0x02 | 0x03 => {
                let target = self.reg(r2);
                self.branch(code == 0x02, r1, target, next);
            }
            0x04..=0x0b => {
                let y = self.reg(r2);
                self.apply(code, r1, y);
                self.location = next;
            }
            0x10 => {
                let x = self.reg(r1);
                let last = if r2 == 0 { 0 } else { x >> (r2 - 1) & 1 };
                self.set_reg(r1, x >> r2);
                self.set_code(marks(x >> r2) | (last * C));
                self.location = next;
            }
            0x11 => {
                let x = self.reg(r1);
                let last = if r2 == 0 { 0 } else { x >> (32 - r2) & 1 };
                self.set_reg(r1, x << r2);
                self.set_code(marks(x << r2) | (last * C));
                self.location = next;
            }
            0x20 | 0x22 => {
                let target = own.wrapping_sub(2 * r2);
                self.branch(code == 0x20, r1, target, next);
            }
            0x21 | 0x23 => self.branch(code == 0x21, r1, own + 2 * r2, next),
            0x24 => {
                self.set_result(r1, r2);
                self.location = next;
            }
            0x25 => {
                self.set_result(r1, r2.wrapping_neg());
                self.location = next;
            }
            0x26 => {
                self.apply(0xa, r1, r2);
                self.location = next;
            }
            0x27 => {
                self.apply(0xb, r1, r2);
                self.location = next;
            }
            0x34 => {
                let value = self.reg(r2).rotate_left(16);
                self.set_reg(r1, value);
                self.location = next;
            }
            0x40 => {
                let (address, next) = self.address(own, first)?;
                self.store_half(address, self.reg(r1) as u16)?;
                self.location = next;
            }
            0x41 => {
                let (address, next) = self.address(own, first)?;
                self.set_reg(r1, next);
                self.location = address & !1;
            }
            0x42 | 0x43 => {
                let (address, next) = self.address(own, first)?;
                self.branch(code == 0x42, r1, address, next);
            }
            0x44..=0x4b => {
                let (address, next) = self.address(own, first)?;
                let y = self.load_half(address)? as i16 as u32;
                self.apply(code, r1, y);
                self.location = next;
            }
            0x50 => {
                let (address, next) = self.address(own, first)?;
                self.store_full(address, self.reg(r1))?;
                self.location = next;
            }
            0x54..=0x5b => {
                let (address, next) = self.address(own, first)?;
                let y = self.load_full(address)?;
                self.apply(code, r1, y);
                self.location = next;
            }
            0x73 => {
                let (address, next) = self.address(own, first)?;
                let y = u32::from(self.load_half(address)?);
                self.set_result(r1, y);
                self.location = next;
            }
            0xc3..=0xcb => {
                let second = self.fetch((own + 2) & ADDRESS)?;
                let y = (second as i16 as u32).wrapping_add(self.index(r2));
                self.apply(code, r1, y);
                self.location = (own + 4) & ADDRESS;
            }
            0xd3 => {
                let (address, next) = self.address(own, first)?;
                let half = self.load_half(address)?;
                let byte = if address & 1 == 0 {
                    half >> 8
                } else {
                    half & 0xff
                };
                self.set_reg(r1, u32::from(byte));
                self.location = next;
            }
            0xe1 => {
                let (address, next) = self.address(own, first)?;
                self.location = next;
                return Err(Trap::SupervisorCall(r1, address));
            }
            0xe6 => {
                let (address, next) = self.address(own, first)?;
                self.set_reg(r1, address);
                self.location = next;
            }
            0xf3..=0xfb => {
                let second = u32::from(self.fetch((own + 2) & ADDRESS)?);
                let third = u32::from(self.fetch((own + 4) & ADDRESS)?);
                let y = (second << 16 | third).wrapping_add(self.index(r2));
                self.apply(code, r1, y);
                self.location = (own + 6) & ADDRESS;
            }
            _ => return Err(Trap::Illegal),
        }
        Ok(())
    }

    fn record(&self, cause: Cause, own: u32) -> Record {
        Record {
            cause,
            status: self.status,
            location: own,
            faults: self.faults,
        }
    }

    fn load_psw(&mut self, status: u32, location: u32) {
        self.status = status;
        self.location = location & ADDRESS & !1;
    }

    fn interrupt(
        &mut self,
        trace: &mut Vec<Record>,
        cause: Cause,
        vector: u32,
        own: u32,
    ) -> Answer {
        trace.push(self.record(cause, own));
        self.registers[0][14] = self.status;
        self.registers[0][15] = own;
        self.load_psw(self.full(vector), self.full(vector + 4));
        Answer::Interrupted(cause)
    }

    fn attend(&mut self, trace: &mut Vec<Record>, device: u8) -> Answer {
        trace.push(self.record(Cause::Device, self.location));
        let entry = u32::from(self.half(0xd0 + 2 * u32::from(device)));
        self.registers[0][0] = self.status;
        self.registers[0][1] = self.location;
        self.registers[0][2] = u32::from(device);
        self.registers[0][3] = u32::from(self.bus.status(device));
        self.registers[0][4] = entry;
        self.load_psw(0x2800, entry);
        Answer::Interrupted(Cause::Device)
    }

    fn supervise(&mut self, trace: &mut Vec<Record>, number: u32, address: u32) -> Answer {
        let own = self.location;
        trace.push(self.record(Cause::SupervisorCall, own));
        self.registers[0][13] = address;
        self.registers[0][14] = self.status;
        self.registers[0][15] = own;
        let entry = u32::from(self.half(0x9c + 2 * number));
        self.load_psw(self.full(0x98), entry);
        Answer::Interrupted(Cause::SupervisorCall)
    }

    /// One step: a device, a wait or an instruction.
    pub fn step(&mut self, trace: &mut Vec<Record>) -> Answer {
        if self.status & DEVICES != 0 {
            if let Some(device) = self.bus.requesting() {
                return self.attend(trace, device);
            }
        }
        if self.status & WAIT != 0 {
            return Answer::Waiting;
        }
        let own = self.location;
        self.reported = false;
        let end = match self.fetch(own) {
            Ok(first) => self.execute(first),
            Err(trap) => Err(trap),
        };
        match end {
            Ok(()) if self.reported => self.interrupt(trace, Cause::Access, 0x90, self.location),
            Ok(()) => Answer::Done,
            Err(Trap::Illegal) => self.interrupt(trace, Cause::Illegal, 0x30, own),
            Err(Trap::Access) => self.interrupt(trace, Cause::Access, 0x90, own),
            Err(Trap::SupervisorCall(number, address)) => self.supervise(trace, number, address),
        }
    }

    /// Steps until one waits, the trace holds `capacity` records or the count is reached; answers the steps made.
    pub fn run(&mut self, count: u32, trace: &mut Vec<Record>, capacity: usize) -> u32 {
        for made in 1..=count {
            let answer = self.step(trace);
            if answer == Answer::Waiting || trace.len() >= capacity {
                return made;
            }
        }
        count
    }
}

/// G and L of a result.
fn marks(value: u32) -> u32 {
    if value == 0 {
        0
    } else if value >> 31 == 0 {
        G
    } else {
        L
    }
}

/// The code of a comparison.
fn compared(less: bool, equal: bool) -> u32 {
    if less {
        C | L
    } else if equal {
        0
    } else {
        G
    }
}
