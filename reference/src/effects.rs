//! What each operation does, once the instruction is fetched and its operand made.
//!
//! An operation changes registers and sets the condition code only after all its accesses have
//! succeeded, except that LM and STM go on fullword by fullword.

use crate::access::{wrapped, Access};
use crate::arithmetic as numbers;
use crate::codes::Operation;
use crate::machine::CONDITION;
use crate::processor::{sign_extended, Ending, Execution, Stop};

/// The code of an input or output instruction whose device is absent.
const ABSENT: u32 = 4;

/// The status that an absent device is taken to have.
const ABSENT_STATUS: u8 = 4;

/// The low 10 bits of a register are a device number.
const DEVICE_NUMBER: u32 = 0x3FF;

impl Execution<'_> {
    /// Does the operation. `value` is the operand: a number, or an address, as the code has it.
    pub(crate) fn effect(&mut self, operation: Operation, value: u32) -> Result<Ending, Stop> {
        use Operation::*;
        match operation {
            And => Ok(self.load(self.first() & value)),
            Or => Ok(self.load(self.first() | value)),
            ExclusiveOr => Ok(self.load(self.first() ^ value)),
            Load => Ok(self.load(value)),
            LoadComplement => Ok(self.load(value.wrapping_neg())),
            Test => Ok(self.coded(numbers::sign(self.first() & value))),
            Compare => Ok(self.coded(numbers::compare_signed(self.first(), value))),
            CompareLogical => Ok(self.coded(numbers::compare_unsigned(self.first(), value))),
            CompareByte => Ok(self.coded(numbers::compare_unsigned(self.first() & 0xFF, value))),
            Add => Ok(self.result(numbers::add(self.first(), value))),
            Subtract => Ok(self.result(numbers::subtract(self.first(), value))),

            ShiftRight => Ok(self.shift(numbers::shift_right, value)),
            ShiftLeft => Ok(self.shift(numbers::shift_left, value)),
            ShiftRightArithmetic => Ok(self.shift(numbers::shift_right_arithmetic, value)),
            ShiftLeftArithmetic => Ok(self.shift(numbers::shift_left_arithmetic, value)),
            RotateRight => Ok(self.load(self.first().rotate_right(value & 31))),
            RotateLeft => Ok(self.load(self.first().rotate_left(value & 31))),

            Multiply => Ok(self.multiply(value)),
            Divide => Ok(self.divide(value)),

            LoadAddress => Ok(self.replace(self.r1, value)),
            LoadByte => Ok(self.replace(self.r1, value & 0xFF)),
            ExchangeHalfwords => Ok(self.replace(self.r1, value.rotate_left(16))),
            ExchangeBytes => Ok(self.exchange_bytes(value)),
            StoreByteInRegister => Ok(self.store_byte_in_register(value)),

            BranchAndLink => Ok(self.branch_and_link(value)),
            BranchIfTrue => Ok(branch_if(self.condition_met(), value)),
            BranchIfFalse => Ok(branch_if(!self.condition_met(), value)),
            BranchIfHigh => Ok(branch_if(self.step_index_is_high(), value)),
            BranchIfNotHigh => Ok(branch_if(!self.step_index_is_high(), value)),

            StoreHalfword => self.store_halfword(value),
            StoreFullword => self.store_fullword(value),
            StoreByte => self.store_byte(value),
            StoreMultiple => self.store_multiple(value),
            LoadMultiple => self.load_multiple(value),
            AddToFullword => self.add_to_fullword(value),
            AddToHalfword => self.add_to_halfword(value),
            TestAndSet => self.test_and_set(value),
            TestBit => self.test_bit(value),
            SetBit => self.change_bit(value, |halfword, bit| halfword | bit),
            ResetBit => self.change_bit(value, |halfword, bit| halfword & !bit),
            ComplementBit => self.change_bit(value, |halfword, bit| halfword ^ bit),

            LoadPswFromRegisters => Ok(self.load_psw_from_registers(value)),
            LoadPsw => self.load_psw(value),
            ExchangeStatus => Ok(self.exchange_status()),
            SupervisorCall => Ok(Ending::Call(value)),

            WriteData => self.send(value, Sending::Data),
            OutputCommand => self.send(value, Sending::Command),
            ReadData => self.read_data(value),
            SenseStatus => self.sense_status(value),
            WriteDataFromRegister => Ok(self.send_from_register(value, Sending::Data)),
            OutputCommandFromRegister => Ok(self.send_from_register(value, Sending::Command)),
            ReadDataToRegister => Ok(self.read_data_to_register()),
            SenseStatusToRegister => Ok(self.sense_status_to_register()),
        }
    }

    /// R1.
    fn first(&self) -> u32 {
        self.register(self.r1)
    }

    /// Sets a register and leaves the code.
    fn replace(&mut self, number: usize, value: u32) -> Ending {
        self.set_register(number, value);
        Ending::Next
    }

    /// Sets the code.
    fn coded(&mut self, code: u32) -> Ending {
        self.machine.set_condition(code);
        Ending::Next
    }

    /// Sets R1 and the code that comes with the result.
    fn result(&mut self, (value, code): (u32, u32)) -> Ending {
        self.set_register(self.r1, value);
        self.coded(code)
    }

    /// Sets R1, and the code by its sign.
    fn load(&mut self, value: u32) -> Ending {
        self.result((value, numbers::sign(value)))
    }

    fn shift(&mut self, shift: fn(u32, u32) -> (u32, u32), count: u32) -> Ending {
        self.result(shift(self.first(), count & 31))
    }
}

/// Multiply and divide work on an even register and the odd one behind it.
impl Execution<'_> {
    fn pair(&self) -> usize {
        self.r1 & !1
    }

    fn multiply(&mut self, factor: u32) -> Ending {
        let pair = self.pair();
        let (high, low) = numbers::multiply(self.register(pair + 1), factor);
        self.set_register(pair, high);
        self.set_register(pair + 1, low);
        Ending::Next
    }

    fn divide(&mut self, divisor: u32) -> Ending {
        let pair = self.pair();
        let (high, low) = (self.register(pair), self.register(pair + 1));
        match numbers::divide(high, low, divisor) {
            None => Ending::ArithmeticFault,
            Some((quotient, remainder)) => {
                self.set_register(pair, remainder);
                self.set_register(pair + 1, quotient);
                Ending::Next
            }
        }
    }
}

/// Bytes within registers.
impl Execution<'_> {
    /// The low two bytes of R1 become those of R2, exchanged.
    fn exchange_bytes(&mut self, second: u32) -> Ending {
        let exchanged = (second as u16).swap_bytes();
        let value = self.first() & 0xFFFF_0000 | u32::from(exchanged);
        self.replace(self.r1, value)
    }

    /// The low byte of R1 goes into R2.
    fn store_byte_in_register(&mut self, second: u32) -> Ending {
        let value = second & 0xFFFF_FF00 | self.first() & 0xFF;
        self.replace(self.r2, value)
    }
}

fn branch_if(condition: bool, target: u32) -> Ending {
    if condition {
        Ending::Branch(target)
    } else {
        Ending::Next
    }
}

/// Branches.
impl Execution<'_> {
    fn branch_and_link(&mut self, target: u32) -> Ending {
        self.set_register(self.r1, self.next);
        Ending::Branch(target)
    }

    /// The condition code and the mask in r1 have a common bit.
    fn condition_met(&self) -> bool {
        self.machine.condition() & self.r1 as u32 != 0
    }

    /// Adds the increment to R1, and tells if R1 is then above the limit.
    fn step_index_is_high(&mut self) -> bool {
        let sum = self.first().wrapping_add(self.register(self.r1 + 1));
        let limit = self.register(self.r1 + 2);
        self.set_register(self.r1, sum);
        sum > limit
    }
}

/// Stores, and instructions that read and write the same operand.
impl Execution<'_> {
    fn store_halfword(&mut self, address: u32) -> Result<Ending, Stop> {
        self.write_halfword(address, self.first() as u16)?;
        Ok(Ending::Next)
    }

    fn store_fullword(&mut self, address: u32) -> Result<Ending, Stop> {
        self.write_fullword(address, self.first())?;
        Ok(Ending::Next)
    }

    fn store_byte(&mut self, address: u32) -> Result<Ending, Stop> {
        self.write_byte(address, self.first() as u8)?;
        Ok(Ending::Next)
    }

    /// The registers of LM and STM, each with the address of its fullword.
    fn successive(&self, address: u32) -> impl Iterator<Item = (usize, u32)> {
        let start = address & !3;
        (self.r1..16)
            .zip((0..).step_by(4))
            .map(move |(number, distance)| (number, wrapped(start, distance)))
    }

    fn store_multiple(&mut self, address: u32) -> Result<Ending, Stop> {
        for (number, address) in self.successive(address) {
            self.write_fullword(address, self.register(number))?;
        }
        Ok(Ending::Next)
    }

    fn load_multiple(&mut self, address: u32) -> Result<Ending, Stop> {
        for (number, address) in self.successive(address) {
            let value = self.read_fullword(address)?;
            self.set_register(number, value);
        }
        Ok(Ending::Next)
    }

    fn add_to_fullword(&mut self, address: u32) -> Result<Ending, Stop> {
        let old = self.read_fullword(address)?;
        let (sum, code) = numbers::add(old, self.first());
        self.write_fullword(address, sum)?;
        Ok(self.coded(code))
    }

    fn add_to_halfword(&mut self, address: u32) -> Result<Ending, Stop> {
        let old = self.read_halfword(address)?;
        let (sum, code) = numbers::add(sign_extended(old), self.first());
        self.write_halfword(address, sum as u16)?;
        Ok(self.coded(code))
    }

    fn test_and_set(&mut self, address: u32) -> Result<Ending, Stop> {
        const BIT_0: u16 = 0x8000;
        let old = self.read_halfword(address)?;
        self.write_halfword(address, old | BIT_0)?;
        Ok(self.coded(if old & BIT_0 != 0 { numbers::L } else { 0 }))
    }
}

/// Bit arrays. R1 is the number of a bit, counted from the one at the address.
impl Execution<'_> {
    fn bit_address(&self, array: u32) -> u32 {
        wrapped(array, self.first() / 16 * 2)
    }

    /// The bit within its halfword; bit 0 is the leftmost.
    fn bit_mask(&self) -> u16 {
        0x8000 >> (self.first() % 16)
    }

    fn bit_code(&mut self, halfword: u16) -> Ending {
        let was_one = halfword & self.bit_mask() != 0;
        self.coded(if was_one { numbers::G } else { 0 })
    }

    fn test_bit(&mut self, array: u32) -> Result<Ending, Stop> {
        let old = self.read_halfword(self.bit_address(array))?;
        Ok(self.bit_code(old))
    }

    fn change_bit(&mut self, array: u32, change: fn(u16, u16) -> u16) -> Result<Ending, Stop> {
        let address = self.bit_address(array);
        let old = self.read_halfword(address)?;
        self.write_halfword(address, change(old, self.bit_mask()))?;
        Ok(self.bit_code(old))
    }
}

/// Loads of the PSW. They use the register set selected before.
impl Execution<'_> {
    fn load_psw_from_registers(&mut self, status: u32) -> Ending {
        let location = self.register(self.r2 + 1);
        self.machine.load_psw(status, location);
        Ending::Loaded
    }

    fn load_psw(&mut self, address: u32) -> Result<Ending, Stop> {
        let address = address & !7;
        let status = self.read_fullword(address)?;
        let location = self.read_fullword(address + 4)?;
        self.machine.load_psw(status, location);
        Ok(Ending::Loaded)
    }

    /// R1 is written before R2 is read.
    fn exchange_status(&mut self) -> Ending {
        self.set_register(self.r1, self.machine.status);
        self.machine.status = self.register(self.r2);
        Ending::Next
    }
}

/// What a byte is sent to a device as.
#[derive(Clone, Copy)]
enum Sending {
    Data,
    Command,
}

/// Input and output.
impl Execution<'_> {
    /// The device that R1 names, if it answers.
    fn device(&self) -> Option<u8> {
        let number = self.first() & DEVICE_NUMBER;
        let device = u8::try_from(number).ok().filter(|&device| device != 0)?;
        self.machine.bus.answers(device).then_some(device)
    }

    fn device_status(&self) -> u8 {
        match self.device() {
            Some(device) => self.machine.bus.status(device),
            None => ABSENT_STATUS,
        }
    }

    fn send_byte(&mut self, device: u8, byte: u8, sending: Sending) {
        match sending {
            Sending::Data => self.machine.bus.write(device, byte),
            Sending::Command => self.machine.bus.command(device, byte),
        }
    }

    fn send(&mut self, address: u32, sending: Sending) -> Result<Ending, Stop> {
        self.check(address, Access::Read)?;
        let Some(device) = self.device() else {
            return Ok(self.coded(ABSENT));
        };
        let byte = self.read_byte(address)?;
        self.send_byte(device, byte, sending);
        Ok(self.coded(0))
    }

    fn send_from_register(&mut self, second: u32, sending: Sending) -> Ending {
        let Some(device) = self.device() else {
            return self.coded(ABSENT);
        };
        self.send_byte(device, second as u8, sending);
        self.coded(0)
    }

    fn read_data(&mut self, address: u32) -> Result<Ending, Stop> {
        self.check(address, Access::Write)?;
        let Some(device) = self.device() else {
            return Ok(self.coded(ABSENT));
        };
        let byte = self.machine.bus.read(device);
        self.write_byte(address, byte)?;
        Ok(self.coded(0))
    }

    fn read_data_to_register(&mut self) -> Ending {
        let Some(device) = self.device() else {
            return self.coded(ABSENT);
        };
        let byte = self.machine.bus.read(device);
        self.set_register(self.r2, u32::from(byte));
        self.coded(0)
    }

    fn sense_status(&mut self, address: u32) -> Result<Ending, Stop> {
        self.check(address, Access::Write)?;
        let status = self.device_status();
        self.write_byte(address, status)?;
        Ok(self.coded(u32::from(status) & CONDITION))
    }

    fn sense_status_to_register(&mut self) -> Ending {
        let status = self.device_status();
        self.set_register(self.r2, u32::from(status));
        self.coded(u32::from(status) & CONDITION)
    }
}
