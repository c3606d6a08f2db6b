//! Directed tapes: each sets up one situation, mostly a single instruction, at its edges. Some are
//! for a bus with devices.

mod accesses;
mod arithmetic;
mod controller;
mod devices;
mod faults;
mod instructions;
mod interrupts;
mod programs;

use super::writer::{reach, Reaching, Way, Writer};
use super::Trial;
use crate::codes::{Code, Form, TABLE};

/// All directed tapes, always in the same order.
pub fn tapes() -> Vec<Vec<u8>> {
    let mut tapes = Vec::new();
    instructions::add(&mut tapes);
    arithmetic::add(&mut tapes);
    accesses::add(&mut tapes);
    controller::add(&mut tapes);
    interrupts::add(&mut tapes);
    programs::add(&mut tapes);
    faults::add(&mut tapes);
    tapes
}

/// All directed tapes over devices, always in the same order.
pub fn trials() -> Vec<Trial> {
    let mut trials = Vec::new();
    devices::add(&mut trials);
    trials
}

/// Tapes being gathered.
type Tapes = Vec<Vec<u8>>;

/// The same over devices.
type Trials = Vec<Trial>;

/// Where the instructions stand, unless the place matters.
const START: u32 = 0xA00;

/// Where the operands in memory stand.
const DATA: u32 = 0x1000;

const SET_15: u32 = 0xF0;
const ARITHMETIC: u32 = 0x1000;
const RELOCATION: u32 = 0x400;
const PROTECTION: u32 = 0x100;
const DEVICES: u32 = 0x4000;
const WAIT: u32 = 0x8000;

/// A segmentation register for the first 64 KB of the store, without restrictions.
const OPEN: u32 = 0x0FF0_0010;

/// A segmentation register with these parts; the digit has E, W and P.
const fn segment(limit: u32, relocation: u32, digit: u32) -> u32 {
    limit << 20 | relocation << 8 | digit << 4
}

/// Numbers at which something may change.
const EDGES: [u32; 16] = [
    0,
    1,
    2,
    7,
    0x7FFF,
    0x8000,
    0xFFFF,
    0x0001_0000,
    0x1234_5678,
    0x7FFF_FFFF,
    0x8000_0000,
    0x8000_0001,
    0xFFFF_7FFF,
    0xFFFF_8000,
    0xFFFF_FFFE,
    0xFFFF_FFFF,
];

/// The most telling of them.
const FEW: [u32; 6] = [0, 1, 0x8765_4321, 0x7FFF_FFFF, 0x8000_0000, 0xFFFF_FFFF];

/// A status that differs from case to case in the condition code, the register set and the bit for
/// arithmetic faults.
fn varied_status(case: usize) -> u32 {
    let case = case as u32;
    let set = if case & 0x10 != 0 { SET_15 } else { 0 };
    let arithmetic = if case & 0x20 != 0 { ARITHMETIC } else { 0 };
    case & 0xF | set | arithmetic
}

fn codes_of(form: Form) -> impl Iterator<Item = &'static Code> {
    TABLE.iter().filter(move |code| code.form == form)
}

/// The number of a code, by its name.
fn code(name: &str) -> u8 {
    TABLE
        .iter()
        .find(|code| code.name == name)
        .map(|code| code.number)
        .expect("the name of a code")
}

/// A situation being set up. All interrupts have vectors, each with its own new PSW.
#[derive(Clone)]
struct Scene {
    writer: Writer,
    status: u32,
}

impl Scene {
    fn new(status: u32) -> Scene {
        let mut writer = Writer::new();
        writer.fullwords(0x30, &[0x0000_00F1, 0x0C00]);
        writer.fullwords(0x48, &[0x0000_2002, 0x0C10]);
        writer.fullwords(0x90, &[0x0000_0044, 0x0C20, 0x0000_0808]);
        for number in 0..16 {
            writer.deposit(0x0C40 + 2 * number);
        }
        Scene { writer, status }
    }

    /// Relocation on, with segment 0 open for the program.
    fn relocated(status: u32) -> Scene {
        Scene::new(status | RELOCATION).segment(0, OPEN)
    }

    /// Sets a register of the selected set.
    fn register(mut self, number: u8, value: u32) -> Scene {
        let set = if self.status & SET_15 != 0 { 15 } else { 0 };
        self.writer.register(set, number, value);
        self
    }

    fn registers(self, registers: &[(u8, u32)]) -> Scene {
        registers.iter().fold(self, |scene, &(number, value)| {
            scene.register(number, value)
        })
    }

    /// Gives every register of the selected set a value of its own.
    fn all_registers(self) -> Scene {
        (0..16).fold(self, |scene, number| {
            scene.register(number, 0x1111_1111u32.wrapping_mul(number.into()) ^ 0x8000)
        })
    }

    fn segment(mut self, number: u8, value: u32) -> Scene {
        self.writer.segment(number, value);
        self
    }

    fn all_open(self) -> Scene {
        (0..16).fold(self, |scene, number| scene.segment(number, OPEN))
    }

    fn halfwords(mut self, address: u32, halfwords: &[u16]) -> Scene {
        self.writer.halfwords(address, halfwords);
        self
    }

    fn fullwords(mut self, address: u32, fullwords: &[u32]) -> Scene {
        self.writer.fullwords(address, fullwords);
        self
    }

    /// Goes to a location with the status of the scene, and makes steps.
    fn go(mut self, location: u32, steps: u32) -> Scene {
        self.writer.status(self.status);
        self.writer.location(location);
        self.writer.go(steps);
        self
    }

    /// Takes another status from here on.
    fn with_status(mut self, status: u32) -> Scene {
        self.status = status;
        self
    }

    fn finish(self) -> Vec<u8> {
        self.writer.finish()
    }

    fn run(self, location: u32, steps: u32) -> Vec<u8> {
        self.go(location, steps).finish()
    }

    /// One step on one instruction.
    fn instruction(self, halfwords: &[u16]) -> Vec<u8> {
        self.halfwords(START, halfwords).run(START, 1)
    }

    /// One step on an RX instruction with the given address, if the way can reach it.
    fn reaching(self, way: Way, code: u8, r1: u8, address: u32) -> Option<Vec<u8>> {
        let Reaching { halfwords, indexes } = reach(way, code, r1, START, address)?;
        Some(self.registers(&indexes).instruction(&halfwords))
    }
}
