//! A machine on a bench, with short ways to load it and look at it.
#![allow(dead_code)]

use reference::{Answer, Bus, Machine, Queue, Record, Silent, Store, Trace};

/// Where the tests put their instructions.
pub const START: u32 = 0xA00;

/// Selects register set 15.
pub const SET_15: u32 = 0xF0;

pub const RELOCATION: u32 = 0x400;
pub const PROTECTION: u32 = 0x100;
pub const ARITHMETIC: u32 = 0x1000;
pub const DEVICES: u32 = 0x4000;
pub const WAIT: u32 = 0x8000;

/// A segmentation register for the first 64 KB of the store, without restrictions.
pub const OPEN: u32 = 0x0FF0_0010;

pub struct Bench {
    pub machine: Machine,
    pub trace: Trace,
}

impl Bench {
    pub fn new() -> Bench {
        Bench::with_bus(Silent)
    }

    pub fn with_bus(bus: impl Bus + 'static) -> Bench {
        let mut machine = Machine::make(Store::zeros(32_768), bus);
        machine.status = 0;
        machine.location = START;
        let mut bench = Bench {
            machine,
            trace: Queue::new(64),
        };
        bench.vectors();
        bench
    }

    /// A different new PSW for each interrupt.
    fn vectors(&mut self) {
        self.put_fullwords(0x30, &[0x0000_00F1, 0x0C00]);
        self.put_fullwords(0x48, &[0x0000_00F2, 0x0C10]);
        self.put_fullwords(0x90, &[0x0000_00F4, 0x0C20]);
        self.put_fullwords(0x98, &[0x0000_00F8]);
        for number in 0..16 {
            self.put(0x9C + 2 * number, &[0x0C40 + 2 * number as u16]);
        }
    }

    /// Puts one instruction at the start and goes there.
    pub fn instruct(&mut self, halfwords: &[u16]) -> &mut Bench {
        self.put(START, halfwords);
        self.machine.location = START;
        self
    }

    pub fn put(&mut self, real: u32, halfwords: &[u16]) -> &mut Bench {
        for (index, &halfword) in halfwords.iter().enumerate() {
            self.machine
                .store
                .write(real as usize / 2 + index, halfword);
        }
        self
    }

    pub fn put_fullwords(&mut self, real: u32, fullwords: &[u32]) -> &mut Bench {
        for (index, &fullword) in fullwords.iter().enumerate() {
            let halves = [(fullword >> 16) as u16, fullword as u16];
            self.put(real + 4 * index as u32, &halves);
        }
        self
    }

    /// Sets a register of the selected set.
    pub fn set(&mut self, number: usize, value: u32) -> &mut Bench {
        let set = self.machine.selected();
        self.machine.sets[set][number] = value;
        self
    }

    pub fn status(&mut self, status: u32) -> &mut Bench {
        self.machine.status = status;
        self
    }

    pub fn segment(&mut self, number: usize, value: u32) -> &mut Bench {
        self.machine.segments[number] = value;
        self
    }

    /// A register of set 0.
    pub fn register(&self, number: usize) -> u32 {
        self.machine.sets[0][number]
    }

    pub fn code(&self) -> u32 {
        self.machine.condition()
    }

    pub fn halfword(&self, real: u32) -> u16 {
        self.machine.store.read(real as usize / 2)
    }

    pub fn fullword(&self, real: u32) -> u32 {
        u32::from(self.halfword(real)) << 16 | u32::from(self.halfword(real + 2))
    }

    pub fn step(&mut self) -> Answer {
        self.machine.step(&mut self.trace).unwrap()
    }

    /// A step that must be done without an interrupt.
    pub fn done(&mut self) -> &mut Bench {
        assert_eq!(self.step(), Answer::Done);
        self
    }

    pub fn records(&self) -> Vec<Record> {
        self.trace.iter().copied().collect()
    }

    /// The only record there is.
    pub fn record(&self) -> Record {
        assert_eq!(self.trace.len(), 1);
        *self.trace.oldest().unwrap()
    }

    /// Checks an access interrupt: the saved PSW and the interrupt status.
    pub fn assert_access(&self, status: u32, location: u32, interrupt_status: u32) {
        let expected = Record {
            cause: Answer::Access,
            status,
            location,
            interrupt_status,
        };
        assert_eq!(self.record(), expected);
        assert_eq!(self.machine.sets[0][14], status);
        assert_eq!(self.machine.sets[0][15], location);
        assert_eq!(self.machine.status, 0xF4);
        assert_eq!(self.machine.location, 0xC20);
        assert_eq!(self.machine.interrupt_status, interrupt_status);
    }
}
