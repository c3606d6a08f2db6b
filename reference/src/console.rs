//! The operator's console. A call that is denied changes nothing.

use crate::interrupt::{Answer, Trace};
use crate::machine::{Key, Machine, ADDRESS, FIRST_STATUS, SEGMENT};
use crate::store::{place_of, Kind};

/// The most steps that one run can be asked for.
pub const MOST_STEPS: u32 = 1_000_000;

/// Why a call is denied.
#[derive(Clone, Copy, Debug, PartialEq, Eq)]
pub enum Denial {
    /// The address is odd, too large or unfitted.
    Address = 1,
    /// A deposit in a fixed place.
    Fixed = 2,
    /// There is no such register, register set or segment.
    Number = 3,
    /// The value cannot be accepted.
    Value = 4,
    /// The letter on the tape is unknown.
    Letter = 5,
    /// The operand on the tape is cut short.
    CutShort = 6,
    /// The key is OFF.
    Off = 7,
    /// The key is at LOCK.
    Locked = 8,
    /// The trace is full.
    TraceFull = 9,
}

impl Denial {
    pub fn number(self) -> u8 {
        self as u8
    }
}

/// Why a run stopped.
#[derive(Clone, Copy, Debug, PartialEq, Eq)]
pub enum Reason {
    Waiting = 0,
    TraceFull = 1,
    CountReached = 2,
}

impl Reason {
    pub fn number(self) -> u8 {
        self as u8
    }
}

/// What a run answers.
#[derive(Clone, Copy, Debug, PartialEq, Eq)]
pub struct Run {
    /// The steps made, a waiting one included.
    pub steps: u32,
    pub reason: Reason,
}

impl Machine {
    pub fn key(&mut self, position: u32) -> Result<(), Denial> {
        self.key = match position {
            0 => Key::Off,
            1 => Key::On,
            2 => Key::Lock,
            _ => return Err(Denial::Value),
        };
        Ok(())
    }

    /// Brings back the state of a new machine, except for key, store and bus.
    pub fn initialise(&mut self) -> Result<(), Denial> {
        self.need_power()?;
        self.status = FIRST_STATUS;
        self.location = 0;
        self.sets = [[0; 16]; 2];
        self.segments = [0; 16];
        self.interrupt_status = 0;
        Ok(())
    }

    /// The halfword at a real address, always from the store.
    pub fn examine(&self, address: u32) -> Result<u16, Denial> {
        self.need_panel()?;
        let place = self.fitted_place(address)?;
        Ok(self.store.read(place))
    }

    /// Writes a halfword at a real address, always in the store.
    pub fn deposit(&mut self, address: u32, halfword: u16) -> Result<(), Denial> {
        self.need_panel()?;
        let place = self.fitted_place(address)?;
        if self.store.kind(place) == Kind::Fixed {
            return Err(Denial::Fixed);
        }
        self.store.write(place, halfword);
        Ok(())
    }

    pub fn set_register(&mut self, set: u32, number: u32, value: u32) -> Result<(), Denial> {
        self.need_panel()?;
        self.sets[set_index(set)?][small_number(number)?] = value;
        Ok(())
    }

    pub fn show_register(&self, set: u32, number: u32) -> Result<u32, Denial> {
        self.need_panel()?;
        Ok(self.sets[set_index(set)?][small_number(number)?])
    }

    pub fn set_segment(&mut self, number: u32, value: u32) -> Result<(), Denial> {
        self.need_panel()?;
        let number = small_number(number)?;
        if value & !SEGMENT != 0 {
            return Err(Denial::Value);
        }
        self.segments[number] = value;
        Ok(())
    }

    pub fn show_segment(&self, number: u32) -> Result<u32, Denial> {
        self.need_panel()?;
        Ok(self.segments[small_number(number)?])
    }

    pub fn set_status(&mut self, value: u32) -> Result<(), Denial> {
        self.need_panel()?;
        self.status = value;
        Ok(())
    }

    pub fn show_status(&self) -> Result<u32, Denial> {
        self.need_panel()?;
        Ok(self.status)
    }

    pub fn set_location(&mut self, value: u32) -> Result<(), Denial> {
        self.need_panel()?;
        if value & 1 != 0 || value > ADDRESS {
            return Err(Denial::Value);
        }
        self.location = value;
        Ok(())
    }

    pub fn show_location(&self) -> Result<u32, Denial> {
        self.need_panel()?;
        Ok(self.location)
    }

    pub fn step(&mut self, trace: &mut Trace) -> Result<Answer, Denial> {
        self.need_power()?;
        need_room(trace)?;
        Ok(self.advance(trace))
    }

    pub fn run(&mut self, count: u32, trace: &mut Trace) -> Result<Run, Denial> {
        self.need_power()?;
        if count == 0 || count > MOST_STEPS {
            return Err(Denial::Value);
        }
        need_room(trace)?;
        let mut steps = 0;
        loop {
            let answer = self.advance(trace);
            steps += 1;
            let reason = if answer == Answer::Waiting {
                Reason::Waiting
            } else if trace.is_full() {
                Reason::TraceFull
            } else if steps == count {
                Reason::CountReached
            } else {
                continue;
            };
            return Ok(Run { steps, reason });
        }
    }

    /// What the play program prints: the Location Counter and the status, and a newline.
    pub fn printed_text(&self) -> String {
        format!("{:05X} {:08X}\n", self.location, self.status)
    }

    /// Denied at key OFF.
    pub(crate) fn need_power(&self) -> Result<(), Denial> {
        match self.key {
            Key::Off => Err(Denial::Off),
            Key::On | Key::Lock => Ok(()),
        }
    }

    /// Denied at key OFF and at LOCK.
    fn need_panel(&self) -> Result<(), Denial> {
        match self.key {
            Key::Off => Err(Denial::Off),
            Key::Lock => Err(Denial::Locked),
            Key::On => Ok(()),
        }
    }

    fn fitted_place(&self, address: u32) -> Result<usize, Denial> {
        let place = place_of(address);
        if address & 1 != 0 || address > ADDRESS || self.store.kind(place) == Kind::Unfitted {
            return Err(Denial::Address);
        }
        Ok(place)
    }
}

fn need_room(trace: &Trace) -> Result<(), Denial> {
    if trace.is_full() {
        return Err(Denial::TraceFull);
    }
    Ok(())
}

/// The index of a register set: there are only the sets 0 and 15.
fn set_index(set: u32) -> Result<usize, Denial> {
    match set {
        0 => Ok(0),
        15 => Ok(1),
        _ => Err(Denial::Number),
    }
}

/// The number of a register or a segment, 0 to 15.
fn small_number(number: u32) -> Result<usize, Denial> {
    match number {
        0..=15 => Ok(number as usize),
        _ => Err(Denial::Number),
    }
}
