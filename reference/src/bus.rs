//! The bus and its devices, numbered 1 to 255.
//!
//! A device that does not answer shows zeros and is changed by nothing. The machine never reads,
//! writes or commands such a device.

use crate::queue::Queue;
use std::cell::RefCell;
use std::rc::Rc;

/// What a device remembers of the traffic with it.
#[derive(Clone, Copy, Debug, Default, PartialEq, Eq)]
pub struct Tally {
    pub latest_data: u8,
    pub latest_command: u8,
    pub reads: u32,
    pub writes: u32,
    pub commands: u32,
}

impl Tally {
    fn note_read(&mut self) {
        self.reads = self.reads.wrapping_add(1);
    }

    fn note_write(&mut self, byte: u8) {
        self.latest_data = byte;
        self.writes = self.writes.wrapping_add(1);
    }

    fn note_command(&mut self, byte: u8) {
        self.latest_command = byte;
        self.commands = self.commands.wrapping_add(1);
    }
}

/// A bus. Only `read`, `write` and `command` change anything, and only of the device named.
pub trait Bus {
    fn answers(&self, device: u8) -> bool;
    fn status(&self, device: u8) -> u8;
    /// The byte that a read would give.
    fn offer(&self, device: u8) -> u8;
    fn requests(&self, device: u8) -> bool;
    fn tally(&self, device: u8) -> Tally;

    fn read(&mut self, device: u8) -> u8;
    fn write(&mut self, device: u8, byte: u8);
    fn command(&mut self, device: u8, byte: u8);

    /// The lowest number whose device requests.
    fn requesting(&self) -> Option<u8> {
        (1..=255).find(|&device| self.requests(device))
    }
}

/// A bus without devices.
#[derive(Clone, Copy, Debug, Default, PartialEq, Eq)]
pub struct Silent;

impl Bus for Silent {
    fn answers(&self, _device: u8) -> bool {
        false
    }

    fn status(&self, _device: u8) -> u8 {
        0
    }

    fn offer(&self, _device: u8) -> u8 {
        0
    }

    fn requests(&self, _device: u8) -> bool {
        false
    }

    fn tally(&self, _device: u8) -> Tally {
        Tally::default()
    }

    fn read(&mut self, _device: u8) -> u8 {
        0
    }

    fn write(&mut self, _device: u8, _byte: u8) {}

    fn command(&mut self, _device: u8, _byte: u8) {}

    fn requesting(&self) -> Option<u8> {
        None
    }
}

/// A teletype as device 2, with bytes waiting to be read.
#[derive(Clone, Debug, PartialEq, Eq)]
pub struct Teletype {
    pub queue: Queue<u8>,
    pub tally: Tally,
}

impl Teletype {
    /// The only device of this bus.
    pub const DEVICE: u8 = 2;

    /// The status of a teletype with nothing to read.
    pub const EMPTY: u8 = 0x08;

    pub fn new(queue: Queue<u8>) -> Teletype {
        Teletype {
            queue,
            tally: Tally::default(),
        }
    }

    pub fn with_bytes(bytes: &[u8]) -> Teletype {
        Teletype::new(Queue::of_bytes(bytes))
    }
}

impl Bus for Teletype {
    fn answers(&self, device: u8) -> bool {
        device == Teletype::DEVICE
    }

    fn status(&self, device: u8) -> u8 {
        if self.answers(device) && self.queue.is_empty() {
            Teletype::EMPTY
        } else {
            0
        }
    }

    fn offer(&self, device: u8) -> u8 {
        if !self.answers(device) {
            return 0;
        }
        self.queue.oldest().copied().unwrap_or(0)
    }

    /// It requests if there is something to read and the latest command begins with bits 01.
    fn requests(&self, device: u8) -> bool {
        self.answers(device) && !self.queue.is_empty() && self.tally.latest_command >> 6 == 0b01
    }

    fn tally(&self, device: u8) -> Tally {
        if self.answers(device) {
            self.tally
        } else {
            Tally::default()
        }
    }

    fn read(&mut self, device: u8) -> u8 {
        if !self.answers(device) {
            return 0;
        }
        self.tally.note_read();
        self.queue.take().unwrap_or(0)
    }

    fn write(&mut self, device: u8, byte: u8) {
        if self.answers(device) {
            self.tally.note_write(byte);
        }
    }

    fn command(&mut self, device: u8, byte: u8) {
        if self.answers(device) {
            self.tally.note_command(byte);
        }
    }
}

/// One drive: a position of 16 bits, set by two bytes written one after the other.
#[derive(Clone, Copy, Debug, Default, PartialEq, Eq)]
pub struct Drive {
    pub position: u16,
    /// The high byte of a pair half sent.
    pub half_sent: Option<u8>,
    pub tally: Tally,
}

impl Drive {
    fn high_byte(&self) -> u8 {
        self.position.to_be_bytes()[0]
    }

    fn accept(&mut self, byte: u8) {
        self.tally.note_write(byte);
        match self.half_sent.take() {
            None => self.half_sent = Some(byte),
            Some(high) => self.position = u16::from_be_bytes([high, byte]),
        }
    }
}

/// Eight drives, devices 16 to 23.
#[derive(Clone, Debug, Default, PartialEq, Eq)]
pub struct Drives {
    pub drives: [Drive; 8],
}

impl Drives {
    pub const FIRST: u8 = 16;

    pub fn drive(&self, device: u8) -> Option<&Drive> {
        self.drives.get(Drives::index(device)?)
    }

    fn drive_mut(&mut self, device: u8) -> Option<&mut Drive> {
        self.drives.get_mut(Drives::index(device)?)
    }

    fn index(device: u8) -> Option<usize> {
        device.checked_sub(Drives::FIRST).map(usize::from)
    }
}

impl Bus for Drives {
    fn answers(&self, device: u8) -> bool {
        self.drive(device).is_some()
    }

    fn status(&self, _device: u8) -> u8 {
        0
    }

    fn offer(&self, device: u8) -> u8 {
        self.drive(device).map_or(0, Drive::high_byte)
    }

    fn requests(&self, _device: u8) -> bool {
        false
    }

    fn tally(&self, device: u8) -> Tally {
        self.drive(device)
            .map_or(Tally::default(), |drive| drive.tally)
    }

    fn read(&mut self, device: u8) -> u8 {
        self.drive_mut(device).map_or(0, |drive| {
            drive.tally.note_read();
            drive.high_byte()
        })
    }

    fn write(&mut self, device: u8, byte: u8) {
        if let Some(drive) = self.drive_mut(device) {
            drive.accept(byte);
        }
    }

    fn command(&mut self, device: u8, byte: u8) {
        if let Some(drive) = self.drive_mut(device) {
            drive.tally.note_command(byte);
        }
    }
}

/// Two buses joined: a device that answers on the first is the first's in everything, every other
/// device is the second's.
#[derive(Clone, Debug, Default, PartialEq, Eq)]
pub struct Joined<A, B> {
    pub first: A,
    pub second: B,
}

impl<A: Bus, B: Bus> Joined<A, B> {
    pub fn new(first: A, second: B) -> Joined<A, B> {
        Joined { first, second }
    }

    /// The bus that has a device.
    fn owner(&self, device: u8) -> &dyn Bus {
        if self.first.answers(device) {
            &self.first
        } else {
            &self.second
        }
    }

    fn owner_mut(&mut self, device: u8) -> &mut dyn Bus {
        if self.first.answers(device) {
            &mut self.first
        } else {
            &mut self.second
        }
    }
}

impl<A: Bus, B: Bus> Bus for Joined<A, B> {
    fn answers(&self, device: u8) -> bool {
        self.owner(device).answers(device)
    }

    fn status(&self, device: u8) -> u8 {
        self.owner(device).status(device)
    }

    fn offer(&self, device: u8) -> u8 {
        self.owner(device).offer(device)
    }

    fn requests(&self, device: u8) -> bool {
        self.owner(device).requests(device)
    }

    fn tally(&self, device: u8) -> Tally {
        self.owner(device).tally(device)
    }

    fn read(&mut self, device: u8) -> u8 {
        self.owner_mut(device).read(device)
    }

    fn write(&mut self, device: u8, byte: u8) {
        self.owner_mut(device).write(device, byte);
    }

    fn command(&mut self, device: u8, byte: u8) {
        self.owner_mut(device).command(device, byte);
    }
}

/// A bus that its maker keeps a hold of, to look at it after a machine has used it.
impl<B: Bus> Bus for Rc<RefCell<B>> {
    fn answers(&self, device: u8) -> bool {
        self.borrow().answers(device)
    }

    fn status(&self, device: u8) -> u8 {
        self.borrow().status(device)
    }

    fn offer(&self, device: u8) -> u8 {
        self.borrow().offer(device)
    }

    fn requests(&self, device: u8) -> bool {
        self.borrow().requests(device)
    }

    fn tally(&self, device: u8) -> Tally {
        self.borrow().tally(device)
    }

    fn read(&mut self, device: u8) -> u8 {
        self.borrow_mut().read(device)
    }

    fn write(&mut self, device: u8, byte: u8) {
        self.borrow_mut().write(device, byte);
    }

    fn command(&mut self, device: u8, byte: u8) {
        self.borrow_mut().command(device, byte);
    }

    fn requesting(&self) -> Option<u8> {
        self.borrow().requesting()
    }
}
