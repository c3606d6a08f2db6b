//! Tapes for a comparison of emulators, and the outcome that this emulator expects of each.
//!
//! Every tape is for a new machine: core boards of 32,768 zero halfwords, key ON, and a trace of 64
//! places. Most are for the silent bus; the others are for a teletype, with bytes that wait, joined
//! with the drives. The tapes are the same in every run.
//!
//! # The line of an outcome
//!
//! One line for each tape, all in upper-case hexadecimal digits but for the first letter. The
//! fields are separated by single spaces, and no field is ever left out:
//!
//! | Field | Content |
//! |---|---|
//! | 1 | without a fault, `C` and the number of commands obeyed, 5 digits; else `F`, the number of the denial, 1 digit, the place of the letter, 5 digits, and the letter, 2 digits |
//! | 2 | Location Counter, 5 digits |
//! | 3 | status, 8 digits |
//! | 4 | register set 0: registers 0 to 15, 8 digits each, 128 digits together |
//! | 5 | register set 15, likewise |
//! | 6 | segmentation registers 0 to 15, likewise |
//! | 7 | interrupt status, 2 digits |
//! | 8 | the trace: the number of records, 2 digits; then for each record, the oldest first, the cause, 1 digit, the status, 8, the Location Counter, 5, and the interrupt status, 2: 16 digits |
//! | 9 | digest of the store, 16 digits |
//! | 10 | over devices only: the use of the teletype, 28 digits, and the number of bytes that wait, 4 |
//! | 11 | over devices only: for each drive its use, 28 digits, and its position, 4; 256 digits together |
//!
//! The use of a device is its latest data, 2 digits, its latest command, 2, its reads, writes and
//! commands, 8 each.
//!
//! The digest of the store is the 64-bit FNV-1a digest of its 65,536 bytes: the halfwords in order
//! of place, the high byte first. It starts as X'CBF29CE484222325'; each byte is put in by
//! exclusive or, then the whole is multiplied by X'100000001B3' modulo 2^64.
//!
//! The digest of many lines is the same digest of their characters, each line with a newline.
//!
//! The line of the empty tape, shortened where there are dots:
//!
//! ```text
//! C00000 00000 00008000 00..00 00..00 00..00 00 00 EB05052EA5B62325
//! ```

pub mod chance;
pub mod directed;
pub mod random;
pub mod writer;

use crate::bus::{Bus, Drives, Joined, Silent, Tally, Teletype};
use crate::interrupt::Record;
use crate::machine::Machine;
use crate::queue::Queue;
use crate::store::Store;
use crate::tape::TapeFault;
use std::cell::RefCell;
use std::fmt;
use std::rc::Rc;

/// The places of the machine's store.
pub const PLACES: usize = 32_768;

/// The places of the trace.
pub const TRACE_PLACES: usize = 64;

/// The longest tape, in bytes.
pub const LONGEST_TAPE: usize = 65_536;

/// Everything that can be seen of the machine after a tape.
#[derive(Clone, Debug, PartialEq, Eq)]
pub struct Outcome {
    /// The number of commands obeyed, or the fault.
    pub ending: Result<usize, TapeFault>,
    pub location: u32,
    pub status: u32,
    /// Register set 0, then register set 15.
    pub sets: [[u32; 16]; 2],
    pub segments: [u32; 16],
    pub interrupt_status: u32,
    pub trace: Vec<Record>,
    pub store_digest: u64,
}

/// Everything that can be seen of the devices after a tape.
#[derive(Clone, Debug, PartialEq, Eq)]
pub struct DevicesSeen {
    pub teletype: Tally,
    pub waiting: usize,
    /// The use of each drive, and its position.
    pub drives: [(Tally, u16); 8],
}

/// A tape with the bus of the machine that is to play it.
#[derive(Clone, Debug, PartialEq, Eq)]
pub struct Trial {
    /// The bytes that wait for the teletype; None is for the silent bus.
    pub keys: Option<Vec<u8>>,
    pub tape: Vec<u8>,
}

/// Plays a tape on a new machine with the silent bus.
pub fn expected(tape: &[u8]) -> Outcome {
    play(tape, Silent)
}

/// Plays a tape on a new machine with a teletype, for which the bytes wait, and the drives.
pub fn expected_over_devices(keys: &[u8], tape: &[u8]) -> (Outcome, DevicesSeen) {
    let bus = Joined::new(Teletype::with_bytes(keys), Drives::default());
    let bus = Rc::new(RefCell::new(bus));
    let outcome = play(tape, Rc::clone(&bus));
    let bus = bus.borrow();
    (outcome, DevicesSeen::of(&bus.first, &bus.second))
}

/// Plays a tape on a new machine with a bus.
fn play(tape: &[u8], bus: impl Bus + 'static) -> Outcome {
    let mut machine = Machine::make(Store::zeros(PLACES), bus);
    let mut trace = Queue::new(TRACE_PLACES);
    let ending = machine.play(tape, &mut trace);
    let Store::CoreBoards(halfwords) = &machine.store else {
        unreachable!("the machine was made with core boards");
    };
    Outcome {
        ending,
        location: machine.location,
        status: machine.status,
        sets: machine.sets,
        segments: machine.segments,
        interrupt_status: machine.interrupt_status,
        trace: trace.iter().copied().collect(),
        store_digest: store_digest(halfwords),
    }
}

/// All directed tapes, then `count` random ones, for the silent bus.
pub fn tapes(count: u64) -> impl Iterator<Item = Vec<u8>> {
    let random = (0..count).map(random::tape);
    directed::tapes().into_iter().chain(random)
}

/// All directed tapes for devices, then `count` random ones.
pub fn device_trials(count: u64) -> impl Iterator<Item = Trial> {
    let random = (0..count).map(random::devices::trial);
    directed::trials().into_iter().chain(random)
}

/// The tapes for the silent bus, `count` of them random, then those for devices, a quarter as many
/// of them random.
pub fn trials(count: u64) -> impl Iterator<Item = Trial> {
    tapes(count)
        .map(|tape| Trial { keys: None, tape })
        .chain(device_trials(count / 4))
}

impl Trial {
    /// The line that is expected.
    pub fn line(&self) -> String {
        match &self.keys {
            None => expected(&self.tape).line(),
            Some(keys) => {
                let (outcome, devices) = expected_over_devices(keys, &self.tape);
                format!("{outcome} {devices}")
            }
        }
    }

    /// As the other emulator takes it: for the silent bus an `S` and the tape, for devices a `D`,
    /// the bytes that wait, and the tape. The bytes and the tape stand behind their length, 4
    /// bytes, the more significant first.
    pub fn bytes(&self) -> Vec<u8> {
        match &self.keys {
            None => [b"S".to_vec(), behind_length(&self.tape)].concat(),
            Some(keys) => {
                let (keys, tape) = (behind_length(keys), behind_length(&self.tape));
                [b"D".to_vec(), keys, tape].concat()
            }
        }
    }
}

/// Bytes behind their length.
fn behind_length(bytes: &[u8]) -> Vec<u8> {
    let length = bytes.len() as u32;
    [&length.to_be_bytes(), bytes].concat()
}

impl DevicesSeen {
    fn of(teletype: &Teletype, drives: &Drives) -> DevicesSeen {
        DevicesSeen {
            teletype: teletype.tally,
            waiting: teletype.queue.len(),
            drives: drives.drives.map(|drive| (drive.tally, drive.position)),
        }
    }
}

impl fmt::Display for DevicesSeen {
    fn fmt(&self, text: &mut fmt::Formatter) -> fmt::Result {
        write_tally(text, &self.teletype)?;
        write!(text, "{:04X} ", self.waiting)?;
        self.drives.iter().try_for_each(|(tally, position)| {
            write_tally(text, tally)?;
            write!(text, "{position:04X}")
        })
    }
}

fn write_tally(text: &mut fmt::Formatter, tally: &Tally) -> fmt::Result {
    write!(
        text,
        "{:02X}{:02X}",
        tally.latest_data, tally.latest_command
    )?;
    [tally.reads, tally.writes, tally.commands]
        .iter()
        .try_for_each(|count| write!(text, "{count:08X}"))
}

impl Outcome {
    pub fn line(&self) -> String {
        self.to_string()
    }
}

impl fmt::Display for Outcome {
    fn fmt(&self, text: &mut fmt::Formatter) -> fmt::Result {
        write_ending(text, &self.ending)?;
        write!(text, " {:05X} {:08X}", self.location, self.status)?;
        for registers in [&self.sets[0], &self.sets[1], &self.segments] {
            write_registers(text, registers)?;
        }
        write!(text, " {:02X} ", self.interrupt_status)?;
        write_trace(text, &self.trace)?;
        write!(text, " {:016X}", self.store_digest)
    }
}

fn write_ending(text: &mut fmt::Formatter, ending: &Result<usize, TapeFault>) -> fmt::Result {
    match ending {
        Ok(obeyed) => write!(text, "C{obeyed:05X}"),
        Err(fault) => {
            let denial = fault.denial.number();
            // A machine at key ON always finds a letter.
            let letter = fault.letter.unwrap_or_default();
            write!(text, "F{denial:X}{:05X}{letter:02X}", fault.place)
        }
    }
}

fn write_registers(text: &mut fmt::Formatter, registers: &[u32; 16]) -> fmt::Result {
    text.write_str(" ")?;
    registers
        .iter()
        .try_for_each(|register| write!(text, "{register:08X}"))
}

fn write_trace(text: &mut fmt::Formatter, trace: &[Record]) -> fmt::Result {
    write!(text, "{:02X}", trace.len())?;
    for record in trace {
        let cause = record.cause.number();
        write!(text, "{cause:X}{:08X}", record.status)?;
        write!(
            text,
            "{:05X}{:02X}",
            record.location, record.interrupt_status
        )?;
    }
    Ok(())
}

/// A 64-bit FNV-1a digest.
#[derive(Clone, Copy, Debug, PartialEq, Eq)]
pub struct Digest(pub u64);

impl Digest {
    const START: u64 = 0xCBF2_9CE4_8422_2325;
    const PRIME: u64 = 0x100_0000_01B3;

    pub fn new() -> Digest {
        Digest(Digest::START)
    }

    pub fn take(&mut self, bytes: &[u8]) {
        for &byte in bytes {
            self.0 = (self.0 ^ u64::from(byte)).wrapping_mul(Digest::PRIME);
        }
    }

    /// Takes a line with its newline.
    pub fn take_line(&mut self, line: &str) {
        self.take(line.as_bytes());
        self.take(b"\n");
    }

    /// Takes zero bytes: each of them only multiplies. `power` is the prime to their number.
    fn take_zeros(&mut self, power: u64) {
        self.0 = self.0.wrapping_mul(power);
    }
}

impl Default for Digest {
    fn default() -> Digest {
        Digest::new()
    }
}

/// The digest of the halfwords of a store. Most of a store is zero, so blocks of zeros are taken
/// at once.
pub fn store_digest(halfwords: &[u16]) -> u64 {
    const BLOCK: usize = 64;
    let power = (0..2 * BLOCK).fold(1u64, |power, _| power.wrapping_mul(Digest::PRIME));
    let mut digest = Digest::new();
    for block in halfwords.chunks(BLOCK) {
        if block == [0; BLOCK] {
            digest.take_zeros(power);
        } else {
            take_halfwords(&mut digest, block);
        }
    }
    digest.0
}

fn take_halfwords(digest: &mut Digest, halfwords: &[u16]) {
    for halfword in halfwords {
        digest.take(&halfword.to_be_bytes());
    }
}

#[cfg(test)]
mod tests {
    use super::*;
    use std::collections::BTreeSet;

    #[test]
    fn the_digest_is_fnv_1a() {
        let mut digest = Digest::new();
        assert_eq!(digest.0, 0xCBF2_9CE4_8422_2325);
        digest.take(b"a");
        assert_eq!(digest.0, 0xAF63_DC4C_8601_EC8C);
        let mut digest = Digest::new();
        digest.take(b"foobar");
        assert_eq!(digest.0, 0x8594_4171_F739_67E8);
    }

    #[test]
    fn blocks_of_zeros_change_nothing_in_the_digest() {
        let words: Vec<u16> = (0..1000)
            .map(|n| if n % 300 == 7 { n } else { 0 })
            .collect();
        let mut digest = Digest::new();
        take_halfwords(&mut digest, &words);
        assert_eq!(store_digest(&words), digest.0);
    }

    #[test]
    fn the_line_of_the_sample_tape() {
        let tape = [
            0x41, 0x00, 0x0A, 0x00, 0x44, 0x26, 0x11, 0x4C, 0x00, 0x0A, 0x00, 0x50, 0, 0, 0, 0,
            0x47, 0, 0, 1,
        ];
        let outcome = expected(&tape);
        let line = outcome.line();
        let fields: Vec<&str> = line.split(' ').collect();
        assert_eq!(fields[..3], ["C00005", "00A02", "00000002"]);
        assert!(fields[3].starts_with("0000000000000001000"));
        assert_eq!(
            fields[3..6].iter().map(|field| field.len()).sum::<usize>(),
            384
        );
        assert_eq!(fields[6..8], ["00", "00"]);
        assert_eq!(fields.len(), 9);
    }

    #[test]
    fn the_line_of_a_fault_with_a_record() {
        let outcome = expected(b"P\0\0\0\x05G\0\0\x01X");
        let line = outcome.line();
        let fields: Vec<&str> = line.split(' ').collect();
        assert_eq!(fields[0], "F50000958");
        assert_eq!(fields[7], "012000000050000000");
    }

    #[test]
    fn the_line_of_the_empty_tape() {
        let line = expected(b"").line();
        assert!(line.starts_with("C00000 00000 00008000 0"));
        assert!(line.ends_with(" 00 00 EB05052EA5B62325"), "{line}");
    }

    #[test]
    fn tapes_are_the_same_every_time_and_not_too_long() {
        let first: Vec<Vec<u8>> = tapes(200).collect();
        assert!(first.iter().all(|tape| tape.len() <= LONGEST_TAPE));
        assert!(first.iter().eq(tapes(200).collect::<Vec<_>>().iter()));
    }

    /// Everything that a tape can bring about does come about.
    #[test]
    fn tapes_reach_every_denial_cause_and_check() {
        let mut denials = BTreeSet::new();
        let mut causes = BTreeSet::new();
        let mut interrupt_statuses = BTreeSet::new();
        let mut fullest = 0;
        for tape in tapes(500) {
            let outcome = expected(&tape);
            denials.extend(outcome.ending.err().map(|fault| fault.denial.number()));
            causes.extend(outcome.trace.iter().map(|record| record.cause.number()));
            interrupt_statuses.insert(outcome.interrupt_status);
            fullest = fullest.max(outcome.trace.len());
        }
        assert!(denials.iter().eq(&[1, 3, 4, 5, 6, 9]));
        assert!(causes.iter().eq(&[2, 3, 4, 5]));
        for bit in [0x01, 0x02, 0x04, 0x08, 0x10, 0x12, 0x1F] {
            assert!(interrupt_statuses.contains(&bit), "{bit:02X}");
        }
        assert_eq!(fullest, TRACE_PLACES);
    }

    #[test]
    fn the_lines_of_devices_that_were_not_used() {
        let keys = Some(b"abc".to_vec());
        let trial = Trial { keys, tape: vec![] };
        let silent = expected(b"").line();
        let unused = "0".repeat(28);
        let drives = "0".repeat(8 * 32);
        assert_eq!(trial.line(), format!("{silent} {unused}0003 {drives}"));
        assert_eq!(trial.bytes(), b"D\0\0\0\x03abc\0\0\0\0");
    }

    #[test]
    fn trials_of_the_silent_bus_are_its_tapes() {
        let trial = Trial {
            keys: None,
            tape: b"G\0\0\x01".to_vec(),
        };
        assert_eq!(trial.line(), expected(&trial.tape).line());
        assert_eq!(trial.bytes(), b"S\0\0\0\x04G\0\0\x01");
    }

    #[test]
    fn device_trials_are_the_same_every_time_and_many() {
        let first: Vec<Trial> = device_trials(1000).collect();
        assert!(first.len() >= 3000, "{}", first.len());
        assert!(first.iter().all(|trial| trial.tape.len() <= LONGEST_TAPE));
        assert!(first
            .iter()
            .eq(device_trials(1000).collect::<Vec<_>>().iter()));
    }

    /// What is to be seen of devices after all trials together.
    #[derive(Default)]
    struct Reached {
        causes: BTreeSet<u8>,
        requests: usize,
        most_keys_taken: usize,
        positions: BTreeSet<usize>,
        uses: BTreeSet<(usize, &'static str)>,
        latest_commands: BTreeSet<u8>,
    }

    impl Reached {
        fn by(trials: impl Iterator<Item = Trial>) -> Reached {
            let mut reached = Reached::default();
            for trial in trials {
                let keys = trial.keys.unwrap_or_default();
                let (outcome, devices) = expected_over_devices(&keys, &trial.tape);
                reached.take_trace(&outcome.trace);
                reached.take_devices(keys.len(), &devices);
            }
            reached
        }

        fn take_trace(&mut self, trace: &[Record]) {
            let causes = trace.iter().map(|record| record.cause.number());
            self.requests += causes.clone().filter(|&cause| cause == 6).count();
            self.causes.extend(causes);
        }

        fn take_devices(&mut self, keys: usize, devices: &DevicesSeen) {
            self.most_keys_taken = self.most_keys_taken.max(keys - devices.waiting);
            self.latest_commands
                .insert(devices.teletype.latest_command >> 6);
            self.take_uses(2, &devices.teletype);
            for (number, (tally, position)) in (16..).zip(&devices.drives) {
                self.take_uses(number, tally);
                if *position != 0 {
                    self.positions.insert(number);
                }
            }
        }

        fn take_uses(&mut self, device: usize, tally: &Tally) {
            for (name, count) in [
                ("reads", tally.reads),
                ("writes", tally.writes),
                ("commands", tally.commands),
            ] {
                if count != 0 {
                    self.uses.insert((device, name));
                }
            }
        }

        fn check(&self) {
            assert!(self.causes.contains(&6));
            assert!(self.requests > 100, "{}", self.requests);
            assert!(self.most_keys_taken >= 3, "{}", self.most_keys_taken);
            assert!(self.positions.iter().copied().eq(16..24));
            assert_eq!(self.uses.len(), 9 * 3);
            assert!(self.latest_commands.iter().copied().eq(0..4));
        }
    }

    /// Both kinds of trials, each alone, use every device in every way.
    #[test]
    fn device_trials_reach_every_device_in_every_way() {
        Reached::by(directed::trials().into_iter()).check();
        Reached::by((0..1000).map(random::devices::trial)).check();
    }
}
