//! Tapes: bytes that give the console's calls, each as a letter and its operand.

use crate::console::Denial;
use crate::interrupt::Trace;
use crate::machine::{Key, Machine};

/// Where and why a play ended before the end of its tape.
#[derive(Clone, Copy, Debug, PartialEq, Eq)]
pub struct TapeFault {
    pub denial: Denial,
    /// The place of the letter in the tape, counted from 0.
    pub place: usize,
    /// The byte found there. There is none if the key was OFF.
    pub letter: Option<u8>,
}

/// The commands of a tape.
#[derive(Clone, Copy)]
enum Command {
    Address,
    Deposit,
    Register,
    Segment,
    Status,
    Location,
    Go,
}

impl Command {
    fn of(letter: u8) -> Option<Command> {
        Some(match letter {
            b'A' => Command::Address,
            b'D' => Command::Deposit,
            b'R' => Command::Register,
            b'S' => Command::Segment,
            b'P' => Command::Status,
            b'L' => Command::Location,
            b'G' => Command::Go,
            _ => return None,
        })
    }

    fn operand_length(self) -> usize {
        match self {
            Command::Deposit => 2,
            Command::Address | Command::Location | Command::Go => 3,
            Command::Status => 4,
            Command::Register | Command::Segment => 5,
        }
    }
}

impl Machine {
    /// Plays a tape, and answers how many commands were obeyed.
    pub fn play(&mut self, tape: &[u8], trace: &mut Trace) -> Result<usize, TapeFault> {
        self.need_power().map_err(|denial| TapeFault {
            denial,
            place: 0,
            letter: None,
        })?;
        let position = std::mem::replace(&mut self.key, Key::On);
        let answer = self.obey_all(tape, trace);
        self.key = position;
        answer
    }

    fn obey_all(&mut self, tape: &[u8], trace: &mut Trace) -> Result<usize, TapeFault> {
        let mut address = 0;
        let mut place = 0;
        let mut obeyed = 0;
        while let Some(&letter) = tape.get(place) {
            let length = self
                .obey(&tape[place..], &mut address, trace)
                .map_err(|denial| TapeFault {
                    denial,
                    place,
                    letter: Some(letter),
                })?;
            place += length;
            obeyed += 1;
        }
        Ok(obeyed)
    }

    /// Obeys the command at the head of the tape, and gives its length in bytes.
    fn obey(&mut self, tape: &[u8], address: &mut u32, trace: &mut Trace) -> Result<usize, Denial> {
        let command = Command::of(tape[0]).ok_or(Denial::Letter)?;
        let length = 1 + command.operand_length();
        let operand = tape.get(1..length).ok_or(Denial::CutShort)?;
        match command {
            Command::Address => *address = number(operand),
            Command::Deposit => {
                self.deposit(*address, number(operand) as u16)?;
                *address += 2;
            }
            Command::Register => {
                let (set, register) = (operand[0] >> 4, operand[0] & 0xF);
                self.set_register(set.into(), register.into(), number(&operand[1..]))?;
            }
            Command::Segment => self.set_segment(operand[0].into(), number(&operand[1..]))?,
            Command::Status => self.set_status(number(operand))?,
            Command::Location => self.set_location(number(operand))?,
            Command::Go => {
                self.run(number(operand), trace)?;
            }
        }
        Ok(length)
    }
}

/// The number that up to four bytes make, the high byte first.
fn number(bytes: &[u8]) -> u32 {
    bytes
        .iter()
        .fold(0, |number, &byte| number << 8 | u32::from(byte))
}
