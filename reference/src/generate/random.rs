//! Random tapes: programs of random instructions, random commands, random bytes, and tapes with
//! damage. Each has a number, and is always the same for the same number.

pub mod devices;

use super::chance::Chance;
use super::writer::{first, ri1, ri2, rx1, rx2, rx3, Writer};
use super::LONGEST_TAPE;
use crate::codes::{Code, Form, TABLE};

/// A way to make a tape.
type Maker = fn(&mut Chance) -> Vec<u8>;

/// The random tape with this number.
pub fn tape(number: u64) -> Vec<u8> {
    let mut chance = Chance::new(number);
    let kinds: [(u32, Maker); 6] = [
        (38, |chance| program(chance, false)),
        (36, |chance| program(chance, true)),
        (8, single_steps),
        (6, commands),
        (4, bytes),
        (8, damaged),
    ];
    let kind = chance.weighted(&kinds);
    let mut tape = kind(&mut chance);
    tape.truncate(LONGEST_TAPE);
    tape
}

/// Where programs stand.
const PROGRAM: u32 = 0xA00;

/// A random program, its registers, its memory and its vectors; run once or several times.
fn program(chance: &mut Chance, relocated: bool) -> Vec<u8> {
    let mut writer = Writer::new();
    vectors(chance, &mut writer, relocated);
    registers(chance, &mut writer);
    memory(chance, &mut writer);
    if relocated || chance.percent(20) {
        segments(chance, &mut writer);
    }
    let length = instructions(chance, &mut writer);
    for _ in 0..chance.between(1, 3) {
        let offset = if chance.percent(80) {
            0
        } else {
            chance.below(length) & !1
        };
        writer.status(status(chance, relocated));
        writer.location(PROGRAM + offset);
        writer.go(steps(chance));
        if chance.percent(30) {
            change(chance, &mut writer);
        }
    }
    writer.finish()
}

/// One instruction after the other, each with registers of its own.
fn single_steps(chance: &mut Chance) -> Vec<u8> {
    let mut writer = Writer::new();
    let relocated = chance.percent(50);
    vectors(chance, &mut writer, relocated);
    memory(chance, &mut writer);
    segments(chance, &mut writer);
    for _ in 0..chance.between(1, 12) {
        registers(chance, &mut writer);
        let location = address(chance) & !1;
        let halfwords = instruction(chance);
        if location < 0xFFF0 {
            writer.halfwords(location, &halfwords);
        }
        writer.status(status(chance, relocated));
        writer.location(location);
        writer.go(1);
    }
    writer.finish()
}

fn steps(chance: &mut Chance) -> u32 {
    let most = chance.weighted(&[(3, 1), (3, 10), (6, 100), (2, 1000)]);
    chance.between(1, most)
}

/// A status for a run. It seldom waits.
fn status(chance: &mut Chance, relocated: bool) -> u32 {
    let mut status = chance.below(16);
    for (cases, bits) in [
        (40, 0xF0),
        (5, 0x30),
        (50, 0x1000),
        (20, 0x4000),
        (20, 0x0100),
        (2, 0x8000),
        (10, 0x2A00),
        (10, 0xFFFF_0000),
        (if relocated { 95 } else { 3 }, 0x0400),
    ] {
        if chance.percent(cases) {
            status |= bits;
        }
    }
    status
}

/// New PSWs that mostly lead back into the program.
fn vectors(chance: &mut Chance, writer: &mut Writer, relocated: bool) {
    for vector in [0x30, 0x48, 0x90] {
        let new = [new_status(chance, relocated), handler(chance)];
        writer.fullwords(vector, &new);
    }
    writer.fullwords(0x98, &[new_status(chance, relocated)]);
    for _ in 0..16 {
        writer.deposit(handler(chance) as u16);
    }
}

/// Relocation is often off in a new PSW, so that the controller can be reached.
fn new_status(chance: &mut Chance, relocated: bool) -> u32 {
    let relocated = relocated && chance.percent(60);
    status(chance, relocated)
}

fn handler(chance: &mut Chance) -> u32 {
    match chance.below(20) {
        0 => chance.bits(),
        1 => address(chance),
        _ => PROGRAM + chance.below(0x60),
    }
}

/// Numbers at which something may change.
const EDGES: [u32; 12] = [
    0,
    1,
    2,
    0x7FFF,
    0x8000,
    0xFFFF,
    0x7FFF_FFFF,
    0x8000_0000,
    0x8000_0001,
    0xFFFF_8000,
    0xFFFF_FFFE,
    0xFFFF_FFFF,
];

/// A value for a register or for memory.
fn value(chance: &mut Chance) -> u32 {
    match chance.below(10) {
        0 | 1 => chance.bits(),
        2 | 3 => chance.pick(&EDGES),
        4 => chance.below(40),
        5 => chance.below(40).wrapping_neg(),
        6 => 1 << chance.below(32),
        _ => address(chance),
    }
}

/// An address of 20 bits, mostly in memory that a program uses.
fn address(chance: &mut Chance) -> u32 {
    let in_segment = match chance.below(13) {
        0 => chance.below(0x100),
        1 => 0x2F8 + chance.below(0x110),
        12 => 0x338 + chance.below(0x10),
        2 => PROGRAM + chance.below(0x80),
        3 => 0xFFE0 + chance.below(0x20),
        4 => chance.below(0x1_0000),
        5 => (chance.below(0x100) << 8 | 0xF0) + chance.below(0x10),
        _ => 0x1000 + chance.below(0x80),
    };
    let segment = match chance.below(4) {
        0 | 1 => 0,
        2 => chance.between(1, 3),
        _ => chance.below(16),
    };
    segment << 16 | in_segment
}

fn registers(chance: &mut Chance, writer: &mut Writer) {
    for set in [0, 15] {
        for number in 0..16 {
            if chance.percent(70) {
                writer.register(set, number, value(chance));
            }
        }
    }
}

fn memory(chance: &mut Chance, writer: &mut Writer) {
    writer.address(0x1000);
    for _ in 0..chance.below(32) {
        let fullword = value(chance);
        writer.deposit((fullword >> 16) as u16);
        writer.deposit(fullword as u16);
    }
}

/// Segment 0 is mostly open for the program; the others have restrictions.
fn segments(chance: &mut Chance, writer: &mut Writer) {
    if chance.percent(95) {
        let digit = chance.weighted(&[(8, 1), (2, 3), (2, 5), (1, 7)]);
        writer.segment(0, 0x0FF0_0000 | digit << 4);
    }
    for number in 1..16 {
        if chance.percent(60) {
            writer.segment(number, segment(chance));
        }
    }
}

fn segment(chance: &mut Chance) -> u32 {
    let limit = match chance.below(4) {
        0 => chance.below(0x20),
        1 => chance.below(0x100),
        _ => 0xFF,
    };
    let relocation = match chance.below(4) {
        0 => chance.below(0x1000),
        1 => 0xF00 + chance.below(0x100),
        _ => chance.below(0x20),
    };
    let digit = match chance.below(3) {
        0 => chance.below(16),
        1 => 1,
        _ => chance.below(8) * 2 + 1,
    };
    limit << 20 | relocation << 8 | digit << 4
}

/// Writes the instructions of a program, and gives their length in bytes.
fn instructions(chance: &mut Chance, writer: &mut Writer) -> u32 {
    let mut halfwords = Vec::new();
    for _ in 0..chance.between(1, 40) {
        halfwords.extend(instruction(chance));
    }
    // Most programs go round.
    if chance.percent(80) {
        halfwords.extend(rx1(0x43, 0, 0, PROGRAM as u16));
    }
    writer.halfwords(PROGRAM, &halfwords);
    2 * halfwords.len() as u32
}

/// The codes that change memory or the PSW, or that fault; they are taken more often.
const TELLING: [u8; 20] = [
    0x18, 0x1D, 0x50, 0x51, 0x5C, 0x5D, 0x61, 0x75, 0x76, 0x77, 0x95, 0xC0, 0xC1, 0xC2, 0xD0, 0xD1,
    0xD2, 0xDD, 0xE0, 0xE1,
];

fn instruction(chance: &mut Chance) -> Vec<u16> {
    match chance.below(20) {
        0 if chance.percent(50) => vec![chance.halfword()],
        1..=4 => {
            let number = chance.pick(&TELLING);
            instruction_of(chance, number)
        }
        _ => {
            let code: Code = chance.pick(&TABLE);
            instruction_of(chance, code.number)
        }
    }
}

fn instruction_of(chance: &mut Chance, number: u8) -> Vec<u16> {
    let form = crate::codes::find(number).map(|code| code.form);
    let (r1, r2) = (chance.below(16) as u8, chance.below(16) as u8);
    let index = if chance.percent(50) { 0 } else { r2 };
    match form {
        None | Some(Form::Rr | Form::Sf) => vec![first(number, r1, r2)],
        Some(Form::Ri1) => ri1(number, r1, index, value(chance) as u16),
        Some(Form::Ri2) => ri2(number, r1, index, value(chance)),
        Some(Form::Rx) => addressed(chance, number, r1, index),
    }
}

fn addressed(chance: &mut Chance, number: u8, r1: u8, index: u8) -> Vec<u16> {
    match chance.below(4) {
        0 => {
            let distance = if chance.percent(70) {
                chance.below(0x80) as i32 - 0x40
            } else {
                chance.bits() as i32
            };
            rx2(number, r1, index, distance)
        }
        1 => {
            let second = if chance.percent(60) {
                0
            } else {
                chance.below(16) as u8
            };
            let above = if chance.percent(80) { 0 } else { 0xA0_0000 };
            let mut halfwords = rx3(number, r1, index, second, address(chance) | above);
            if chance.percent(10) {
                halfwords[1] |= 0x3000;
            }
            halfwords
        }
        _ => rx1(number, r1, index, address(chance) as u16),
    }
}

/// A change between two runs.
fn change(chance: &mut Chance, writer: &mut Writer) {
    match chance.below(4) {
        0 => writer.register(chance.pick(&[0, 15]), chance.below(16) as u8, value(chance)),
        1 => writer.segment(chance.below(16) as u8, segment(chance)),
        2 => {
            writer.address(PROGRAM + 2 * chance.below(20));
            writer.deposit(chance.halfword());
        }
        _ => {
            let halfwords = instruction(chance);
            writer.halfwords(PROGRAM, &halfwords);
        }
    }
}

/// Random commands with operands that are mostly right.
fn commands(chance: &mut Chance) -> Vec<u8> {
    let mut writer = Writer::new();
    for _ in 0..chance.between(1, 60) {
        match chance.below(40) {
            0..=7 => writer.address(address(chance) & 0xFFFE),
            8 => writer.address(chance.bits() & 0xFF_FFFF),
            9..=18 => writer.deposit(chance.halfword()),
            19..=23 => {
                writer.register(chance.pick(&[0, 15]), chance.below(16) as u8, value(chance))
            }
            24..=28 => writer.segment(chance.below(16) as u8, segment(chance)),
            29 => writer.segment(chance.byte(), value(chance)),
            30..=32 => writer.status(value(chance) & 0xFFFF_7FFF),
            33..=35 => writer.location(address(chance) & !1),
            36 => writer.location(address(chance)),
            37 => writer.command(b'R', &[chance.byte(), 1, 2, 3, 4]),
            38 => writer.go(steps(chance)),
            _ if chance.percent(20) => writer.command(chance.byte(), &[]),
            _ => writer.go(chance.below(3)),
        }
    }
    writer.finish()
}

/// Random bytes, mostly beginning with a letter of a command.
fn bytes(chance: &mut Chance) -> Vec<u8> {
    let mut tape = Vec::new();
    for _ in 0..chance.below(40) {
        if chance.percent(30) {
            tape.push(chance.pick(b"ADRSPLG"));
        } else {
            tape.push(chance.byte());
        }
    }
    if chance.percent(70) && !tape.is_empty() {
        tape[0] = chance.pick(b"ADRSPLG");
    }
    tape
}

/// A tape with damage.
fn damaged(chance: &mut Chance) -> Vec<u8> {
    let relocated = chance.percent(50);
    let mut tape = program(chance, relocated);
    damage(chance, &mut tape);
    tape
}

/// Cuts a tape, or alters, leaves out or puts in a byte.
fn damage(chance: &mut Chance, tape: &mut Vec<u8>) {
    let place = chance.below(tape.len() as u32) as usize;
    match chance.below(4) {
        0 => tape.truncate(place),
        1 => tape[place] ^= 1 << chance.below(8),
        2 => {
            tape.remove(place);
        }
        _ => tape.insert(place, chance.byte()),
    }
}
