//! Random programs over a teletype and drives.

use super::*;
use crate::generate::Trial;

/// The random tape over devices with this number.
pub fn trial(number: u64) -> Trial {
    /// Their numbers are apart from those of the tapes over a silent bus.
    const FIRST: u64 = 1 << 32;
    let mut chance = Chance::new(FIRST + number);
    let keys = keys(&mut chance);
    let relocated = chance.percent(40);
    let mut tape = program(&mut chance, relocated);
    if chance.percent(5) {
        damage(&mut chance, &mut tape);
    }
    tape.truncate(LONGEST_TAPE);
    Trial {
        keys: Some(keys),
        tape,
    }
}

/// Bytes that wait; sometimes there is none.
fn keys(chance: &mut Chance) -> Vec<u8> {
    let most = chance.pick(&[0, 1, 5, 40]);
    (0..chance.between(0, most))
        .map(|_| chance.byte())
        .collect()
}

fn program(chance: &mut Chance, relocated: bool) -> Vec<u8> {
    let mut writer = Writer::new();
    vectors(chance, &mut writer, relocated);
    device_vectors(chance, &mut writer);
    registers(chance, &mut writer);
    memory(chance, &mut writer);
    if relocated || chance.percent(20) {
        segments(chance, &mut writer);
    }
    writer.halfwords(PROGRAM, &instructions(chance));
    for _ in 0..chance.between(1, 3) {
        writer.status(device_status(chance, relocated));
        writer.location(PROGRAM);
        writer.go(steps(chance));
        if chance.percent(30) {
            change(chance, &mut writer);
        }
    }
    writer.finish()
}

/// A status that mostly takes requests, and mostly allows input and output.
fn device_status(chance: &mut Chance, relocated: bool) -> u32 {
    let mut status = status(chance, relocated);
    if chance.percent(60) {
        status |= 0x4000;
    }
    if chance.percent(80) {
        status &= !0x0100;
    }
    if chance.percent(10) {
        status |= 0x8000;
    }
    status
}

/// Handlers at X'D0' + 2n, for devices that answer and for some that do not.
fn device_vectors(chance: &mut Chance, writer: &mut Writer) {
    writer.address(0xD0);
    for _ in 0..0x20 {
        let handler = if chance.percent(50) {
            HANDLER
        } else {
            handler(chance)
        };
        writer.deposit(handler as u16);
    }
    let read = first(0x9B, 2, 5);
    let command = first(0x9E, 2, chance.below(16) as u8);
    let back = first(0x18, 0, 0);
    let body = chance.pick(&[
        [read, back, back],
        [command, back, back],
        [read, command, back],
    ]);
    writer.halfwords(HANDLER, &body);
}

/// Where a handler stands.
const HANDLER: u32 = 0xD00;

fn instructions(chance: &mut Chance) -> Vec<u16> {
    let mut halfwords = Vec::new();
    if chance.percent(50) {
        halfwords.extend(request(chance));
    }
    for _ in 0..chance.between(1, 30) {
        if chance.percent(60) {
            halfwords.extend(operation(chance));
        } else {
            halfwords.extend(instruction(chance));
        }
    }
    if chance.percent(80) {
        halfwords.extend(rx1(0x43, 0, 0, PROGRAM as u16));
    }
    halfwords
}

/// A command to the teletype, often one after which it requests.
fn request(chance: &mut Chance) -> Vec<u16> {
    [
        ri1(0xC8, 1, 0, 2),
        ri1(0xC8, 3, 0, byte(chance)),
        vec![first(0x9E, 1, 3)],
    ]
    .concat()
}

/// A device number, mostly of one that answers.
fn device(chance: &mut Chance) -> u16 {
    match chance.below(20) {
        0 => chance.halfword(),
        1 => chance.pick(&[0, 1, 3, 15, 24, 255, 256]),
        2 | 3 => chance.below(0x20) as u16 | chance.pick(&[0, 0x400, 0xFC00]),
        4..=9 => 2,
        _ => chance.between(16, 23) as u16,
    }
}

/// Input or output, mostly behind a load of the device number and a load of the byte.
fn operation(chance: &mut Chance) -> Vec<u16> {
    const CODES: [u8; 8] = [0x9A, 0x9B, 0x9D, 0x9E, 0xDA, 0xDB, 0xDD, 0xDE];
    let number = chance.pick(&CODES);
    let r1 = chance.below(16) as u8;
    let r2 = chance.below(16) as u8;
    let mut halfwords = Vec::new();
    if chance.percent(40) {
        halfwords.extend(ri1(0xC8, r2, 0, byte(chance)));
    }
    if chance.percent(85) {
        halfwords.extend(ri1(0xC8, r1, 0, device(chance)));
    }
    if number < 0xA0 {
        halfwords.push(first(number, r1, r2));
    } else {
        halfwords.extend(addressed(chance, number, r1, 0));
    }
    halfwords
}

/// A byte, often a command after which the teletype requests.
fn byte(chance: &mut Chance) -> u16 {
    if chance.percent(50) {
        0x40 + chance.below(0x40) as u16
    } else {
        chance.halfword()
    }
}
