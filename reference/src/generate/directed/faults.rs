//! Tapes with faults: every denial that a tape can bring about, and tapes just good enough.

use super::*;
use crate::generate::LONGEST_TAPE;

pub(super) fn add(tapes: &mut Tapes) {
    tapes.push(Vec::new());
    letters(tapes);
    cuts(tapes);
    addresses(tapes);
    registers(tapes);
    segments(tapes);
    locations(tapes);
    counts(tapes);
    longest(tapes);
}

/// The letters, each with the length of its operand.
const LETTERS: [(u8, usize); 7] = [
    (b'A', 3),
    (b'D', 2),
    (b'R', 5),
    (b'S', 5),
    (b'P', 4),
    (b'L', 3),
    (b'G', 3),
];

/// A tape of one status and then some bytes.
fn after_status(bytes: &[u8]) -> Vec<u8> {
    let mut tape = b"P\x12\x34\x80\x05".to_vec();
    tape.extend_from_slice(bytes);
    tape
}

/// Every byte as a letter, with enough zeros behind it.
fn letters(tapes: &mut Tapes) {
    for letter in 0..=255 {
        tapes.push(after_status(&[letter, 0, 0, 0, 0, 0]));
        tapes.push(after_status(&[letter]));
    }
}

/// Every command cut at every length, with operands that would be right and wrong.
fn cuts(tapes: &mut Tapes) {
    for (letter, length) in LETTERS {
        for present in 0..=length {
            for byte in [0x00, 0x02, 0x33, 0xFF] {
                let mut bytes = vec![letter];
                bytes.resize(1 + present, byte);
                tapes.push(after_status(&bytes));
            }
        }
    }
}

fn addresses(tapes: &mut Tapes) {
    for address in [
        0, 1, 0x2FE, 0x300, 0x342, 0xFFFE, 0xFFFF, 0x1_0000, 0xF_FFFE, 0xF_FFFF, 0x10_0000,
        0x10_0002, 0xFF_FFFE, 0xFF_FFFF,
    ] {
        for deposits in 0..4 {
            let mut writer = Writer::new();
            writer.address(address);
            for number in 0..deposits {
                writer.deposit(0xA5A0 + number);
            }
            tapes.push(writer.finish());
        }
    }
}

fn registers(tapes: &mut Tapes) {
    for set_and_number in 0..=255 {
        let mut writer = Writer::new();
        writer.register(0, 3, 0x0102_0304);
        writer.command(b'R', &[set_and_number, 0x89, 0xAB, 0xCD, 0xEF]);
        tapes.push(writer.finish());
    }
}

fn segments(tapes: &mut Tapes) {
    for number in 0..=255 {
        for value in [0x0FFF_FFF0, 0xFFFF_FFFF] {
            let mut writer = Writer::new();
            writer.segment(number, value);
            tapes.push(writer.finish());
        }
    }
    for bit in 0..32 {
        let mut writer = Writer::new();
        writer.segment(7, 1 << bit);
        tapes.push(writer.finish());
    }
}

fn locations(tapes: &mut Tapes) {
    for location in [
        0, 1, 2, 0xF_FFFE, 0xF_FFFF, 0x10_0000, 0x80_0000, 0xFF_FFFE, 0xFF_FFFF,
    ] {
        let mut writer = Writer::new();
        writer.location(0x1234);
        writer.location(location);
        tapes.push(writer.finish());
    }
}

/// Counts of a run, waiting and not.
fn counts(tapes: &mut Tapes) {
    for count in [0, 1, 2, 999_999, 1_000_000, 1_000_001, 0x10_0000, 0xFF_FFFF] {
        for status in [0, WAIT] {
            let mut writer = Writer::new();
            writer.halfwords(0x34, &[0x000A, 0x0001]);
            writer.status(status);
            writer.go(count);
            tapes.push(writer.finish());
        }
    }
}

/// Tapes of the greatest length: with a command cut at the end, and without.
fn longest(tapes: &mut Tapes) {
    let mut writer = Writer::new();
    for number in 0..=(LONGEST_TAPE / 3) {
        writer.deposit(number as u16 ^ 0x5555);
    }
    let mut tape = writer.finish();
    tape.truncate(LONGEST_TAPE);
    tapes.push(tape.clone());
    tape.truncate(LONGEST_TAPE / 3 * 3);
    tapes.push(tape);
    let mut writer = Writer::new();
    writer.address(0xFF00);
    for number in 0..200 {
        writer.deposit(number);
    }
    tapes.push(writer.finish());
}
