//! Tapes and their faults.

mod common;

use common::*;
use reference::{Denial, Key, Machine, Queue, Silent, Store, TapeFault, Trace};

fn new_machine() -> (Machine, Trace) {
    let machine = Machine::make(Store::zeros(32_768), Silent);
    (machine, Queue::new(64))
}

/// Bytes written in hexadecimal, with spaces anywhere.
fn bytes(text: &str) -> Vec<u8> {
    let digits: Vec<u32> = text.chars().filter_map(|c| c.to_digit(16)).collect();
    digits
        .chunks(2)
        .map(|pair| (pair[0] * 16 + pair[1]) as u8)
        .collect()
}

fn play(tape: &str) -> Result<usize, TapeFault> {
    let (mut machine, mut trace) = new_machine();
    machine.play(&bytes(tape), &mut trace)
}

/// The fault of a tape, as the number of its denial, its place and its letter.
fn fault(tape: &str) -> (u8, usize, u8) {
    let fault = play(tape).unwrap_err();
    (fault.denial.number(), fault.place, fault.letter.unwrap())
}

#[test]
fn the_sample_tape() {
    let (mut machine, mut trace) = new_machine();
    let tape = bytes("41 000A00 44 2611 4C 000A00 50 00000000 47 000001");
    assert_eq!(machine.play(&tape, &mut trace), Ok(5));
    assert_eq!(machine.printed_text(), "00A02 00000002\n");
    assert_eq!(machine.sets[0][1], 1);
}

#[test]
fn the_empty_tape() {
    let (mut machine, mut trace) = new_machine();
    assert_eq!(machine.play(&[], &mut trace), Ok(0));
    assert_eq!(machine.printed_text(), "00000 00008000\n");
}

#[test]
fn every_command() {
    let (mut machine, mut trace) = new_machine();
    let tape = bytes(
        "41 001000 44 1234 44 5678 52 03 01020304 52 FF 05060708 53 0F 0FFFFFF0 50 FFFFFFFF
         4C 0FFFFE 47 000001",
    );
    assert_eq!(machine.play(&tape, &mut trace), Ok(9));
    assert_eq!(machine.examine(0x1000), Ok(0x1234));
    assert_eq!(machine.examine(0x1002), Ok(0x5678));
    assert_eq!(machine.sets[0][3], 0x0102_0304);
    assert_eq!(machine.sets[1][15], 0x0506_0708);
    assert_eq!(machine.segments[15], 0x0FFF_FFF0);
    assert_eq!(machine.printed_text(), "FFFFE FFFFFFFF\n");
}

#[test]
fn faults_of_deposits() {
    assert_eq!(fault("41 000001 44 0000"), (1, 4, b'D'));
    assert_eq!(fault("41 010000 44 0000"), (1, 4, b'D'));
    assert_eq!(fault("41 FFFFFF 44 0000"), (1, 4, b'D'));
    assert_eq!(fault("41 00FFFE 44 0000 44 0000"), (1, 7, b'D'));
    assert_eq!(play("41 FFFFFF 41 100000"), Ok(2));
}

#[test]
fn deposits_at_the_end_of_addresses() {
    let mut machine = Machine::make(Store::zeros(524_288), Silent);
    let tape = bytes("41 0FFFFE 44 1234 44 5678");
    let fault = machine.play(&tape, &mut Queue::new(1)).unwrap_err();
    assert_eq!((fault.denial, fault.place), (Denial::Address, 7));
    assert_eq!(machine.examine(0xF_FFFE), Ok(0x1234));
    assert_eq!(machine.examine(0), Ok(0));
}

#[test]
fn deposits_in_fixed_places() {
    let store = Store::loader_strip(Store::zeros(100), [0; 24]);
    let mut machine = Machine::make(store, Silent);
    let tape = bytes("41 00004E 44 1234 44 5678");
    let fault = machine.play(&tape, &mut Queue::new(1)).unwrap_err();
    assert_eq!((fault.denial, fault.place), (Denial::Fixed, 7));
    assert_eq!(machine.examine(0x4E), Ok(0x1234));
}

#[test]
fn faults_of_registers_and_segments() {
    assert_eq!(fault("52 10 00000000"), (3, 0, b'R'));
    assert_eq!(fault("52 EF 00000000"), (3, 0, b'R'));
    assert_eq!(fault("53 10 FFFFFFFF"), (3, 0, b'S'));
    assert_eq!(fault("53 0F 10000000"), (4, 0, b'S'));
    assert_eq!(fault("53 0F 00000001"), (4, 0, b'S'));
}

#[test]
fn faults_of_location_and_count() {
    assert_eq!(fault("4C 000001"), (4, 0, b'L'));
    assert_eq!(fault("4C 100000"), (4, 0, b'L'));
    assert_eq!(fault("47 000000"), (4, 0, b'G'));
    assert_eq!(fault("47 0F4241"), (4, 0, b'G'));
    assert_eq!(play("47 0F4240"), Ok(1));
}

#[test]
fn unknown_letters() {
    for letter in 0..=255u8 {
        let known = b"ADRSPLG".contains(&letter);
        let (denial, place, found) = fault(&format!("41 000000 {letter:02X}"));
        assert_eq!(denial, if known { 6 } else { 5 });
        assert_eq!((place, found), (4, letter));
    }
}

#[test]
fn operands_cut_short() {
    for (letter, length) in [
        (b'A', 3),
        (b'D', 2),
        (b'R', 5),
        (b'S', 5),
        (b'P', 4),
        (b'L', 3),
        (b'G', 3),
    ] {
        for present in 0..length {
            let tape = format!("{letter:02X} {}", "33".repeat(present));
            assert_eq!(fault(&tape), (6, 0, letter));
        }
    }
}

#[test]
fn a_full_trace_in_a_tape() {
    // Illegal codes at 0, with the vector of zeros leading back there.
    assert_eq!(fault("50 00000000 47 000064 47 000001"), (9, 9, b'G'));
    assert_eq!(fault("50 00000000 47 000064 47 000000"), (4, 9, b'G'));
    assert_eq!(play("50 00000000 47 000064 50 00000000"), Ok(3));
    assert_eq!(play("50 00000000 47 00003F 47 000001"), Ok(3));
}

#[test]
fn commands_before_a_fault_stand() {
    let (mut machine, mut trace) = new_machine();
    let tape = bytes("50 00000003 4C 000A00 58");
    assert!(machine.play(&tape, &mut trace).is_err());
    assert_eq!(machine.printed_text(), "00A00 00000003\n");
}

#[test]
fn the_address_starts_at_zero_in_each_play() {
    let (mut machine, mut trace) = new_machine();
    machine
        .play(&bytes("41 001000 44 1111"), &mut trace)
        .unwrap();
    machine.play(&bytes("44 2222"), &mut trace).unwrap();
    assert_eq!(machine.examine(0), Ok(0x2222));
}

#[test]
fn a_tape_at_key_off() {
    let (mut machine, mut trace) = new_machine();
    machine.key(0).unwrap();
    let expected = TapeFault {
        denial: Denial::Off,
        place: 0,
        letter: None,
    };
    assert_eq!(machine.play(&[], &mut trace), Err(expected));
    assert_eq!(machine.play(b"X", &mut trace), Err(expected));
    assert_eq!(machine.key, Key::Off);
}

#[test]
fn a_tape_at_lock() {
    let (mut machine, mut trace) = new_machine();
    machine.key(2).unwrap();
    assert_eq!(machine.play(&bytes("50 00000007"), &mut trace), Ok(1));
    assert_eq!((machine.status, machine.key), (7, Key::Lock));
    assert!(machine.play(&bytes("50 00000008 58"), &mut trace).is_err());
    assert_eq!((machine.status, machine.key), (8, Key::Lock));
}

#[test]
fn a_tape_with_interrupts_leaves_records() {
    let mut bench = Bench::new();
    let tape = bytes("41 000A00 44 0000 50 00000005 4C 000A00 47 000001");
    assert_eq!(bench.machine.play(&tape, &mut bench.trace), Ok(5));
    assert_eq!((bench.record().status, bench.record().location), (5, START));
}
