//! Each interrupt, what it saves, and the order in which a step looks for them.

mod common;

use common::*;
use reference::{Answer, Bus, Machine, Queue, Record, Silent, Store, Tally, Teletype};

fn record(cause: Answer, status: u32, location: u32) -> Record {
    Record {
        cause,
        status,
        location,
        interrupt_status: 0,
    }
}

#[test]
fn illegal() {
    let mut bench = Bench::new();
    let status = SET_15 | 5;
    bench.status(status).instruct(&[0x0000]);
    assert_eq!(bench.step(), Answer::Illegal);
    assert_eq!(bench.record(), record(Answer::Illegal, status, START));
    assert_eq!(bench.machine.sets[0][14..], [status, START]);
    assert_eq!(bench.machine.sets[1], [0; 16]);
    assert_eq!(
        (bench.machine.status, bench.machine.location),
        (0xF1, 0xC00)
    );
}

#[test]
fn privileged_codes_under_protection() {
    for code in [
        0x18, 0x95, 0x9A, 0x9B, 0x9D, 0x9E, 0xC2, 0xDA, 0xDB, 0xDD, 0xDE,
    ] {
        let mut bench = Bench::new();
        bench.status(PROTECTION).instruct(&[code << 8, 0x1000]);
        assert_eq!(bench.step(), Answer::Illegal, "code {code:02X}");
        assert_eq!(bench.machine.sets[0][15], START);
        let mut bench = Bench::new();
        bench.instruct(&[code << 8, 0x1000]).done();
    }
}

#[test]
fn arithmetic_on() {
    let mut bench = Bench::new();
    let status = ARITHMETIC | 0xD;
    bench.status(status).instruct(&[0x1D24]);
    assert_eq!(bench.step(), Answer::Arithmetic);
    assert_eq!(
        bench.record(),
        record(Answer::Arithmetic, status, START + 2)
    );
    assert_eq!(bench.machine.sets[0][14..], [status, START + 2]);
    assert_eq!(
        (bench.machine.status, bench.machine.location),
        (0xF2, 0xC10)
    );
}

#[test]
fn arithmetic_off() {
    let mut bench = Bench::new();
    bench.status(0xD).instruct(&[0x5D20, 0x1000]).done();
    assert!(bench.trace.is_empty());
    assert_eq!(
        (bench.machine.status, bench.machine.location),
        (0xD, START + 4)
    );
}

#[test]
fn a_refused_operand_comes_before_the_division() {
    let mut bench = Bench::new();
    bench.segment(0, OPEN).set(2, 0x1_0000);
    bench.status(RELOCATION | ARITHMETIC);
    bench.instruct(&[0x5D22, 0x0000]);
    assert_eq!(bench.step(), Answer::Access);
    bench.assert_access(RELOCATION | ARITHMETIC, START, 0x08);
}

#[test]
fn supervisor_calls() {
    for number in 0..16u16 {
        let mut bench = Bench::new();
        let status = PROTECTION | SET_15 | 6;
        bench.status(status).set(3, 0xFFFF_FFFF);
        bench.instruct(&[0xE103 | number << 4, 0x0004]);
        assert_eq!(bench.step(), Answer::SupervisorCall);
        let saved = record(Answer::SupervisorCall, status, START + 4);
        assert_eq!(bench.record(), saved);
        assert_eq!(bench.machine.sets[0][13..], [3, status, START + 4]);
        assert_eq!(bench.machine.status, 0xF8);
        assert_eq!(bench.machine.location, 0xC40 + 2 * u32::from(number));
    }
}

#[test]
fn the_address_of_a_supervisor_call_has_20_bits() {
    let mut bench = Bench::new();
    bench.set(3, 0xFFFF_FFFF).instruct(&[0xE103, 0x0000]);
    bench.step();
    assert_eq!(bench.register(13), 0xF_FFFF);
}

#[test]
fn new_locations_are_cut() {
    let mut bench = Bench::new();
    bench.put_fullwords(0x30, &[0xFFFF_FFFF, 0xFFFF_FFFF]);
    bench.instruct(&[0x0000]);
    bench.step();
    assert_eq!(bench.machine.status, 0xFFFF_FFFF);
    assert_eq!(bench.machine.location, 0xF_FFFE);
    assert_eq!(bench.step(), Answer::Waiting);

    let mut bench = Bench::new();
    bench.put(0x9C, &[0xFFFF]).instruct(&[0xE100, 0]);
    bench.step();
    assert_eq!(bench.machine.location, 0xFFFE);
}

#[test]
fn vectors_are_read_at_real_addresses() {
    let mut bench = Bench::new();
    bench.segment(0, 0x0FF0_4010).status(RELOCATION);
    bench.put(0x4A00, &[0x0000]);
    bench.machine.location = START;
    assert_eq!(bench.step(), Answer::Illegal);
    assert_eq!(
        (bench.machine.status, bench.machine.location),
        (0xF1, 0xC00)
    );
}

#[test]
fn unfitted_vectors_read_zero() {
    let mut machine = Machine::make(Store::zeros(8), Silent);
    machine.status = 0xFF;
    let mut trace = Queue::new(1);
    assert_eq!(machine.step(&mut trace), Ok(Answer::Illegal));
    assert_eq!((machine.status, machine.location), (0, 0));
}

/// A bench with a teletype that requests.
fn with_teletype() -> Bench {
    let mut teletype = Teletype::with_bytes(&[0x41, 0x42]);
    teletype.command(2, 0x40);
    let mut bench = Bench::with_bus(teletype);
    bench.put(0xD4, &[0x0D01]);
    bench
}

#[test]
fn device() {
    let mut bench = with_teletype();
    let status = DEVICES | SET_15 | 3;
    bench.status(status).instruct(&[0x2411]);
    bench.machine.sets[0][5] = 99;
    bench.machine.interrupt_status = 0x10;
    assert_eq!(bench.step(), Answer::Device);
    let expected = Record {
        interrupt_status: 0x10,
        ..record(Answer::Device, status, START)
    };
    assert_eq!(bench.record(), expected);
    assert_eq!(bench.machine.sets[0][..6], [status, START, 2, 0, 0xD01, 99]);
    assert_eq!(bench.machine.sets[1], [0; 16]);
    assert_eq!(bench.machine.status, 0x2800);
    assert_eq!(bench.machine.location, 0xD00);
    // The device is not told, and its request stays.
    let tally = Tally {
        latest_command: 0x40,
        commands: 1,
        ..Tally::default()
    };
    assert_eq!(bench.machine.bus.tally(2), tally);
    assert!(bench.machine.bus.requests(2));
}

#[test]
fn a_device_ends_a_wait() {
    let mut bench = with_teletype();
    bench.status(WAIT);
    assert_eq!(bench.step(), Answer::Waiting);
    bench.status(WAIT | DEVICES);
    assert_eq!(bench.step(), Answer::Device);
    assert_eq!(bench.register(0), WAIT | DEVICES);
}

#[test]
fn a_device_waits_until_its_bit_is_on() {
    let mut bench = with_teletype();
    bench.set(2, DEVICES).instruct(&[0x9512, 0x0000]).done();
    assert_eq!(bench.step(), Answer::Device);
    assert_eq!(bench.register(1), START + 2);
}

#[test]
fn a_program_reads_the_teletype() {
    let mut bench = Bench::with_bus(Teletype::with_bytes(&[0x41, 0x42]));
    bench.set(1, 2).set(3, 0x7F);
    // OCR 1,3; then with device interrupts allowed, a routine of RDR 1,5 and SSR 1,6.
    bench.instruct(&[0x9E13]).done();
    bench.put(0xD4, &[0x0D00]);
    bench.put(0xD00, &[0x2412, 0x9B15, 0x9D16, 0x9B15, 0x9D16, 0x9B15]);
    bench.status(DEVICES);
    assert_eq!(bench.step(), Answer::Device);
    bench.done().done().done();
    assert_eq!((bench.register(5), bench.register(6)), (0x41, 0));
    bench.done().done();
    assert_eq!((bench.register(5), bench.register(6)), (0x42, 8));
    assert_eq!(bench.code(), 8);
    bench.done();
    assert_eq!((bench.register(5), bench.code()), (0, 0));
    assert_eq!(bench.machine.bus.tally(2).reads, 3);
    bench.status(DEVICES);
    assert_eq!(bench.step(), Answer::Illegal);
}

/// A bus on which two devices request and neither answers.
struct Knocking;

impl Bus for Knocking {
    fn answers(&self, _device: u8) -> bool {
        false
    }
    fn status(&self, device: u8) -> u8 {
        device ^ 0xFF
    }
    fn offer(&self, _device: u8) -> u8 {
        0
    }
    fn requests(&self, device: u8) -> bool {
        device == 200 || device == 255
    }
    fn tally(&self, _device: u8) -> Tally {
        Tally::default()
    }
    fn read(&mut self, _device: u8) -> u8 {
        0
    }
    fn write(&mut self, _device: u8, _byte: u8) {}
    fn command(&mut self, _device: u8, _byte: u8) {}
}

#[test]
fn the_lowest_request_counts_even_without_an_answer() {
    let mut bench = Bench::with_bus(Knocking);
    bench.put(0xD0 + 400, &[0x0E00]).status(DEVICES);
    assert_eq!(bench.step(), Answer::Device);
    assert_eq!(bench.register(2), 200);
    assert_eq!(bench.register(3), 200 ^ 0xFF);
    assert_eq!(bench.machine.location, 0xE00);
}
