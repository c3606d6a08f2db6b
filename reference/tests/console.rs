//! The console's calls, its denials and the run.

mod common;

use common::*;
use reference::{Answer, Denial, Key, Machine, Queue, Reason, Run, Silent, Store};

#[test]
fn a_new_machine() {
    let machine = Machine::make(Store::zeros(4), Silent);
    assert_eq!(machine.status, 0x8000);
    assert_eq!((machine.location, machine.interrupt_status), (0, 0));
    assert_eq!(machine.sets, [[0; 16]; 2]);
    assert_eq!(machine.segments, [0; 16]);
    assert_eq!(machine.key, Key::On);
    assert_eq!(machine.printed_text(), "00000 00008000\n");
}

#[test]
fn initialise() {
    let mut bench = Bench::new();
    bench.status(0xFFFF_FFFF).set(1, 1).segment(2, 0x10);
    bench.machine.interrupt_status = 0x1F;
    bench.machine.key(2).unwrap();
    bench.machine.initialise().unwrap();
    assert_eq!(bench.machine.status, 0x8000);
    assert_eq!(
        (bench.machine.location, bench.machine.interrupt_status),
        (0, 0)
    );
    assert_eq!(bench.machine.sets, [[0; 16]; 2]);
    assert_eq!(bench.machine.segments, [0; 16]);
    assert_eq!(bench.machine.key, Key::Lock);
    assert_eq!(bench.fullword(0x34), 0xC00);
}

#[test]
fn calls_at_key_on() {
    let mut machine = Machine::make(Store::zeros(0x400), Silent);
    machine.deposit(0x300, 0x1234).unwrap();
    assert_eq!(machine.examine(0x300), Ok(0x1234));
    machine.set_register(15, 3, 33).unwrap();
    machine.set_register(0, 15, 15).unwrap();
    assert_eq!(machine.show_register(15, 3), Ok(33));
    assert_eq!(machine.show_register(0, 15), Ok(15));
    machine.set_segment(15, 0x0FFF_FFF0).unwrap();
    assert_eq!(machine.show_segment(15), Ok(0x0FFF_FFF0));
    machine.set_status(0xFFFF_FFFF).unwrap();
    assert_eq!(machine.show_status(), Ok(0xFFFF_FFFF));
    machine.set_location(0xF_FFFE).unwrap();
    assert_eq!(machine.show_location(), Ok(0xF_FFFE));
    assert_eq!(machine.examine(0x300), Ok(0x1234));
    assert_eq!(machine.segments[0], 0);
    assert_eq!(machine.printed_text(), "FFFFE FFFFFFFF\n");
}

#[test]
fn denial_1_address() {
    let mut machine = Machine::make(Store::zeros(4), Silent);
    for address in [1, 8, 0x10_0000, 0x10_0001, u32::MAX] {
        assert_eq!(machine.examine(address), Err(Denial::Address));
        assert_eq!(machine.deposit(address, 1), Err(Denial::Address));
    }
    assert_eq!(machine.store, Store::zeros(4));
}

#[test]
fn denial_2_fixed_place() {
    let store = Store::loader_strip(Store::zeros(100), [7; 24]);
    let mut machine = Machine::make(store, Silent);
    assert_eq!(machine.deposit(0x50, 1), Err(Denial::Fixed));
    assert_eq!(machine.deposit(0x51, 1), Err(Denial::Address));
    assert_eq!(machine.examine(0x50), Ok(7));
    assert_eq!(machine.deposit(0x4E, 1), Ok(()));
}

#[test]
fn denial_3_numbers() {
    let mut machine = Machine::make(Store::zeros(4), Silent);
    for (set, number) in [(0, 16), (1, 0), (14, 15), (16, 0)] {
        assert_eq!(machine.set_register(set, number, 1), Err(Denial::Number));
        assert_eq!(machine.show_register(set, number), Err(Denial::Number));
    }
    assert_eq!(machine.set_segment(16, 0xFFFF_FFFF), Err(Denial::Number));
    assert_eq!(machine.show_segment(16), Err(Denial::Number));
    assert_eq!(machine.sets, [[0; 16]; 2]);
}

#[test]
fn denial_4_values() {
    let mut bench = Bench::new();
    assert_eq!(bench.machine.key(3), Err(Denial::Value));
    for bit in [0, 1, 2, 3, 28, 29, 30, 31] {
        let denied = bench.machine.set_segment(0, 1 << bit);
        assert_eq!(denied, Err(Denial::Value));
    }
    for location in [1, 0x10_0000] {
        let denied = bench.machine.set_location(location);
        assert_eq!(denied, Err(Denial::Value));
    }
    for count in [0, 1_000_001] {
        let denied = bench.machine.run(count, &mut bench.trace);
        assert_eq!(denied, Err(Denial::Value));
    }
    assert_eq!(bench.machine.location, START);
}

/// The outcome of every call at a key position, as the number of its denial or 0.
fn all_calls(position: u32) -> [u8; 15] {
    fn number<T>(result: Result<T, Denial>) -> u8 {
        result.err().map_or(0, Denial::number)
    }
    let mut machine = Machine::make(Store::zeros(4), Silent);
    machine.key(position).unwrap();
    let mut trace = Queue::new(4);
    [
        number(machine.initialise()),
        number(machine.examine(0)),
        number(machine.deposit(0, 0)),
        number(machine.set_register(0, 0, 0)),
        number(machine.show_register(0, 0)),
        number(machine.set_segment(0, 0)),
        number(machine.show_segment(0)),
        number(machine.set_status(0x8000)),
        number(machine.show_status()),
        number(machine.set_location(0)),
        number(machine.show_location()),
        number(machine.step(&mut trace)),
        number(machine.run(1, &mut trace)),
        number(machine.play(b"", &mut trace).map_err(|fault| fault.denial)),
        number(machine.key(1)),
    ]
}

#[test]
fn denials_7_and_8_by_the_key() {
    assert_eq!(all_calls(1), [0; 15]);
    assert_eq!(all_calls(0), [7, 7, 7, 7, 7, 7, 7, 7, 7, 7, 7, 7, 7, 7, 0]);
    assert_eq!(all_calls(2), [0, 8, 8, 8, 8, 8, 8, 8, 8, 8, 8, 0, 0, 0, 0]);
}

#[test]
fn the_key_comes_first_in_the_order() {
    let mut machine = Machine::make(Store::zeros(4), Silent);
    let mut full = Queue::new(0);
    assert_eq!(machine.run(0, &mut full), Err(Denial::Value));
    machine.key(2).unwrap();
    assert_eq!(machine.deposit(1, 0), Err(Denial::Locked));
    assert_eq!(machine.set_segment(16, 1), Err(Denial::Locked));
    machine.key(0).unwrap();
    assert_eq!(machine.run(0, &mut full), Err(Denial::Off));
    assert_eq!(machine.step(&mut full), Err(Denial::Off));
    assert_eq!(machine.key(3), Err(Denial::Value));
}

#[test]
fn denial_9_full_trace() {
    let mut bench = Bench::new();
    bench.trace = Queue::new(0);
    bench.instruct(&[0x2411]);
    let denied = bench.machine.step(&mut bench.trace);
    assert_eq!(denied, Err(Denial::TraceFull));
    let denied = bench.machine.run(5, &mut bench.trace);
    assert_eq!(denied, Err(Denial::TraceFull));
    assert_eq!(bench.machine.location, START);
}

fn run(bench: &mut Bench, count: u32) -> (u32, Reason) {
    let Run { steps, reason } = bench.machine.run(count, &mut bench.trace).unwrap();
    (steps, reason)
}

#[test]
fn runs() {
    let mut bench = Bench::new();
    bench.instruct(&[0x2300]);
    assert_eq!(
        run(&mut bench, 1_000_000),
        (1_000_000, Reason::CountReached)
    );
    assert_eq!(run(&mut bench, 1), (1, Reason::CountReached));

    bench.status(WAIT);
    assert_eq!(run(&mut bench, 9), (1, Reason::Waiting));
    assert_eq!(run(&mut bench, 1), (1, Reason::Waiting));

    // LPSW to a wait: two steps.
    bench.status(0).put_fullwords(0x1000, &[WAIT, 0]);
    bench.instruct(&[0xC200, 0x1000]);
    assert_eq!(run(&mut bench, 9), (2, Reason::Waiting));

    // Illegal codes fill the trace; the last step of the count may do it too.
    bench.status(0);
    bench.put_fullwords(0x30, &[0, START]).instruct(&[0]);
    bench.trace = Queue::new(3);
    assert_eq!(run(&mut bench, 9), (3, Reason::TraceFull));
    bench.trace = Queue::new(3);
    assert_eq!(run(&mut bench, 3), (3, Reason::TraceFull));
    bench.trace = Queue::new(3);
    assert_eq!(run(&mut bench, 2), (2, Reason::CountReached));
}

#[test]
fn numbers_of_answers_and_reasons() {
    let answers = [
        Answer::Done,
        Answer::Waiting,
        Answer::Illegal,
        Answer::Arithmetic,
        Answer::Access,
        Answer::SupervisorCall,
        Answer::Device,
    ];
    assert_eq!(answers.map(Answer::number), [0, 1, 2, 3, 4, 5, 6]);
    let reasons = [Reason::Waiting, Reason::TraceFull, Reason::CountReached];
    assert_eq!(reasons.map(Reason::number), [0, 1, 2]);
}
