//! The access controller: its checks with relocation on, its registers with relocation off.

mod common;

use common::*;
use reference::{Answer, Kind, Machine, Queue, Silent, Store};

/// A bench with relocation on: segment 0 open for the program, segment 1 as given, and register 2
/// pointing to the program address X'11000'.
fn relocated(segment_1: u32) -> Bench {
    let mut bench = Bench::new();
    bench.segment(0, OPEN).segment(1, segment_1);
    bench.status(RELOCATION | 0x6);
    bench.set(2, 0x1_1000).set(1, 0x1234_5678);
    bench
}

const STATUS: u32 = RELOCATION | 0x6;

/// Open but for the digit with E, W and P.
fn with_digit(digit: u32) -> u32 {
    0x0FF0_0000 | digit << 4
}

#[test]
fn each_digit_for_reads() {
    for digit in 0..16 {
        let mut bench = relocated(with_digit(digit));
        bench.put_fullwords(0x1000, &[77]);
        bench.instruct(&[0x5812, 0x0000]);
        if digit & 1 == 0 {
            assert_eq!(bench.step(), Answer::Access);
            bench.assert_access(STATUS, START, 0x08);
            assert_eq!(bench.register(1), 0x1234_5678);
        } else {
            bench.done();
            assert_eq!(bench.register(1), 77);
        }
    }
}

#[test]
fn each_digit_for_writes() {
    for digit in 0..16 {
        let mut bench = relocated(with_digit(digit));
        bench.instruct(&[0x5012, 0x0000]);
        let answer = bench.step();
        let written = match digit & 7 {
            1 => {
                assert_eq!(answer, Answer::Done);
                true
            }
            5 => {
                bench.assert_access(STATUS, START + 4, 0x02);
                true
            }
            3 | 7 => {
                bench.assert_access(STATUS, START, 0x04);
                false
            }
            _ => {
                bench.assert_access(STATUS, START, 0x08);
                false
            }
        };
        let expected = if written { 0x1234_5678 } else { 0 };
        assert_eq!(bench.fullword(0x1000), expected);
    }
}

#[test]
fn each_digit_for_fetches() {
    for digit in 0..16 {
        let mut bench = relocated(with_digit(digit));
        bench.put(0x1000, &[0x2411]);
        bench.machine.location = 0x1_1000;
        let answer = bench.step();
        match digit {
            1 | 3 | 5 | 7 => assert_eq!(answer, Answer::Done),
            9 | 0xB | 0xD | 0xF => bench.assert_access(STATUS, 0x1_1000, 0x01),
            _ => bench.assert_access(STATUS, 0x1_1000, 0x08),
        }
    }
}

#[test]
fn the_limit_comes_first() {
    let mut bench = relocated(0x00F0_00E0);
    bench.instruct(&[0x5012, 0x0000]);
    bench.step();
    bench.assert_access(STATUS, START, 0x10);
    let mut bench = relocated(0x0100_0010);
    bench.instruct(&[0x5012, 0x0000]).done();
    assert_eq!(bench.fullword(0x1000), 0x1234_5678);
}

#[test]
fn relocation_wraps_at_4096_blocks() {
    let mut bench = relocated(0x0FFF_F510);
    bench.instruct(&[0x5012, 0x0000]).done();
    assert_eq!(bench.fullword(0x0500), 0x1234_5678);
}

#[test]
fn later_halfwords_are_fetched_with_their_own_checks() {
    for (own, halfwords) in [(0xFFFE, 3), (0xFFFC, 3), (0xFFFE, 2)] {
        let mut bench = relocated(with_digit(0x9));
        let first = if halfwords == 3 { 0xF810 } else { 0xC810 };
        bench.put(own, &[first]);
        bench.machine.location = own;
        assert_eq!(bench.step(), Answer::Access);
        bench.assert_access(STATUS, own, 0x01);
    }
}

#[test]
fn an_illegal_code_is_found_before_the_rest_is_fetched() {
    let mut bench = relocated(0);
    bench.put(0xFFFE, &[0xFF00]);
    bench.machine.location = 0xFFFE;
    assert_eq!(bench.step(), Answer::Illegal);
    let mut bench = relocated(0);
    bench.put(0xFFFE, &[0xC200]).status(STATUS | PROTECTION);
    bench.machine.location = 0xFFFE;
    assert_eq!(bench.step(), Answer::Illegal);
    assert_eq!(bench.machine.interrupt_status, 0);
}

#[test]
fn a_refused_write_after_a_read_leaves_nothing() {
    for code in [0x51, 0x61, 0x75, 0x76, 0x77, 0xE0] {
        let mut bench = relocated(with_digit(0x3));
        bench.put_fullwords(0x1000, &[0x0102_0304]).set(1, 3);
        bench.instruct(&[code << 8 | 0x12, 0x0000]);
        assert_eq!(bench.step(), Answer::Access);
        bench.assert_access(STATUS, START, 0x04);
        assert_eq!(bench.fullword(0x1000), 0x0102_0304);
        assert_eq!(bench.register(1), 3);
    }
}

#[test]
fn a_reported_write_saves_the_new_code() {
    let mut bench = relocated(with_digit(0x5));
    bench.put(0x1000, &[0x8000]);
    bench.instruct(&[0xE002, 0x0000]);
    assert_eq!(bench.step(), Answer::Access);
    bench.assert_access(RELOCATION | 1, START + 4, 0x02);
}

#[test]
fn a_read_is_never_reported() {
    let mut bench = relocated(with_digit(0x5));
    bench.set(1, 3).instruct(&[0x7412, 0x0000]).done();
    assert_eq!(bench.machine.interrupt_status, 0);
}

#[test]
fn bits_stay_until_cleared_and_cause_one_interrupt_each() {
    let mut bench = relocated(with_digit(0x5));
    bench.put_fullwords(0x90, &[RELOCATION | 0x6, START + 4]);
    bench.instruct(&[0x5012, 0x0000, 0x2412, 0x5812, 0x0000]);
    assert_eq!(bench.step(), Answer::Access);
    bench.done().done();
    assert_eq!(bench.machine.interrupt_status, 0x02);
    bench.segment(1, with_digit(0));
    bench.instruct(&[0x5812, 0x0000]);
    assert_eq!(bench.step(), Answer::Access);
    assert_eq!(bench.machine.interrupt_status, 0x0A);
}

#[test]
fn load_multiple_keeps_what_it_has_loaded() {
    let mut bench = relocated(0x0000_0010);
    bench.put_fullwords(0xF8, &[5, 6, 7, 8]);
    bench.set(2, 0x1_00F8).set(12, 0).set(13, 0);
    bench.instruct(&[0xD1C2, 0x0000]);
    assert_eq!(bench.step(), Answer::Access);
    bench.assert_access(STATUS, START, 0x10);
    assert_eq!((bench.register(12), bench.register(13)), (5, 6));
}

#[test]
fn multiples_wrap_from_the_last_segment_to_the_first() {
    let mut bench = relocated(0);
    bench.segment(15, 0x0FF0_0010).set(2, 0xF_FFFC);
    bench.set(14, 0x1111_2222).set(15, 0x3333_4444);
    bench.instruct(&[0xD0E2, 0x0000]).done();
    assert_eq!(bench.fullword(0xFFFC), 0x1111_2222);
    assert_eq!(bench.fullword(0), 0x3333_4444);
}

#[test]
fn bit_arrays_go_on_into_other_segments() {
    let mut bench = relocated(with_digit(0x1));
    bench.set(3, 16 * 0x8000).instruct(&[0x7530, 0x1000]).done();
    assert_eq!(bench.halfword(0x1000), 0x8000);
    let mut bench = relocated(with_digit(0));
    bench.set(3, 16 * 0x8000).instruct(&[0x7530, 0x1000]);
    assert_eq!(bench.step(), Answer::Access);
    bench.assert_access(STATUS, START, 0x08);
}

#[test]
fn a_byte_store_is_checked_as_a_write_alone() {
    for (digit, interrupt_status) in [(1, 0), (5, 2), (3, 4), (0, 8)] {
        let mut bench = relocated(with_digit(digit));
        bench.instruct(&[0xD212, 0x0001]);
        bench.step();
        assert_eq!(bench.machine.interrupt_status, interrupt_status);
    }
}

#[test]
fn a_lost_write_is_reported_all_the_same() {
    let mut bench = relocated(0x0FF1_0050);
    bench.instruct(&[0x4012, 0x0000]);
    assert_eq!(bench.step(), Answer::Access);
    bench.assert_access(STATUS, START + 4, 0x02);

    let store = Store::loader_strip(Store::zeros(0x2000), [7; 24]);
    let mut machine = Machine::make(store, Silent);
    machine.status = RELOCATION;
    machine.location = START;
    machine.segments[0] = 0x0FF0_0050;
    machine.deposit(START, 0x4010).unwrap();
    machine.deposit(START + 2, 0x0050).unwrap();
    let mut trace = Queue::new(4);
    assert_eq!(machine.step(&mut trace), Ok(Answer::Access));
    assert_eq!(machine.interrupt_status, 2);
    assert_eq!(machine.store.kind(0x28), Kind::Fixed);
    assert_eq!(machine.store.read(0x28), 7);
}

#[test]
fn relocated_addresses_of_the_controller_are_store() {
    let mut bench = relocated(with_digit(0x1));
    bench.set(2, 0x300).instruct(&[0x5012, 0x0000]).done();
    assert_eq!(bench.fullword(0x300), 0x1234_5678);
    assert_eq!(bench.machine.segments[0], OPEN);
}

#[test]
fn segmentation_registers_by_fullword_halfword_and_byte() {
    let mut bench = Bench::new();
    bench.set(1, 0xFFFF_FFFF);
    bench.instruct(&[0x4010, 0x0308]).done();
    assert_eq!(bench.machine.segments[2], 0x0FFF_0000);
    bench.instruct(&[0x4010, 0x030A]).done();
    assert_eq!(bench.machine.segments[2], 0x0FFF_FFF0);
    bench.set(1, 0x12);
    for (address, value) in [
        (0x308, 0x02FF_FFF0),
        (0x309, 0x0212_FFF0),
        (0x30A, 0x0212_12F0),
        (0x30B, 0x0212_1210),
    ] {
        bench.instruct(&[0xD210, address]).done();
        assert_eq!(bench.machine.segments[2], value);
    }
    bench.instruct(&[0x5830, 0x0308]).done();
    assert_eq!(bench.register(3), 0x0212_1210);
    bench.instruct(&[0x4830, 0x0308]).done();
    assert_eq!(bench.register(3), 0x0212);
    bench.instruct(&[0xD330, 0x030A]).done();
    assert_eq!(bench.register(3), 0x12);
}

#[test]
fn multiples_in_the_controller() {
    let mut bench = Bench::new();
    bench.machine.sets[0] = [0xFFFF_FFFF; 16];
    bench.instruct(&[0xD000, 0x0300]).done();
    assert_eq!(bench.machine.segments, [0x0FFF_FFF0; 16]);
    bench.instruct(&[0xD100, 0x0300]).done();
    assert_eq!(bench.machine.sets[0], [0x0FFF_FFF0; 16]);
    // From the last segmentation register on into the interrupt status and the rest.
    bench.machine.interrupt_status = 0x1F;
    bench.instruct(&[0xD1D0, 0x033C]).done();
    assert_eq!(bench.machine.sets[0][13..], [0x0FFF_FFF0, 0x1F, 0]);
    assert_eq!(bench.machine.interrupt_status, 0);
}

/// Does an instruction with the interrupt status X'1F', and gives register 1 and what is left.
fn on_interrupt_status(halfwords: &[u16]) -> (u32, u32) {
    let mut bench = Bench::new();
    bench.machine.interrupt_status = 0x1F;
    bench.set(1, 0xFFFF).instruct(halfwords).done();
    (bench.register(1), bench.machine.interrupt_status)
}

#[test]
fn reads_of_the_interrupt_status() {
    assert_eq!(on_interrupt_status(&[0x5810, 0x0340]), (0x1F, 0));
    assert_eq!(on_interrupt_status(&[0x4810, 0x0340]), (0, 0x1F));
    assert_eq!(on_interrupt_status(&[0x4810, 0x0342]), (0x1F, 0));
    assert_eq!(on_interrupt_status(&[0xD310, 0x0341]), (0, 0x1F));
    assert_eq!(on_interrupt_status(&[0xD310, 0x0342]), (0, 0));
    assert_eq!(on_interrupt_status(&[0xD310, 0x0343]), (0x1F, 0));
    assert_eq!(on_interrupt_status(&[0x5810, 0x0344]), (0, 0x1F));
    assert_eq!(on_interrupt_status(&[0x4810, 0x03FE]), (0, 0x1F));
}

#[test]
fn writes_to_the_interrupt_status() {
    for halfwords in [
        [0x5010, 0x0340],
        [0x4010, 0x0342],
        [0xD210, 0x0342],
        [0xD210, 0x0343],
        [0x5010, 0x03FC],
    ] {
        assert_eq!(on_interrupt_status(&halfwords), (0xFFFF, 0x1F));
    }
    // These read before they write.
    for halfwords in [[0x5110, 0x0340], [0x6110, 0x0342], [0xE010, 0x0342]] {
        assert_eq!(on_interrupt_status(&halfwords), (0xFFFF, 0));
    }
}

#[test]
fn instructions_are_fetched_from_the_controller() {
    let mut bench = Bench::new();
    bench.segment(0, 0x0810_0A10).set(1, 4).set(0, 3);
    bench.machine.location = 0x300;
    bench.done().done();
    assert_eq!(bench.register(1), 6);
    assert_eq!(bench.machine.location, 0x304);
}

#[test]
fn a_fetch_clears_the_interrupt_status() {
    // LI at X'33E' has its third halfword at X'342'.
    let mut bench = Bench::new();
    bench.segment(15, 0x0000_F830);
    bench.machine.interrupt_status = 0x15;
    bench.machine.location = 0x33E;
    bench.done();
    assert_eq!(bench.register(3), 0x15);
    assert_eq!(bench.machine.interrupt_status, 0);

    let mut bench = Bench::new();
    bench.machine.interrupt_status = 0x15;
    bench.machine.location = 0x342;
    assert_eq!(bench.step(), Answer::Illegal);
    assert_eq!(bench.record().interrupt_status, 0);
}
