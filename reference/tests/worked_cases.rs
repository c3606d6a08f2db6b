//! The worked cases of the machine's description, and its further examples.

mod common;

use common::*;
use reference::access::{relocate, Access, Arrival};
use reference::Answer;

#[test]
fn case_1_add_overflows() {
    let mut bench = Bench::new();
    bench.set(1, 0x7FFF_FFFF).instruct(&[0x2611]).done();
    assert_eq!((bench.register(1), bench.code()), (0x8000_0000, 5));
}

#[test]
fn case_2_subtract_borrows() {
    let mut bench = Bench::new();
    bench.instruct(&[0x2711]).done();
    assert_eq!((bench.register(1), bench.code()), (0xFFFF_FFFF, 9));
}

#[test]
fn case_3_multiply() {
    let mut bench = Bench::new();
    bench.set(3, -2i32 as u32).set(4, 3).status(7);
    bench.instruct(&[0x1C24]).done();
    assert_eq!(bench.register(2), 0xFFFF_FFFF);
    assert_eq!(bench.register(3), 0xFFFF_FFFA);
    assert_eq!(bench.code(), 7);
}

#[test]
fn case_4_divide() {
    let mut bench = Bench::new();
    bench.set(2, 0xFFFF_FFFF).set(3, -7i32 as u32).set(4, 2);
    bench.instruct(&[0x1D24]).done();
    assert_eq!(bench.register(3), -3i32 as u32);
    assert_eq!(bench.register(2), -1i32 as u32);
}

#[test]
fn case_5_divisor_zero() {
    let mut bench = Bench::new();
    bench.set(2, 5).set(3, 6).status(0xB);
    let before = bench.machine.sets;
    bench.instruct(&[0x1D24]).done();
    assert_eq!(bench.machine.sets, before);
    assert_eq!(bench.code(), 0xB);
    assert_eq!(bench.machine.location, START + 2);
}

fn relocated(register: u32) -> Result<u32, u32> {
    let mut segments = [0; 16];
    segments[1] = register;
    relocate(&segments, 0x1_2344, Access::Read).map(|arrival: Arrival| arrival.real)
}

#[test]
fn case_6_relocation() {
    assert_eq!(relocated(0x0FF6_5510), Ok(0x6_7844));
}

#[test]
fn case_7_limit() {
    assert_eq!(relocated(0x0226_5510), Err(0x10));
    assert_eq!(relocated(0x0236_5510), Ok(0x6_7844));
}

#[test]
fn case_8_not_present() {
    assert_eq!(relocated(0x0FF6_5500), Err(0x08));
}

#[test]
fn case_9_relative_address() {
    let mut bench = Bench::new();
    bench.put(0x1000, &[0xE610, 0xFFFE]);
    bench.machine.location = 0x1000;
    bench.done();
    assert_eq!(bench.register(1), 0x1002);
}

#[test]
fn case_10_shift_left() {
    let mut bench = Bench::new();
    bench.set(1, 0x8000_0001).instruct(&[0x1111]).done();
    assert_eq!((bench.register(1), bench.code()), (2, 0xA));
}

/// Sets register 1, does one instruction on it, and gives register 1 and the code.
fn one(value: u32, halfwords: &[u16]) -> (u32, u32) {
    let mut bench = Bench::new();
    bench.set(1, value).instruct(halfwords).done();
    (bench.register(1), bench.code())
}

#[test]
fn further_register_examples() {
    assert_eq!(one(0, &[0x2511]), (0xFFFF_FFFF, 1));
    assert_eq!(one(0x8000_0000, &[0x2711]), (0x7FFF_FFFF, 6));
    assert_eq!(one(0xFFFF_FFFF, &[0x2611]), (0, 8));
    assert_eq!(one(0xFFFF, &[0xC510, 0xFFFF]), (0xFFFF, 9));
    assert_eq!(one(0xFFFF_FFFF, &[0xC510, 0xFFFF]), (0xFFFF_FFFF, 0));
    assert_eq!(one(0xC000_0000, &[0xEF10, 1]), (0x8000_0000, 9));
    assert_eq!(one(0x8000_0000, &[0xEE10, 31]), (0xFFFF_FFFF, 1));
    assert_eq!(one(1, &[0xEC10, 1]), (0, 8));
}

#[test]
fn further_examples_of_add_halfword_to_memory() {
    for (memory, sum, code) in [(0xFFFF, 0, 8), (0x7FFF, 0x8000, 2)] {
        let mut bench = Bench::new();
        bench.set(1, 1).put(0x1000, &[memory]);
        bench.instruct(&[0x6110, 0x1000]).done();
        assert_eq!((bench.halfword(0x1000), bench.code()), (sum, code));
        assert_eq!(bench.register(1), 1);
    }
}

#[test]
fn store_multiple_reported_then_refused() {
    let mut bench = Bench::new();
    let status = RELOCATION | 0x9;
    // Real X'055FC' instead of X'655FC': the bench's store has 64 KB.
    bench.segment(0, OPEN).segment(1, 0x0000_5550);
    bench
        .set(14, 0x1234_5678)
        .set(15, 0x9ABC_DEF0)
        .set(1, 0x1_00FC);
    bench.status(status);
    bench.instruct(&[0xD0E1, 0x0000]);
    assert_eq!(bench.step(), Answer::Access);
    bench.assert_access(status, START, 0x12);
    assert_eq!(bench.fullword(0x55FC), 0x1234_5678);
    assert_eq!(bench.fullword(0x5600), 0);
}

#[test]
fn reported_store() {
    let mut bench = Bench::new();
    bench.segment(0, OPEN).segment(1, 0x0FF0_0050);
    bench
        .set(1, 0x1_1000)
        .set(2, 0x1234_5678)
        .status(RELOCATION);
    bench.instruct(&[0x5021, 0x0000]);
    assert_eq!(bench.step(), Answer::Access);
    bench.assert_access(RELOCATION, START + 4, 0x02);
    assert_eq!(bench.fullword(0x1000), 0x1234_5678);
}

#[test]
fn load_of_the_interrupt_status() {
    let mut bench = Bench::new();
    bench.machine.interrupt_status = 0x12;
    bench.instruct(&[0x5810, 0x0340]).done();
    assert_eq!((bench.register(1), bench.code()), (0x12, 2));
    assert_eq!(bench.machine.interrupt_status, 0);
}

#[test]
fn store_in_a_segmentation_register() {
    let mut bench = Bench::new();
    bench.set(1, 0xFFFF_FFFF);
    bench.instruct(&[0x5010, 0x0304]).done();
    assert_eq!(bench.machine.segments[1], 0x0FFF_FFF0);
    assert_eq!(bench.fullword(0x304), 0);
}
