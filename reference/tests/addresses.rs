//! Instruction forms and the addresses they make.

mod common;

use common::*;
use reference::codes::{self, Code, Form, TABLE};
use reference::Answer;

/// The address that LA delivers for an instruction whose code is left out.
fn address(own: u32, first: u16, rest: &[u16], registers: &[(usize, u32)]) -> u32 {
    let mut bench = Bench::new();
    for &(number, value) in registers {
        bench.set(number, value);
    }
    // Relocation makes the 20-bit program addresses reach the bench's 64 KB.
    for number in 0..16 {
        bench.segment(number, OPEN);
    }
    bench.status(RELOCATION);
    let halfwords = [&[0xE610 | first & 0xF], rest].concat();
    for (index, halfword) in halfwords.into_iter().enumerate() {
        bench.put((own + 2 * index as u32) & 0xFFFF, &[halfword]);
    }
    bench.machine.location = own;
    bench.done();
    bench.register(1)
}

#[test]
fn examples_of_addresses() {
    assert_eq!(address(START, 3, &[0x0100], &[(3, 0x1000)]), 0x1100);
    assert_eq!(address(START, 3, &[0x3FFC], &[(3, 0xFFFF_FFFC)]), 0x3FF8);
    assert_eq!(address(0x1000, 0, &[0xFFFE], &[]), 0x1002);
    assert_eq!(address(0x2000, 4, &[0x8040], &[(4, 0x20)]), 0x2064);
    assert_eq!(address(0xF_FFFC, 0, &[0x8010], &[]), 0x10);
    let both = [(9, 0x1000), (5, 8)];
    assert_eq!(address(START, 9, &[0x4500, 0x0420], &both), 0x1428);
    assert_eq!(address(START, 0, &[0x42FF, 0xFFFE], &[(2, 4)]), 2);
}

#[test]
fn register_0_is_no_index() {
    assert_eq!(address(START, 0, &[0x0100], &[(0, 0x1000)]), 0x100);
    assert_eq!(address(START, 0, &[0x4000, 0x0100], &[(0, 0x1000)]), 0x100);
}

#[test]
fn bits_2_and_3_of_the_long_form_are_ignored() {
    assert_eq!(address(START, 0, &[0x7200, 0x0100], &[(2, 4)]), 0x104);
}

#[test]
fn extremes_of_the_relative_form() {
    assert_eq!(address(0x8000, 0, &[0xC000], &[]), 0x8004 - 0x4000);
    assert_eq!(address(0x8000, 0, &[0xBFFF], &[]), 0x8004 + 0x3FFF);
}

#[test]
fn immediate_operands() {
    let mut bench = Bench::new();
    bench
        .set(2, 5)
        .set(4, 10)
        .instruct(&[0xCA42, 0xFFFF])
        .done();
    assert_eq!(bench.register(4), 14);
    bench.instruct(&[0xF830, 0x1234, 0x5678]).done();
    assert_eq!(bench.register(3), 0x1234_5678);
    assert_eq!(bench.machine.location, START + 6);
}

#[test]
fn an_instruction_wraps_around_the_end_of_addresses() {
    let mut bench = Bench::new();
    for number in 0..16 {
        bench.segment(number, OPEN);
    }
    bench.status(RELOCATION);
    bench.put(0xFFFE, &[0xF830]).put(0, &[0x1234, 0x5678]);
    bench.machine.location = 0xF_FFFE;
    bench.done();
    assert_eq!(bench.register(3), 0x1234_5678);
    assert_eq!(bench.machine.location, 4);
}

#[test]
fn alignment_drops_low_bits() {
    let mut bench = Bench::new();
    bench.put_fullwords(0x1000, &[0x0123_4567, 0x89AB_CDEF]);
    bench.instruct(&[0x5810, 0x1007]).done();
    assert_eq!(bench.register(1), 0x89AB_CDEF);
    bench.instruct(&[0x4810, 0x1003]).done();
    assert_eq!(bench.register(1), 0x4567);
    bench.instruct(&[0xD310, 0x1003]).done();
    assert_eq!(bench.register(1), 0x67);
    bench.instruct(&[0xE610, 0x1003]).done();
    assert_eq!(bench.register(1), 0x1003);
    bench.put_fullwords(0x1000, &[0xF0, 0x0C00]);
    bench.instruct(&[0xC200, 0x1007]).done();
    assert_eq!(
        (bench.machine.status, bench.machine.location),
        (0xF0, 0xC00)
    );
}

#[test]
fn the_table_is_in_order_and_complete() {
    assert!(TABLE.windows(2).all(|pair| pair[0].number < pair[1].number));
    for code in TABLE {
        assert_eq!(codes::find(code.number), Some(&code));
    }
    let legal = (0..=255).filter(|&number| codes::find(number).is_some());
    assert_eq!(legal.count(), 102);
}

/// The illegal codes, written as ranges.
const ILLEGAL: [(u8, u8); 23] = [
    (0x00, 0x00),
    (0x0C, 0x0F),
    (0x12, 0x17),
    (0x19, 0x1B),
    (0x1E, 0x1F),
    (0x28, 0x33),
    (0x35, 0x3F),
    (0x4C, 0x4F),
    (0x52, 0x53),
    (0x5E, 0x60),
    (0x62, 0x72),
    (0x78, 0x91),
    (0x96, 0x99),
    (0x9C, 0x9C),
    (0x9F, 0xBF),
    (0xCC, 0xCF),
    (0xD5, 0xD9),
    (0xDC, 0xDC),
    (0xDF, 0xDF),
    (0xE2, 0xE5),
    (0xE7, 0xE9),
    (0xF0, 0xF2),
    (0xFC, 0xFF),
];

#[test]
fn every_other_code_is_illegal() {
    for number in 0..=255u8 {
        let listed = ILLEGAL
            .iter()
            .any(|&(first, last)| (first..=last).contains(&number));
        let mut bench = Bench::new();
        bench.instruct(&[u16::from(number) << 8]);
        let illegal = bench.step() == Answer::Illegal;
        assert_eq!(illegal, listed, "code {number:02X}");
    }
}

#[test]
fn the_form_decides_the_length() {
    for code in TABLE.iter().filter(|code| !goes_elsewhere(code)) {
        let mut bench = Bench::new();
        bench.instruct(&[u16::from(code.number) << 8, 0x4000, 0x1000]);
        bench.done();
        let length = match code.form {
            Form::Rr | Form::Sf => 2,
            Form::Ri1 => 4,
            Form::Rx | Form::Ri2 => 6,
        };
        assert_eq!(bench.machine.location, START + length, "{}", code.name);
    }
}

/// Branches, loads of the PSW and supervisor calls.
fn goes_elsewhere(code: &Code) -> bool {
    code.name.starts_with('B') || ["LPSWR", "LPSW", "SVC"].contains(&code.name)
}
