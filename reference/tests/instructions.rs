//! What the instructions do, with relocation off.

mod common;

use common::*;
use reference::Answer;

/// Sets registers 1 and 2 and a code, does one instruction, and gives both registers and the code.
fn two(first: u32, second: u32, code: u32, halfwords: &[u16]) -> (u32, u32, u32) {
    let mut bench = Bench::new();
    bench.set(1, first).set(2, second).status(code);
    bench.instruct(halfwords).done();
    (bench.register(1), bench.register(2), bench.code())
}

/// The same, for register 1 and the code alone.
fn one(first: u32, second: u32, halfwords: &[u16]) -> (u32, u32) {
    let (register, _, code) = two(first, second, 0xF, halfwords);
    (register, code)
}

/// The five codes that do the same to a register, a halfword, a fullword and immediates.
fn family(digit: u16, first: u32, small: u16) -> Vec<(u32, u32)> {
    let extended = i32::from(small as i16) as u32;
    let high = (extended >> 16) as u16;
    let mut results = Vec::new();
    for halfwords in [
        vec![0x0012 | digit << 8],
        vec![0x4010 | digit << 8, 0x1002],
        vec![0x5010 | digit << 8, 0x1000],
        vec![0xC010 | digit << 8, small],
        vec![0xF010 | digit << 8, high, small],
    ] {
        let mut bench = Bench::new();
        bench.set(1, first).set(2, extended).status(0xF);
        bench.put_fullwords(0x1000, &[extended]);
        bench.instruct(&halfwords).done();
        results.push((bench.register(1), bench.code()));
    }
    results
}

fn assert_family(digit: u16, first: u32, small: u16, expected: (u32, u32)) {
    assert_eq!(family(digit, first, small), vec![expected; 5]);
}

#[test]
fn logical_families() {
    assert_family(0x4, 0x8000_1234, 0xFF00, (0x8000_1200, 1));
    assert_family(0x4, 0x0000_1234, 0x00FF, (0x34, 2));
    assert_family(0x4, 0x0000_1200, 0x00FF, (0, 0));
    assert_family(0x6, 0x0000_1234, 0x8000, (0xFFFF_9234, 1));
    assert_family(0x7, 0xFFFF_8000, 0x8000, (0, 0));
    assert_family(0x8, 0x1234_5678, 0x8001, (0xFFFF_8001, 1));
    assert_family(0x8, 0x1234_5678, 0x0000, (0, 0));
}

#[test]
fn compare_families() {
    assert_family(0x5, 1, 0xFFFF, (1, 9));
    assert_family(0x5, 0xFFFF_FFFF, 1, (0xFFFF_FFFF, 2));
    assert_family(0x5, 7, 7, (7, 0));
    assert_family(0x9, 1, 0xFFFF, (1, 2));
    assert_family(0x9, 0x8000_0000, 1, (0x8000_0000, 9));
    assert_family(0x9, 0xFFFF_8000, 0x8000, (0xFFFF_8000, 0));
}

#[test]
fn add_and_subtract_families() {
    assert_family(0xA, 0x7FFF_FFFF, 1, (0x8000_0000, 5));
    assert_family(0xA, 0x8000_0000, 0xFFFF, (0x7FFF_FFFF, 0xE));
    assert_family(0xA, 1, 0xFFFF, (0, 8));
    assert_family(0xB, 0, 1, (0xFFFF_FFFF, 9));
    assert_family(0xB, 0x7FFF_FFFF, 0xFFFF, (0x8000_0000, 0xD));
    assert_family(0xB, 0x8000_0000, 1, (0x7FFF_FFFF, 6));
    assert_family(0xB, 5, 5, (0, 0));
}

#[test]
fn tests_of_immediates() {
    assert_eq!(one(0x8000_0001, 0, &[0xC310, 0x8000]), (0x8000_0001, 1));
    assert_eq!(one(1, 0, &[0xC310, 0x0001]), (1, 2));
    assert_eq!(one(1, 0, &[0xF310, 0xFFFF, 0xFFFE]), (1, 0));
}

#[test]
fn short_numbers() {
    assert_eq!(one(0xFF, 0, &[0x2410]), (0, 0));
    assert_eq!(one(0xFF, 0, &[0x241F]), (15, 2));
    assert_eq!(one(0xFF, 0, &[0x251F]), (0xFFFF_FFF1, 1));
    assert_eq!(one(0xFF, 0, &[0x2510]), (0, 0));
}

#[test]
fn exchanges_and_bytes_keep_the_code() {
    let (a, b) = (0x0123_4567, 0x89AB_CDEF);
    assert_eq!(two(a, b, 5, &[0x3412]), (0xCDEF_89AB, b, 5));
    assert_eq!(two(a, b, 5, &[0x9412]), (0x0123_EFCD, b, 5));
    assert_eq!(two(a, b, 5, &[0x9411]), (0x0123_6745, b, 5));
    assert_eq!(two(a, b, 5, &[0x9312]), (0xEF, b, 5));
    assert_eq!(two(a, b, 5, &[0x9212]), (a, 0x89AB_CD67, 5));
}

#[test]
fn shifts_by_nothing() {
    for code in [0xEC, 0xED, 0xEE, 0xEF, 0xEA, 0xEB] {
        let instruction = [code << 8 | 0x10, 0xFFE0];
        assert_eq!(one(0x8000_0001, 0, &instruction), (0x8000_0001, 1));
        assert_eq!(one(0x4000_0001, 0, &instruction), (0x4000_0001, 2));
        assert_eq!(one(0, 0, &instruction), (0, 0));
    }
    assert_eq!(one(0x8000_0001, 0, &[0x1010]), (0x8000_0001, 1));
    assert_eq!(one(0x8000_0001, 0, &[0x1110]), (0x8000_0001, 1));
}

#[test]
fn shifts_by_31() {
    assert_eq!(one(0xC000_0000, 0, &[0xEC10, 31]), (1, 0xA));
    assert_eq!(one(0x8000_0000, 0, &[0xEC10, 31]), (1, 2));
    assert_eq!(one(0x0000_0003, 0, &[0xED10, 31]), (0x8000_0000, 9));
    assert_eq!(one(0x0000_0001, 0, &[0xED10, 31]), (0x8000_0000, 1));
    assert_eq!(one(0xC000_0000, 0, &[0xEE10, 31]), (0xFFFF_FFFF, 9));
    assert_eq!(one(0x4000_0000, 0, &[0xEE10, 31]), (0, 8));
    assert_eq!(one(0x7FFF_FFFF, 0, &[0xEF10, 31]), (0, 8));
    assert_eq!(one(0x8000_0001, 0, &[0xEF10, 31]), (0x8000_0000, 9));
    assert_eq!(one(0x8000_0000, 0, &[0xEF10, 31]), (0x8000_0000, 1));
    assert_eq!(one(0x8000_0001, 0, &[0xEA10, 31]), (3, 2));
    assert_eq!(one(0x8000_0001, 0, &[0xEB10, 31]), (0xC000_0000, 1));
}

#[test]
fn the_count_is_five_bits_of_the_operand() {
    assert_eq!(one(0x10, 0xFFFF_FFFF, &[0xEC12, 2]), (8, 2));
    assert_eq!(one(0x10, 0x1_0000, &[0xED12, 0x21]), (0x20, 2));
}

#[test]
fn short_shifts() {
    assert_eq!(one(0x0001_8000, 0, &[0x101F]), (3, 2));
    assert_eq!(one(0x0000_4000, 0, &[0x101F]), (0, 8));
    assert_eq!(one(0x0002_0001, 0, &[0x111F]), (0x8000, 0xA));
}

fn multiplied(r1: u16, r2: u16, registers: &[(usize, u32)]) -> (u32, u32) {
    let mut bench = Bench::new();
    for &(number, value) in registers {
        bench.set(number, value);
    }
    bench.instruct(&[0x1C00 | r1 << 4 | r2]).done();
    (bench.register(4), bench.register(5))
}

#[test]
fn products() {
    let product = |a, b| multiplied(4, 6, &[(5, a), (6, b)]);
    assert_eq!(product(0x8000_0000, 0x8000_0000), (0x4000_0000, 0));
    assert_eq!(
        product(0x7FFF_FFFF, 0x8000_0000),
        (0xC000_0000, 0x8000_0000)
    );
    assert_eq!(product(0xFFFF_FFFF, 0xFFFF_FFFF), (0, 1));
    // An odd number means the same pair, and the factor may lie in it.
    assert_eq!(multiplied(5, 6, &[(5, 3), (6, 7)]), (0, 21));
    assert_eq!(multiplied(4, 4, &[(4, 3), (5, 7)]), (0, 21));
    assert_eq!(multiplied(4, 5, &[(4, 3), (5, 7)]), (0, 49));
}

/// Divides a pair by DR and by D; gives remainder and quotient, or None for a fault.
fn divided(high: u32, low: u32, divisor: u32) -> Option<(u32, u32)> {
    let by_register = division(high, low, divisor, &[0x1D46]);
    let by_memory = division(high, low, divisor, &[0x5D50, 0x1000]);
    assert_eq!(by_register, by_memory);
    by_register
}

fn division(high: u32, low: u32, divisor: u32, halfwords: &[u16]) -> Option<(u32, u32)> {
    let mut bench = Bench::new();
    bench.set(4, high).set(5, low).set(6, divisor);
    bench.put_fullwords(0x1000, &[divisor]);
    bench.status(ARITHMETIC | 0xB).instruct(halfwords);
    match bench.step() {
        Answer::Done => {
            assert_eq!(bench.code(), 0xB);
            Some((bench.register(4), bench.register(5)))
        }
        answer => {
            assert_eq!(answer, Answer::Arithmetic);
            assert_eq!((bench.register(4), bench.register(5)), (high, low));
            None
        }
    }
}

#[test]
fn quotients_at_the_edges() {
    let minus_one = 0xFFFF_FFFF;
    let least = 0x8000_0000;
    assert_eq!(divided(least, 0, minus_one), None);
    assert_eq!(divided(least, 0, 1), None);
    assert_eq!(divided(least, 0, 0), None);
    assert_eq!(divided(least, 0, least), None);
    assert_eq!(divided(minus_one, least, 1), Some((0, least)));
    assert_eq!(divided(minus_one, least, minus_one), None);
    assert_eq!(divided(0, least, minus_one), Some((0, least)));
    assert_eq!(divided(0, least, 1), None);
    assert_eq!(divided(0, 0x7FFF_FFFF, 1), Some((0, 0x7FFF_FFFF)));
    // The remainder has the sign of the dividend.
    assert_eq!(divided(0, 7, -2i32 as u32), Some((1, -3i32 as u32)));
    assert_eq!(
        divided(minus_one, -7i32 as u32, -2i32 as u32),
        Some((minus_one, 3))
    );
    // -2^62 divided by -2^31 is 2^31, one too much; a little less is not.
    assert_eq!(divided(0xC000_0000, 0, least), None);
    assert_eq!(
        divided(0xC000_0000, 1, least),
        Some((0x8000_0001, 0x7FFF_FFFF))
    );
}

#[test]
fn branches_by_the_condition() {
    for code in 0..16u16 {
        for mask in 0..16u16 {
            let common = code & mask != 0;
            for (halfwords, on_true) in [
                (vec![0x0202 | mask << 4], true),
                (vec![0x0302 | mask << 4], false),
                (vec![0x4200 | mask << 4, 0x1000], true),
                (vec![0x4300 | mask << 4, 0x1000], false),
            ] {
                let mut bench = Bench::new();
                bench.set(2, 0xFFF0_1001).status(code.into());
                bench.instruct(&halfwords).done();
                let next = START + 2 * halfwords.len() as u32;
                let target = if common == on_true { 0x1000 } else { next };
                assert_eq!(bench.machine.location, target);
                assert_eq!(bench.machine.status, code.into());
            }
        }
    }
}

#[test]
fn short_branches_count_from_their_own_address() {
    for (halfword, location) in [
        (0x208F, START - 30),
        (0x218F, START + 30),
        (0x207F, START + 2),
        (0x217F, START + 2),
        (0x227F, START - 30),
        (0x237F, START + 30),
        (0x2300, START),
        (0x2000, START + 2),
    ] {
        let mut bench = Bench::new();
        bench.status(8).instruct(&[halfword]).done();
        assert_eq!(bench.machine.location, location, "{halfword:04X}");
    }
}

#[test]
fn a_short_branch_wraps() {
    let mut bench = Bench::new();
    bench.put(0, &[0x2202]);
    bench.machine.location = 0;
    bench.done();
    assert_eq!(bench.machine.location, 0xF_FFFC);
}

#[test]
fn branches_that_link() {
    let mut bench = Bench::new();
    bench.set(3, 0xFFF0_0C01).instruct(&[0x0133]).done();
    assert_eq!(bench.register(3), START + 2);
    assert_eq!(bench.machine.location, 0xC00);
    bench.set(3, 0x100).instruct(&[0x4133, 0x0C05]).done();
    assert_eq!(bench.register(3), START + 4);
    assert_eq!(bench.machine.location, 0xD04);
}

/// Does BXH or BXLE with register 15, and tells if it branched.
fn indexed(code: u16, value: u32, increment: u32, limit: u32) -> (u32, bool) {
    let mut bench = Bench::new();
    bench.set(15, value).set(0, increment).set(1, limit);
    bench.instruct(&[code << 8 | 0xF0, 0x1000]).done();
    (bench.register(15), bench.machine.location == 0x1000)
}

#[test]
fn index_branches_compare_unsigned() {
    assert_eq!(indexed(0xC0, 1, 1, 1), (2, true));
    assert_eq!(indexed(0xC0, 1, 1, 2), (2, false));
    assert_eq!(indexed(0xC0, 0xFFFF_FFFF, 0, 1), (0xFFFF_FFFF, true));
    assert_eq!(indexed(0xC0, 0, 1, 0xFFFF_FFFF), (1, false));
    assert_eq!(indexed(0xC0, 0xFFFF_FFFF, 2, 0), (1, true));
    assert_eq!(indexed(0xC1, 0xFFFF_FFFF, 0, 1), (0xFFFF_FFFF, false));
    assert_eq!(indexed(0xC1, 0, 1, 0x8000_0000), (1, true));
    assert_eq!(indexed(0xC1, 1, 1, 2), (2, true));
}

#[test]
fn index_branches_compute_their_address_first() {
    let mut bench = Bench::new();
    bench.set(3, 0x100).set(4, 0x100).set(5, 0x200);
    bench.instruct(&[0xC133, 0x1000]).done();
    assert_eq!(bench.machine.location, 0x1100);
    assert_eq!(bench.register(3), 0x200);
}

#[test]
fn stores() {
    let mut bench = Bench::new();
    bench.set(1, 0x0123_4567).status(7);
    bench.instruct(&[0x4010, 0x1001]).done();
    bench.instruct(&[0x5010, 0x1007]).done();
    assert_eq!(bench.fullword(0x1000), 0x4567_0000);
    assert_eq!(bench.fullword(0x1004), 0x0123_4567);
    assert_eq!(bench.code(), 7);
}

#[test]
fn byte_stores_leave_the_other_byte() {
    let mut bench = Bench::new();
    bench.set(1, 0xFFFF_FFAB).put(0x1000, &[0x1122, 0x3344]);
    bench.instruct(&[0xD210, 0x1000]).done();
    bench.instruct(&[0xD210, 0x1003]).done();
    assert_eq!(bench.fullword(0x1000), 0xAB22_33AB);
}

#[test]
fn byte_loads_and_compares() {
    let mut bench = Bench::new();
    bench.put(0x1000, &[0x80FF]).status(5).set(1, 0xFFFF_FF80);
    bench.instruct(&[0xD410, 0x1000]).done();
    assert_eq!(bench.code(), 0);
    bench.instruct(&[0xD410, 0x1001]).done();
    assert_eq!(bench.code(), 9);
    bench.instruct(&[0xD310, 0x1001]).done();
    assert_eq!((bench.register(1), bench.code()), (0xFF, 9));
    bench.instruct(&[0xD410, 0x1000]).done();
    assert_eq!(bench.code(), 2);
}

#[test]
fn load_halfword_logical_is_never_negative() {
    let mut bench = Bench::new();
    bench.put(0x1000, &[0xFFFF]).status(0xF);
    bench.instruct(&[0x7310, 0x1000]).done();
    assert_eq!((bench.register(1), bench.code()), (0xFFFF, 2));
    bench.instruct(&[0x7310, 0x1002]).done();
    assert_eq!((bench.register(1), bench.code()), (0, 0));
}

#[test]
fn add_to_memory() {
    let mut bench = Bench::new();
    bench.put_fullwords(0x1000, &[0x7FFF_FFFF]).set(1, 1);
    bench.instruct(&[0x5110, 0x1002]).done();
    assert_eq!((bench.fullword(0x1000), bench.code()), (0x8000_0000, 5));
    assert_eq!(bench.register(1), 1);
}

#[test]
fn test_and_set() {
    let mut bench = Bench::new();
    bench.put(0x1000, &[0x0001]).status(0xF);
    bench.instruct(&[0xE0F0, 0x1001]).done();
    assert_eq!((bench.halfword(0x1000), bench.code()), (0x8001, 0));
    bench.instruct(&[0xE000, 0x1000]).done();
    assert_eq!((bench.halfword(0x1000), bench.code()), (0x8001, 1));
}

#[test]
fn bit_arrays() {
    let mut bench = Bench::new();
    bench.set(1, 17).put(0x1000, &[0, 0x4000]).status(0xF);
    bench.instruct(&[0x7410, 0x1001]).done();
    assert_eq!(bench.code(), 2);
    bench.instruct(&[0x7610, 0x1000]).done();
    assert_eq!((bench.halfword(0x1002), bench.code()), (0, 2));
    bench.instruct(&[0x7710, 0x1000]).done();
    assert_eq!((bench.halfword(0x1002), bench.code()), (0x4000, 0));
    bench.instruct(&[0x7710, 0x1000]).done();
    assert_eq!((bench.halfword(0x1002), bench.code()), (0, 2));
    bench.set(1, 31).instruct(&[0x7510, 0x1000]).done();
    assert_eq!((bench.halfword(0x1002), bench.code()), (1, 0));
}

#[test]
fn bit_numbers_below_zero_go_backward() {
    let mut bench = Bench::new();
    bench.set(1, -1i32 as u32);
    bench.instruct(&[0x7510, 0x1000]).done();
    assert_eq!(bench.halfword(0xFFE), 1);
}

#[test]
fn load_multiple_stops_at_register_15() {
    let mut bench = Bench::new();
    bench
        .put_fullwords(0x1000, &[1, 2, 3, 4])
        .status(5)
        .set(13, 4);
    bench.instruct(&[0xD1DD, 0x0FFF]).done();
    assert_eq!(bench.machine.sets[0][13..], [1, 2, 3]);
    assert_eq!(bench.register(0), 0);
    assert_eq!(bench.code(), 5);
}

#[test]
fn store_multiple_stops_at_register_15() {
    let mut bench = Bench::new();
    bench.set(0, 9).set(14, 0x0123_4567).set(15, 0x89AB_CDEF);
    bench.instruct(&[0xD0E0, 0x1003]).done();
    assert_eq!(bench.fullword(0x1000), 0x0123_4567);
    assert_eq!(bench.fullword(0x1004), 0x89AB_CDEF);
    assert_eq!(bench.fullword(0x1008), 0);
}

#[test]
fn multiple_loads_of_all_registers() {
    let mut bench = Bench::new();
    let values: Vec<u32> = (100..116).collect();
    bench.put_fullwords(0x1000, &values);
    bench.instruct(&[0xD100, 0x1000]).done();
    assert_eq!(bench.machine.sets[0][..], values[..]);
}

#[test]
fn multiple_stores_wrap_at_the_end_of_addresses() {
    let mut bench = Bench::new();
    bench.set(15, 0x1234_5678).set(14, 1).set(2, 0xF_FFFC);
    bench.instruct(&[0xD0E2, 0x0000]).done();
    assert_eq!(bench.fullword(0), 0x1234_5678);
}

#[test]
fn unfitted_places_read_zero_and_lose_writes() {
    let mut bench = Bench::new();
    bench.set(1, 5).set(2, 0x1_0000);
    bench.instruct(&[0x5012, 0x0000]).done();
    bench.instruct(&[0x5812, 0x0000]).done();
    assert_eq!((bench.register(1), bench.code()), (0, 0));
}

#[test]
fn load_address_has_20_bits() {
    assert_eq!(one(0, 0xFFFF_FFFF, &[0xE612, 0x0000]).0, 0xF_FFFF);
}

#[test]
fn exchange_of_the_status() {
    let (first, second, code) = two(7, 0xABCD_00FA, 5, &[0x9512]);
    assert_eq!((first, second), (5, 0xABCD_00FA));
    assert_eq!(code, 0xA);
}

#[test]
fn exchange_of_the_status_with_equal_registers() {
    let mut bench = Bench::new();
    bench.status(0x1234_2005).set(3, 0xFFFF_FFFF);
    bench.instruct(&[0x9533]).done();
    assert_eq!(bench.register(3), 0x1234_2005);
    assert_eq!(bench.machine.status, 0x1234_2005);
}

#[test]
fn the_new_register_set_counts_from_the_next_instruction() {
    let mut bench = Bench::new();
    bench.set(2, SET_15);
    bench.put(START, &[0x9512, 0x2434]);
    bench.done().done();
    assert_eq!(bench.machine.sets[0][1], 0);
    assert_eq!(bench.machine.sets[1][3], 4);
    assert_eq!(bench.machine.sets[0][3], 0);
}

#[test]
fn loads_of_the_psw() {
    let mut bench = Bench::new();
    bench.set(15, 0xFFFF_7FFF).set(0, 0xFFFF_FFFF);
    bench.instruct(&[0x187F]).done();
    assert_eq!(bench.machine.status, 0xFFFF_7FFF);
    assert_eq!(bench.machine.location, 0xF_FFFE);

    let mut bench = Bench::new();
    bench.put_fullwords(0x1000, &[0x0000_8003, 0x0000_1235]);
    bench.instruct(&[0xC2F0, 0x1000]).done();
    assert_eq!(bench.machine.status, 0x8003);
    assert_eq!(bench.machine.location, 0x1234);
    assert_eq!(bench.step(), Answer::Waiting);
    assert_eq!(bench.machine.location, 0x1234);
}

#[test]
fn any_register_set_but_0_is_set_15() {
    for selection in 1..16 {
        let mut bench = Bench::new();
        bench.status(selection << 4).instruct(&[0x2417]).done();
        assert_eq!(bench.machine.sets[1][1], 7);
        assert_eq!(bench.machine.sets[0][1], 0);
    }
}
