//! Accesses with relocation on: every check, for every kind of access.

use super::*;
use crate::codes::Operand;
use crate::generate::writer::{first, ri1, ri2, rx1, rx2, rx3};

pub(super) fn add(tapes: &mut Tapes) {
    operands(tapes);
    relocated_places(tapes);
    fetches(tapes);
    fetches_at_the_limit(tapes);
    multiples_across(tapes);
    bit_arrays_across(tapes);
    wraps(tapes);
    wraps_of_branches(tapes);
    repeated(tapes);
}

/// A program address in segment 1, in block X'10'.
const OPERAND: u32 = 0x1_1004;

/// Each addressed code on a segment with each digit, below, at and above its limit.
fn operands(tapes: &mut Tapes) {
    for code in codes_of(Form::Rx) {
        for digit in 0..16 {
            for limit in [0x0F, 0x10, 0xFF] {
                for operand in [0x0040_1235, 0xFFFF_FFFF] {
                    let scene = Scene::relocated(varied_status(tapes.len()))
                        .segment(1, segment(limit, 0x020, digit))
                        .register(12, 5)
                        .register(13, 0x1234_5678)
                        .fullwords(0x3000, &[0x8000_0100, operand, 0x8001_7FFE]);
                    let ways = [Way::DirectIndexed, Way::RelativeIndexed, Way::Long];
                    let way = ways[tapes.len() % ways.len()];
                    tapes.extend(scene.reaching(way, code.number, 12, OPERAND));
                }
            }
        }
    }
}

/// Relocations that wrap, that leave the fitted places, and that lead to X'300'.
fn relocated_places(tapes: &mut Tapes) {
    for name in ["L", "ST", "STB", "LB", "AM", "STM", "LM", "SS"] {
        for relocation in [
            0x000, 0x0EF, 0x0F0, 0x0FF, 0x100, 0xFEF, 0xFF0, 0xFF3, 0xFFF,
        ] {
            for digit in [0x1, 0x5] {
                let scene = Scene::relocated(varied_status(tapes.len()));
                let scene = scene
                    .all_registers()
                    .segment(1, segment(0xFF, relocation, digit))
                    .fullwords(0x304, &[0x1111_2222, 0x3333_4444]);
                tapes.extend(scene.reaching(Way::Long, code(name), 12, OPERAND));
            }
        }
    }
}

/// One instruction of each length and kind.
fn samples() -> Vec<Vec<u16>> {
    vec![
        vec![first(code("LR"), 1, 2)],
        vec![first(code("AIS"), 1, 2)],
        vec![0x0000],
        vec![first(code("LPSWR"), 1, 2)],
        rx1(code("L"), 1, 0, 0x1000),
        rx2(code("LA"), 1, 0, -6),
        rx3(code("LA"), 1, 0, 0, 0x1_2345),
        rx3(code("BFC"), 15, 0, 0, 0x1_2345),
        rx3(code("BAL"), 15, 0, 0, 0x1_2345),
        rx3(code("SVC"), 15, 0, 0, 0x1_2345),
        rx1(code("LPSW"), 1, 0, 0x1000),
        ri1(code("LHI"), 1, 0, 0x8001),
        ri2(code("LI"), 1, 0, 0x8001_7FFF),
        vec![0xFF00, 0xFFFF, 0xFFFF],
    ]
}

/// Instructions that begin in segment 0 and go on in segment 1, whose places are X'8000' and on.
fn fetches(tapes: &mut Tapes) {
    for halfwords in samples() {
        for digit in 0..16 {
            for before in 0..=2 {
                for protection in [0, PROTECTION] {
                    let status = varied_status(tapes.len()) | protection;
                    let inside = before.min(halfwords.len());
                    let own = 0x1_0000 - 2 * before as u32;
                    let scene = Scene::relocated(status)
                        .segment(1, segment(0x40, 0x080, digit))
                        .halfwords(own & 0xFFFF, &halfwords[..inside])
                        .halfwords(0x8000, &halfwords[inside..]);
                    tapes.push(scene.run(own, 1));
                }
            }
        }
    }
}

/// Instructions that go on in the block above the limit.
fn fetches_at_the_limit(tapes: &mut Tapes) {
    for halfwords in samples() {
        for own in [0x1_40FA, 0x1_40FC, 0x1_40FE, 0x1_4100] {
            for (limit, digit) in [(0x40, 0x1), (0x41, 0x1), (0x40, 0x0), (0x40, 0x9)] {
                let scene = Scene::relocated(varied_status(tapes.len()))
                    .segment(1, segment(limit, 0x000, digit))
                    .halfwords(own & 0xFFFF, &halfwords);
                tapes.push(scene.run(own, 1));
            }
        }
    }
}

/// LM and STM that go on from one segment to the next, or over a limit.
fn multiples_across(tapes: &mut Tapes) {
    for name in ["LM", "STM"] {
        for first_digit in [0x1, 0x3, 0x5] {
            for second_digit in 0..16 {
                let scene = Scene::relocated(varied_status(tapes.len()))
                    .all_registers()
                    .segment(1, segment(0xFF, 0x000, first_digit))
                    .segment(2, segment(0xFF, 0x080, second_digit))
                    .fullwords(0xFFF8, &[0x0102_0304, 0x0506_0708])
                    .fullwords(0x8000, &[0x1112_1314, 0x1516_1718]);
                tapes.extend(scene.reaching(Way::Long, code(name), 12, 0x1_FFF8));
            }
        }
        for digit in [0x1, 0x3, 0x5, 0x7, 0x0] {
            for limit in 0..3 {
                let scene = Scene::relocated(varied_status(tapes.len()))
                    .all_registers()
                    .segment(1, segment(limit, 0x020, digit))
                    .fullwords(0x20F4, &[1, 2, 3, 4, 5, 6]);
                tapes.extend(scene.reaching(Way::Long, code(name), 10, 0x1_00F5));
            }
        }
    }
}

/// Bit arrays whose bit lies in another segment than their address.
fn bit_arrays_across(tapes: &mut Tapes) {
    for name in ["TBT", "SBT", "RBT", "CBT"] {
        for digit in 0..16 {
            for bit in [
                8 * 0x1_0000 + 3,
                0x8000_0000 + 8 * 0x1_0000,
                0u32.wrapping_sub(5),
            ] {
                let scene = Scene::relocated(varied_status(tapes.len()))
                    .segment(1, segment(0xFF, 0x000, digit))
                    .register(3, bit)
                    .halfwords(DATA - 2, &[0xFFFF, 0x1000]);
                tapes.extend(scene.reaching(Way::Direct, code(name), 3, DATA));
            }
        }
    }
}

/// Instructions and operands around the end of the addresses.
fn wraps(tapes: &mut Tapes) {
    for halfwords in samples() {
        for own in [0xF_FFFAu32, 0xF_FFFC, 0xF_FFFE] {
            let scene = Scene::relocated(varied_status(tapes.len())).all_open();
            let scene = scene.fullwords(DATA, &[0x0000_0405, 0x000F_FFFE]);
            let place = |number: usize| (own + 2 * number as u32) & 0xFFFF;
            let scene = (0..halfwords.len()).fold(scene, |scene, number| {
                scene.halfwords(place(number), &halfwords[number..=number])
            });
            tapes.push(scene.run(own, 2));
        }
    }
    for code in codes_of(Form::Rx).filter(|code| code.operand != Operand::Byte) {
        for address in [0xF_FFF8, 0xF_FFFC, 0xF_FFFE, 0xF_FFFF] {
            for relocation in [0, RELOCATION] {
                let scene = Scene::new(varied_status(tapes.len()) | relocation).all_open();
                let scene = scene
                    .all_registers()
                    .register(13, 77)
                    .fullwords(0xFFF8, &[0x0102_0304, 0x8506_0708]);
                tapes.extend(scene.reaching(Way::Long, code.number, 13, address));
            }
        }
    }
}

/// Branches over the end of the addresses, forward and backward.
fn wraps_of_branches(tapes: &mut Tapes) {
    for (name, own) in [
        ("BFFS", 0xF_FFFC),
        ("BFFS", 0xF_FFFE),
        ("BFBS", 0x0_0000),
        ("BFBS", 0x0_0002),
        ("BALR", 0xF_FFFE),
    ] {
        for number in 0..16 {
            let scene = Scene::relocated(0).all_open().register(number, 0xFFFF_FFFF);
            let scene = scene.halfwords(own & 0xFFFF, &[first(code(name), 0, number)]);
            tapes.push(scene.run(own, 1));
        }
    }
}

/// Faults one after the other, so that their bits gather in the interrupt status.
fn repeated(tapes: &mut Tapes) {
    const KINDS: [(&str, u32); 5] = [
        ("L", segment(0x0F, 0, 0x1)),
        ("L", segment(0xFF, 0, 0x0)),
        ("ST", segment(0xFF, 0, 0x3)),
        ("ST", segment(0xFF, 0, 0x5)),
        ("BFC", segment(0xFF, 0, 0x9)),
    ];
    for first_kind in KINDS {
        for second_kind in KINDS {
            let mut scene = Scene::relocated(0);
            for (name, register) in [first_kind, second_kind] {
                let halfwords = rx3(code(name), 0, 0, 0, OPERAND);
                scene = scene
                    .segment(1, register)
                    .halfwords(START, &halfwords)
                    .go(START, 2);
            }
            tapes.push(scene.finish());
        }
    }
}
