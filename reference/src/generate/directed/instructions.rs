//! Every code in every form, with relocation off.

use super::*;
use crate::generate::writer::{first, ri1, ri2, WAYS};

pub(super) fn add(tapes: &mut Tapes) {
    every_number(tapes);
    two_registers(tapes);
    one_register_twice(tapes);
    short_numbers(tapes);
    conditions(tapes);
    addressed(tapes);
    alignments(tapes);
    addresses(tapes);
    immediate_halfwords(tapes);
    immediate_fullwords(tapes);
    index_branches(tapes);
    multiples(tapes);
    bit_arrays(tapes);
    status_bits(tapes);
}

/// All 256 numbers, with and without protection, with second halfwords for all three RX forms.
fn every_number(tapes: &mut Tapes) {
    for number in 0..=255 {
        for status in [0x5, PROTECTION | SET_15 | 0xA] {
            for second in [0x1000, 0x8020, 0x4000] {
                let scene = Scene::new(status).all_registers();
                let scene = scene.fullwords(DATA, &[0x0000_0123, 0x0000_0C80]);
                tapes.push(scene.instruction(&[first(number, 2, 3), second, 0x1000]));
            }
        }
    }
}

fn two_registers(tapes: &mut Tapes) {
    for code in codes_of(Form::Rr) {
        for a in EDGES {
            for b in EDGES {
                let scene = Scene::new(varied_status(tapes.len()));
                let scene = scene.register(1, a).register(2, b).register(3, 0x000A_BCDE);
                tapes.push(scene.instruction(&[first(code.number, 1, 2)]));
            }
        }
    }
}

fn one_register_twice(tapes: &mut Tapes) {
    for code in codes_of(Form::Rr) {
        for a in EDGES {
            for number in [0, 5, 15] {
                let scene = Scene::new(varied_status(tapes.len())).all_registers();
                let scene = scene.register(number, a);
                tapes.push(scene.instruction(&[first(code.number, number, number)]));
            }
        }
    }
}

fn short_numbers(tapes: &mut Tapes) {
    for code in codes_of(Form::Sf) {
        for number in 0..16 {
            for a in EDGES {
                let scene = Scene::new(varied_status(tapes.len())).register(1, a);
                tapes.push(scene.instruction(&[first(code.number, 1, number)]));
            }
        }
    }
}

/// Every mask with every condition code.
fn conditions(tapes: &mut Tapes) {
    for name in ["BTCR", "BFCR", "BTBS", "BTFS", "BFBS", "BFFS", "BTC", "BFC"] {
        for mask in 0..16 {
            for condition in 0..16 {
                let scene = Scene::new(condition).register(7, 0xFFFF_1235);
                tapes.push(scene.instruction(&[first(code(name), mask, 7), 0x0124]));
            }
        }
    }
}

fn addressed(tapes: &mut Tapes) {
    for code in codes_of(Form::Rx) {
        for way in WAYS {
            for a in FEW {
                for b in FEW {
                    let scene = Scene::new(varied_status(tapes.len())).register(1, a);
                    let scene = scene.fullwords(DATA, &[b, !b, 3]);
                    tapes.extend(scene.reaching(way, code.number, 1, DATA));
                }
            }
        }
    }
}

fn alignments(tapes: &mut Tapes) {
    const PATTERN: [u32; 6] = [
        0x1122_3344,
        0x5566_7788,
        0x8899_AABB,
        0xCCDD_EEFF,
        0x0102_0304,
        0xFEDC_BA98,
    ];
    for code in codes_of(Form::Rx) {
        for offset in 0..16 {
            for a in [3, 0xFFFF_FFFC] {
                let scene = Scene::new(varied_status(tapes.len()));
                let scene = scene.register(14, a).fullwords(DATA, &PATTERN);
                let tape = scene.reaching(Way::Direct, code.number, 14, DATA + offset);
                tapes.extend(tape);
            }
        }
    }
}

/// Addresses at their edges, in every way, as LA, BAL and SVC show them.
fn addresses(tapes: &mut Tapes) {
    /// Second halfwords of all three forms, with and without a second index.
    const SECONDS: [u16; 10] = [
        0x0000, 0x3FFF, 0x8000, 0xBFFF, 0xC000, 0xFFFF, 0x4AFF, 0x7A00, 0x7000, 0x50FF,
    ];
    for name in ["LA", "BAL", "SVC"] {
        for way in WAYS {
            for address in [0, 1, 2, START, 0x3FFF, 0x4000, 0xFFFF, 0x1_0000, 0xF_FFFF] {
                let scene = Scene::new(varied_status(tapes.len()));
                tapes.extend(scene.reaching(way, code(name), 10, address));
            }
        }
        for index in EDGES {
            for second in SECONDS {
                for x2 in [0, 10] {
                    let scene = Scene::new(varied_status(tapes.len()));
                    let scene = scene.register(0, 0x0055_5555).register(10, index);
                    tapes.push(scene.instruction(&[first(code(name), 1, x2), second, 0xFFFF]));
                }
            }
        }
    }
}

fn immediate_halfwords(tapes: &mut Tapes) {
    for code in codes_of(Form::Ri1) {
        for a in EDGES {
            for immediate in [0, 1, 0x1F, 0x20, 0x7FFF, 0x8000, 0xFFFF] {
                for (index, value) in [(0, 5), (2, 0), (2, 0xFFFF_FFFF), (1, a)] {
                    let scene = Scene::new(varied_status(tapes.len()));
                    let scene = scene.register(index, value).register(1, a);
                    tapes.push(scene.instruction(&ri1(code.number, 1, index, immediate)));
                }
            }
        }
    }
}

fn immediate_fullwords(tapes: &mut Tapes) {
    for code in codes_of(Form::Ri2) {
        for a in EDGES {
            for immediate in EDGES {
                for (index, value) in [(0, 5), (2, 0x8000_0001)] {
                    let scene = Scene::new(varied_status(tapes.len()));
                    let scene = scene.register(1, a).register(index, value);
                    tapes.push(scene.instruction(&ri2(code.number, 1, index, immediate)));
                }
            }
        }
    }
}

fn index_branches(tapes: &mut Tapes) {
    for name in ["BXH", "BXLE"] {
        for r1 in [3u8, 14, 15] {
            for value in FEW {
                for increment in FEW {
                    for limit in FEW {
                        let scene = Scene::new(varied_status(tapes.len()));
                        let scene = scene
                            .register(r1, value)
                            .register((r1 + 1) % 16, increment)
                            .register((r1 + 2) % 16, limit);
                        // The register that is stepped is the index too.
                        tapes.push(scene.instruction(&[first(code(name), r1, r1), 0x1234]));
                    }
                }
            }
        }
    }
}

fn multiples(tapes: &mut Tapes) {
    let values: Vec<u32> = (0..16)
        .map(|n| 0x0102_0304u32.wrapping_mul(n + 77))
        .collect();
    for name in ["LM", "STM"] {
        for r1 in 0..16 {
            for way in WAYS {
                let scene = Scene::new(varied_status(tapes.len())).all_registers();
                let scene = scene.fullwords(DATA, &values);
                tapes.extend(scene.reaching(way, code(name), r1, DATA + 2));
            }
            // The last fitted places and the first that are not.
            let scene = Scene::new(varied_status(tapes.len())).all_registers();
            let scene = scene.fullwords(0xFFF0, &values[..4]);
            tapes.extend(scene.reaching(Way::Long, code(name), r1, 0xFFF0));
            // A multiple that goes over its own instruction.
            let scene = Scene::new(varied_status(tapes.len())).all_registers();
            tapes.extend(scene.reaching(Way::Direct, code(name), r1, START - 8));
        }
    }
}

fn bit_arrays(tapes: &mut Tapes) {
    const BITS: [u32; 20] = [
        0,
        1,
        7,
        8,
        14,
        15,
        16,
        17,
        31,
        32,
        255,
        0x7FFF,
        0x7F_FFFF,
        0x80_0000,
        0x7FFF_FFFF,
        0x8000_0000,
        0xFFFF_FFEF,
        0xFFFF_FFF0,
        0xFFFF_FFF7,
        0xFFFF_FFFF,
    ];
    for name in ["TBT", "SBT", "RBT", "CBT"] {
        for bit in BITS {
            for pattern in [0, 0xFFFF_FFFF, 0xA5C3_5A3C] {
                for offset in 0..2 {
                    let scene = Scene::new(varied_status(tapes.len())).register(1, bit);
                    let scene = scene.fullwords(DATA - 4, &[pattern, pattern, pattern]);
                    tapes.extend(scene.reaching(Way::Direct, code(name), 1, DATA + offset));
                }
            }
        }
    }
}

/// Each status bit alone, and all but it, over a few steps of a small program.
fn status_bits(tapes: &mut Tapes) {
    let program = [0x2611, 0x1D24, 0xCA10, 0x0003, 0xE180, 0x0123];
    for bit in 0..32 {
        for status in [1 << bit, !(1 << bit), 0xFFFF_0FFF & !(1 << bit)] {
            let scene = Scene::new(status).all_open();
            tapes.push(scene.halfwords(START, &program).run(START, 6));
        }
    }
}
