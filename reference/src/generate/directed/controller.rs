//! The controller's registers at X'300' to X'3FF' with relocation off; with relocation on, the
//! same addresses are ordinary store.

use super::*;
use crate::generate::writer::{first, ri2, rx1, rx3};

pub(super) fn add(tapes: &mut Tapes) {
    operands(tapes);
    fetches(tapes);
    fetches_across(tapes);
    loaded_segments(tapes);
    ordinary_store(tapes);
}

impl Scene {
    /// Makes five faults, so that the interrupt status has all its bits, then goes on with
    /// relocation off.
    fn with_interrupt_status(self) -> Scene {
        let status = self.status;
        let program = [
            rx3(code("L"), 0, 0, 0, 0x1_2000),
            rx3(code("L"), 0, 0, 0, 0x2_2000),
            rx3(code("ST"), 0, 0, 0, 0x3_2000),
            rx3(code("ST"), 0, 0, 0, 0x4_2000),
        ];
        let mut scene = self
            .with_status(RELOCATION)
            .segment(0, OPEN)
            .segment(1, segment(0x0F, 0, 0x1))
            .segment(2, segment(0xFF, 0, 0x0))
            .segment(3, segment(0xFF, 0, 0x3))
            .segment(4, segment(0xFF, 0, 0x5))
            .segment(5, segment(0xFF, 0, 0x9));
        for halfwords in program {
            scene = scene.halfwords(START, &halfwords).go(START, 1);
        }
        scene.go(0x5_2000, 1).with_status(status)
    }
}

/// Addresses of bytes in and around the controller.
fn places() -> impl Iterator<Item = u32> {
    (0x2FC..0x30C).chain(0x338..0x34C).chain(0x3F8..0x404)
}

/// Every addressed code that reads or writes, at every such address.
fn operands(tapes: &mut Tapes) {
    for code in codes_of(Form::Rx) {
        for address in places() {
            for value in [0xFFFF_FFFF, 0x0000_0011] {
                let scene = Scene::new(varied_status(tapes.len()))
                    .with_interrupt_status()
                    .segment(0, 0x0123_4560)
                    .segment(15, 0x0FED_CBA0)
                    .fullwords(0x2F8, &[0x1111_1111, 0x2222_2222])
                    .fullwords(0x400, &[0x3333_3333, 0x4444_4444])
                    .register(13, value)
                    .register(14, !value)
                    .register(15, 0x5A5A_5A5A);
                tapes.extend(scene.reaching(Way::Direct, code.number, 13, address));
            }
        }
    }
}

/// Instructions that are fetched from segmentation registers.
fn fetches(tapes: &mut Tapes) {
    let shorts = [0x0812_0A30, 0x0132_0A30, 0x0A12_0B10, 0x0521_0750];
    for value in shorts {
        for location in [0x300, 0x302, 0x33C, 0x33E] {
            let scene = Scene::new(varied_status(tapes.len()))
                .all_registers()
                .segment(0, value)
                .segment(15, value);
            tapes.push(scene.run(location, 3));
        }
    }
    for location in [0x300, 0x33E, 0x340, 0x342, 0x344, 0x3FE] {
        let scene = Scene::new(0).with_interrupt_status().segment(15, 0);
        tapes.push(scene.run(location, 1));
    }
}

/// Instructions that lie partly in the controller. LI at X'33E' has the interrupt status as its
/// third halfword.
fn fetches_across(tapes: &mut Tapes) {
    let long = ri2(code("LI"), 3, 0, 0x1234_5678);
    for register in ["LI", "AI", "L", "LHI", "SVC", "LA"] {
        let head = u32::from(first(code(register), 3, 0));
        let scene = Scene::new(varied_status(tapes.len())).with_interrupt_status();
        tapes.push(scene.segment(15, 0x0ABC_0000 | head).run(0x33E, 1));
        for own in [0x2FC, 0x2FE, 0x3FC, 0x3FE] {
            let scene = Scene::new(varied_status(tapes.len()))
                .segment(0, 0x0123_4560)
                .halfwords(own, &long)
                .halfwords(own, &[head as u16])
                .halfwords(0x400, &[0x1357, 0x2468]);
            tapes.push(scene.run(own, 1));
        }
    }
}

/// A program loads all segmentation registers by STM, turns relocation on and uses them.
fn loaded_segments(tapes: &mut Tapes) {
    for digit in 0..16 {
        let program = [
            rx1(code("STM"), 0, 0, 0x300),
            rx1(code("LPSW"), 0, 0, 0x0E00),
            vec![0x0000],
        ];
        let scene = Scene::new(0)
            .register(0, OPEN)
            .register(1, segment(0x3F, 0xFF0 + digit, digit) | 0xA000_0005)
            .register(2, 0xFFFF_FFFF)
            .fullwords(0x0E00, &[RELOCATION, 0x1_2000])
            .halfwords(
                0x1000 + 0x100 * digit,
                &[0x2411, 0x5010, 0x0320, 0x5820, 0x0320],
            )
            .halfwords(START, &program.concat());
        tapes.push(scene.run(START, 6));
    }
}

/// With relocation on, fetches, reads and writes at these addresses reach the store.
fn ordinary_store(tapes: &mut Tapes) {
    for location in [0x2FE, 0x300, 0x33E, 0x340, 0x342, 0x3FE] {
        let scene = Scene::new(RELOCATION | 3)
            .with_interrupt_status()
            .halfwords(location, &ri2(code("LI"), 3, 0, 0x1234_5678));
        tapes.push(scene.run(location, 1));
    }
    for name in ["L", "LB", "ST", "STB", "AM", "TS", "LM", "STM"] {
        for address in places() {
            let scene = Scene::new(RELOCATION | 3)
                .with_interrupt_status()
                .all_registers()
                .fullwords(0x340, &[0x1122_3344, 0x5566_7788]);
            tapes.extend(scene.reaching(Way::Direct, code(name), 14, address));
        }
    }
}
