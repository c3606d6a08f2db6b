//! Small programs that run for a while, and programs that alter themselves.

use super::*;
use crate::generate::writer::{first, ri1, rx1, rx2, rx3};

pub(super) fn add(tapes: &mut Tapes) {
    filling(tapes);
    subroutine(tapes);
    altered(tapes);
    long_run(tapes);
}

/// A loop over memory by BXLE, with steps of several sizes.
fn filling(tapes: &mut Tapes) {
    for increment in [2, 4, 6, 254] {
        for name in ["ST", "STH", "STB", "AM", "AHM", "TS", "CBT"] {
            let program = [
                rx1(code(name), 1, 1, 0),
                vec![first(code("AIS"), 4, 3)],
                rx2(code("BXLE"), 1, 0, -10),
                vec![0x0000],
            ];
            let scene = Scene::new(0)
                .register(1, 0x2000)
                .register(2, increment)
                .register(3, 0x2800)
                .halfwords(START, &program.concat());
            tapes.push(scene.run(START, 5000));
        }
    }
}

/// Factorials by a subroutine that calls itself.
fn subroutine(tapes: &mut Tapes) {
    for argument in 0..14 {
        let main = [rx1(code("BAL"), 15, 0, 0xB00), vec![0x0000]];
        let factorial = [
            // Push the return address and the argument.
            rx1(code("STM"), 14, 13, 0),
            ri1(code("AHI"), 13, 0, 8),
            // Above 1: call for one less, then multiply.
            ri1(code("CHI"), 14, 0, 1),
            vec![first(code("BFFS"), 2, 8)],
            vec![first(code("SIS"), 14, 1)],
            rx1(code("BAL"), 15, 0, 0xB00),
            rx3(code("M"), 2, 13, 0, 0xFF_FFF8),
            vec![first(code("BFFS"), 0, 3)],
            // Else: the result is 1.
            vec![first(code("LIS"), 3, 1)],
            vec![first(code("LIS"), 2, 0)],
            // Pop and return.
            ri1(code("SHI"), 13, 0, 8),
            rx1(code("LM"), 14, 13, 0),
            vec![first(code("BFCR"), 0, 15)],
        ];
        let scene = Scene::new(0)
            .register(13, 0x4000)
            .register(14, argument)
            .halfwords(START, &main.concat())
            .halfwords(0xB00, &factorial.concat());
        tapes.push(scene.run(START, 400));
    }
}

/// Instructions that write over the next instruction: nothing is fetched ahead.
fn altered(tapes: &mut Tapes) {
    for name in ["ST", "STH", "STB", "AM", "AHM", "TS", "SBT", "CBT"] {
        for value in [0x2425_2436, 0x0000_0003, 0x9512_9621, 0x0000_000F] {
            for distance in [-4, -2, 0, 1, 2] {
                let program = [
                    rx2(code(name), 1, 0, distance),
                    vec![0x2411, 0x2422, 0x2433, 0x2444],
                ];
                let scene = Scene::new(varied_status(tapes.len()) & !ARITHMETIC)
                    .register(1, value)
                    .halfwords(START, &program.concat());
                tapes.push(scene.run(START, 4));
            }
        }
    }
    // With relocation, two segments may show the same places.
    let program = [rx3(code("ST"), 1, 0, 0, 0x1_0A06), vec![0x2422, 0x2433]];
    let scene = Scene::relocated(0)
        .segment(1, OPEN)
        .register(1, 0x2644_2755)
        .halfwords(START, &program.concat());
    tapes.push(scene.run(START, 3));
}

/// The longest run, in a loop that changes a register at every turn.
fn long_run(tapes: &mut Tapes) {
    let program = [0x2611, first(code("BFBS"), 0, 1)];
    let scene = Scene::new(0).halfwords(START, &program);
    tapes.push(scene.run(START, 1_000_000));
}
