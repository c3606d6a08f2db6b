//! Shifts, products and quotients at their edges.

use super::*;
use crate::generate::writer::{first, ri1};

pub(super) fn add(tapes: &mut Tapes) {
    counts(tapes);
    products(tapes);
    quotients(tapes);
    pairs(tapes);
}

/// Values with telling bits at both ends.
const SHIFTED: [u32; 9] = [
    0,
    1,
    0x8000_0000,
    0xC000_0000,
    0x4000_0001,
    0x7FFF_FFFF,
    0xFFFF_FFFF,
    0xA5A5_A5A5,
    0x5A5A_5A5A,
];

/// Every count of every shift and rotate.
fn counts(tapes: &mut Tapes) {
    for name in ["RRL", "RLL", "SRL", "SLL", "SRA", "SLA"] {
        for count in 0..32 {
            for value in SHIFTED {
                // The bits above the count must not matter.
                let scene = Scene::new(varied_status(tapes.len())).register(1, value);
                let operand = count | (value as u16 & 0xFFE0);
                tapes.push(scene.instruction(&ri1(code(name), 1, 0, operand)));
            }
        }
    }
    for name in ["SRLS", "SLLS"] {
        for count in 0..16 {
            for value in SHIFTED {
                let scene = Scene::new(varied_status(tapes.len())).register(1, value);
                tapes.push(scene.instruction(&[first(code(name), 1, count)]));
            }
        }
    }
}

fn products(tapes: &mut Tapes) {
    for a in EDGES {
        for b in EDGES {
            let scene = Scene::new(varied_status(tapes.len()));
            let scene = scene.register(4, 0x5555_5555).register(5, a).register(6, b);
            tapes.push(scene.clone().instruction(&[first(code("MR"), 4, 6)]));
            let scene = scene.fullwords(DATA, &[b]);
            tapes.extend(scene.reaching(Way::Direct, code("M"), 5, DATA));
        }
    }
}

/// Dividends made from quotients and remainders at their edges.
fn quotients(tapes: &mut Tapes) {
    const DIVISORS: [i32; 12] = [
        0,
        1,
        -1,
        2,
        -2,
        3,
        -7,
        0x1_0000,
        i32::MAX,
        -i32::MAX,
        i32::MIN,
        12_345,
    ];
    const LEAST: i128 = i32::MIN as i128;
    const QUOTIENTS: [i128; 10] = [
        0,
        1,
        -1,
        -LEAST - 1,
        -LEAST,
        -LEAST + 1,
        LEAST,
        LEAST - 1,
        LEAST + 1,
        99_999,
    ];
    for divisor in DIVISORS {
        let size = i128::from(divisor).abs();
        for quotient in QUOTIENTS {
            for remainder in [0, 1, -1, size - 1, 1 - size] {
                let dividend = quotient * i128::from(divisor) + remainder;
                divide(tapes, dividend as i64, divisor as u32);
            }
        }
        for dividend in [i64::MIN, i64::MIN + 1, i64::MAX, 1 << 62, -1 << 62, 1 << 32] {
            divide(tapes, dividend, divisor as u32);
        }
    }
}

/// One division by DR and one by D, with the arithmetic interrupt on and off.
fn divide(tapes: &mut Tapes, dividend: i64, divisor: u32) {
    let (high, low) = ((dividend >> 32) as u32, dividend as u32);
    for arithmetic in [0, ARITHMETIC] {
        let status = varied_status(tapes.len()) & !ARITHMETIC | arithmetic;
        let scene = Scene::new(status).register(4, high).register(5, low);
        tapes.push(
            scene
                .clone()
                .register(6, divisor)
                .instruction(&[first(code("DR"), 5, 6)]),
        );
        let scene = scene.fullwords(DATA, &[divisor]);
        tapes.extend(scene.reaching(Way::Direct, code("D"), 4, DATA));
    }
}

/// Every pair, and the second operand inside and outside of it.
fn pairs(tapes: &mut Tapes) {
    for name in ["MR", "DR"] {
        for r1 in 0..16 {
            for r2 in 0..16 {
                let scene = Scene::new(varied_status(tapes.len()));
                let scene = (0..16).fold(scene, |scene, number| {
                    scene.register(number, 3 + u32::from(number))
                });
                tapes.push(scene.instruction(&[first(code(name), r1, r2)]));
            }
        }
    }
}
