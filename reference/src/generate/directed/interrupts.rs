//! Interrupts, loads of the PSW, privileged codes, and a trace that fills.

use super::*;
use crate::generate::writer::{first, rx1, rx3, WAYS};

pub(super) fn add(tapes: &mut Tapes) {
    supervisor_calls(tapes);
    vectors(tapes);
    loads_of_the_psw(tapes);
    exchanges_of_the_status(tapes);
    privileged(tapes);
    absent_devices(tapes);
    returns(tapes);
    full_traces(tapes);
    waits(tapes);
}

fn supervisor_calls(tapes: &mut Tapes) {
    for number in 0..16 {
        for way in WAYS {
            for status in [0, SET_15 | PROTECTION | 7, RELOCATION | PROTECTION | 0x2809] {
                let scene = Scene::new(status).all_open();
                tapes.extend(scene.reaching(way, code("SVC"), number, 0x3456));
                let scene = Scene::new(status).all_open();
                tapes.extend(scene.reaching(way, code("SVC"), number, 0xF_FFFF));
            }
        }
    }
}

/// Statuses and Location Counters for new PSWs.
const STATUSES: [u32; 9] = [
    0,
    0x0000_000F,
    0x0000_0010,
    RELOCATION | 0x0000_0080,
    PROTECTION | DEVICES,
    WAIT,
    WAIT | DEVICES,
    0x7FFF_7FFF,
    0xFFFF_FFFF,
];
const LOCATIONS: [u32; 6] = [0, 1, 0x0D00, 0x1_0000, 0x000F_FFFF, 0xFFFF_FFFF];

/// Every cause with every new PSW, and two steps more.
fn vectors(tapes: &mut Tapes) {
    for status in STATUSES {
        for location in LOCATIONS {
            let new = [status, location];
            for (cause, address) in [(0, 0x30), (1, 0x48), (2, 0x90), (3, 0x98)] {
                let scene = Scene::new(ARITHMETIC | RELOCATION | 0xD)
                    .segment(0, OPEN)
                    .fullwords(address, &new)
                    .halfwords(0x9C, &[location as u16])
                    .halfwords(0x0D00, &[0x2411, 0x9512]);
                let halfwords = match cause {
                    0 => vec![0x0000],
                    1 => vec![first(code("DR"), 4, 6)],
                    2 => rx3(code("L"), 1, 0, 0, 0x1_0000),
                    _ => rx1(code("SVC"), 0, 0, 0x123),
                };
                tapes.push(scene.halfwords(START, &halfwords).run(START, 3));
            }
        }
    }
}

fn loads_of_the_psw(tapes: &mut Tapes) {
    for status in STATUSES {
        for location in LOCATIONS {
            let scene = Scene::new(varied_status(tapes.len())).all_open();
            let scene = scene.halfwords(0x0D00, &[0x2411, 0x2422]);
            let registers = scene.clone();
            for r2 in [1, 14, 15] {
                let scene = registers.clone().register(r2, status);
                let scene = scene.register((r2 + 1) % 16, location);
                let scene = scene.halfwords(START, &[first(code("LPSWR"), 6, r2)]);
                tapes.push(scene.run(START, 3));
            }
            let scene = scene.fullwords(DATA, &[status, location, !status, !location]);
            for offset in [0, 7, 8] {
                let halfwords = rx1(code("LPSW"), 0, 0, DATA as u16 + offset);
                tapes.push(scene.clone().halfwords(START, &halfwords).run(START, 3));
            }
        }
    }
}

fn exchanges_of_the_status(tapes: &mut Tapes) {
    for old in [0, 5, SET_15 | 9, ARITHMETIC | 0x1234_0002, DEVICES | 0x10] {
        for new in STATUSES {
            for (r1, r2) in [(1, 2), (2, 2), (2, 1)] {
                let scene = Scene::new(old).all_open().register(2, new);
                let halfwords = [first(code("EPSR"), r1, r2), 0x2437, 0x2447];
                tapes.push(scene.halfwords(START, &halfwords).run(START, 3));
            }
        }
    }
}

/// Privileged codes with protection on and off, relocation on and off, operands good and bad.
fn privileged(tapes: &mut Tapes) {
    for code in TABLE.iter().filter(|code| code.privileged) {
        for status in [0, PROTECTION, RELOCATION, RELOCATION | PROTECTION | SET_15] {
            for digit in [0x0, 0x1, 0x3, 0x5, 0x9] {
                let scene = Scene::new(status)
                    .segment(0, OPEN)
                    .segment(1, segment(0xFF, 0, digit))
                    .all_registers()
                    .fullwords(DATA, &[0x0000_2103, 0x0C81]);
                let halfwords = match code.form {
                    Form::Rr => vec![first(code.number, 1, 2)],
                    _ => rx3(code.number, 1, 0, 0, 0x1_0000 + DATA),
                };
                tapes.push(scene.instruction(&halfwords));
            }
        }
    }
}

/// Input and output, with no device on the bus.
fn absent_devices(tapes: &mut Tapes) {
    const DEVICES: [u32; 10] = [0, 1, 2, 16, 255, 256, 0x102, 0x3FF, 0x400, 0xFFFF_FC02];
    for device in DEVICES {
        for name in ["WDR", "RDR", "SSR", "OCR"] {
            for r2 in [1, 2] {
                let scene = Scene::new(varied_status(tapes.len()));
                let scene = scene.register(2, 0x1234_5678).register(1, device);
                tapes.push(scene.instruction(&[first(code(name), 1, r2)]));
            }
        }
        for name in ["WD", "RD", "SS", "OC"] {
            for offset in 0..2 {
                let scene = Scene::new(varied_status(tapes.len())).register(1, device);
                let scene = scene.halfwords(DATA, &[0xABCD]);
                tapes.extend(scene.reaching(Way::Direct, code(name), 1, DATA + offset));
            }
        }
    }
}

/// Handlers that count in memory and return by LPSWR to where the program was interrupted, or
/// behind it.
fn returns(tapes: &mut Tapes) {
    for behind in 0..8 {
        for steps in [1, 2, 3, 5, 10, 30, 100, 300] {
            let handler = [
                rx1(code("AM"), 13, 0, DATA as u16),
                vec![first(code("AIS"), 15, behind)],
                vec![first(code("LPSWR"), 0, 14)],
            ];
            let program = [
                vec![first(code("AIS"), 1, 1)],
                vec![0x0000],
                vec![first(code("DR"), 4, 6)],
                rx3(code("ST"), 1, 0, 0, 0x1_2000),
                rx1(code("SVC"), 1, 0, 0x77),
                rx1(code("BFC"), 0, 0, START as u16),
            ];
            let mut scene = Scene::new(ARITHMETIC | RELOCATION | SET_15)
                .segment(0, OPEN)
                .segment(1, segment(0xFF, 0, 0x5))
                .fullwords(0x9C, &[0x0C00_0C00])
                .halfwords(0x0C00, &handler.concat())
                .halfwords(START, &program.concat());
            for vector in [0x30, 0x48, 0x90, 0x98] {
                scene = scene.fullwords(vector, &[0]);
            }
            for vector in [0x34, 0x4C, 0x94] {
                scene = scene.fullwords(vector, &[0x0C00]);
            }
            tapes.push(scene.run(START, steps));
        }
    }
}

/// Interrupts that lead to themselves, until the trace is full; then one run more.
fn full_traces(tapes: &mut Tapes) {
    let causes = [
        (0x30, vec![0x0000]),
        (0x48, vec![first(code("DR"), 4, 6)]),
        (0x90, rx3(code("L"), 1, 0, 0, 0x1_0000)),
        (0x98, rx1(code("SVC"), 1, 0, 0x20)),
    ];
    for (vector, halfwords) in causes {
        for steps in [62, 63, 64, 65, 1000] {
            for more in [0, 1, 2, 1_000_001] {
                let status = ARITHMETIC | RELOCATION;
                let scene = Scene::new(status)
                    .segment(0, OPEN)
                    .halfwords(0x9E, &[START as u16])
                    .fullwords(vector, &[status])
                    .halfwords(START, &halfwords);
                let scene = match vector {
                    0x98 => scene,
                    _ => scene.fullwords(vector + 4, &[START]),
                };
                tapes.push(scene.go(START, steps).go(START, more).finish());
            }
        }
    }
}

fn waits(tapes: &mut Tapes) {
    for status in [
        WAIT,
        WAIT | DEVICES,
        WAIT | RELOCATION | PROTECTION,
        0xFFFF_FFFF,
    ] {
        for count in [1, 2, 1_000_000] {
            let scene = Scene::new(status).all_open();
            tapes.push(scene.halfwords(START, &[0x2411]).run(START, count));
        }
    }
}
