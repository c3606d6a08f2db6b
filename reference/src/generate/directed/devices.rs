//! Input and output over a teletype and drives, and the interrupts that the teletype requests.

use super::*;
use crate::generate::writer::{first, rx1, rx3};

pub(super) fn add(trials: &mut Trials) {
    every_operation(trials);
    checked_operands(trials);
    operands_in_the_controller(trials);
    requests(trials);
    handlers(trials);
    pairs(trials);
    interleaved(trials);
}

/// Device numbers with all that answer, their neighbours, and bits that do not count.
const NUMBERS: [u32; 20] = [
    0,
    1,
    2,
    3,
    15,
    16,
    17,
    18,
    19,
    20,
    21,
    22,
    23,
    24,
    255,
    256,
    0x102,
    0x210,
    0x402,
    0xFFFF_FC17,
];

/// Bytes that wait for the teletype.
const KEYS: [&[u8]; 3] = [b"", b"A", &[0xFF, 0x00, 0x80, 0x7F]];

const OVER_REGISTERS: [&str; 4] = ["WDR", "RDR", "SSR", "OCR"];
const OVER_MEMORY: [&str; 4] = ["WD", "RD", "SS", "OC"];

/// Every instruction with every number, twice, then the status of the device.
fn every_operation(trials: &mut Trials) {
    for number in NUMBERS {
        for keys in KEYS {
            for name in OVER_REGISTERS {
                for r2 in [1, 2] {
                    let code = first(code(name), 1, r2);
                    let halfwords = vec![code, code, first(self::code("SSR"), 1, 3)];
                    operation(trials, keys, number, halfwords);
                }
            }
            for name in OVER_MEMORY {
                let once = rx1(code(name), 1, 0, DATA as u16 + trials.len() as u16 % 2);
                let sense = vec![first(code("SSR"), 1, 3)];
                let halfwords = [once.clone(), once, sense].concat();
                operation(trials, keys, number, halfwords);
            }
        }
    }
}

/// Three steps over a device, in either set, with relocation on and off.
fn operation(trials: &mut Trials, keys: &[u8], number: u32, halfwords: Vec<u16>) {
    let case = trials.len();
    let status = varied_status(case)
        | if case.is_multiple_of(3) {
            RELOCATION
        } else {
            0
        };
    let scene = Scene::new(status)
        .segment(0, OPEN)
        .all_registers()
        .registers(&[(1, number), (2, 0x1234_5600 | case as u32 & 0xFF)])
        .halfwords(DATA, &[0xABCD])
        .halfwords(START, &halfwords);
    trials.push(over_devices(keys, scene.run(START, 3)));
}

fn over_devices(keys: &[u8], tape: Vec<u8>) -> Trial {
    Trial {
        keys: Some(keys.to_vec()),
        tape,
    }
}

/// Operands in segments that restrict them, with protection on and off.
fn checked_operands(trials: &mut Trials) {
    for number in [2, 16, 23, 24, 0] {
        for name in OVER_MEMORY {
            for digit in [0x0, 0x1, 0x3, 0x5, 0x7, 0x9, 0xD] {
                for status in [0, PROTECTION, SET_15 | 0xF] {
                    let case = trials.len() as u32;
                    let limit = if case.is_multiple_of(5) { 0x0F } else { 0x10 };
                    let scene = Scene::relocated(status)
                        .segment(1, segment(limit, 0, digit))
                        .registers(&[(1, number), (2, 0x5A)])
                        .halfwords(DATA, &[0x4142])
                        .halfwords(0x0C20, &[first(code("SSR"), 1, 3)]);
                    let address = 0x1_0000 + DATA + case % 2;
                    let halfwords = rx3(code(name), 1, 0, 0, address);
                    let scene = scene.halfwords(START, &halfwords);
                    let keys = KEYS[trials.len() % 3];
                    trials.push(over_devices(keys, scene.run(START, 2)));
                }
            }
        }
    }
}

/// Operands among the controller's addresses, after a failed access.
fn operands_in_the_controller(trials: &mut Trials) {
    for number in [2, 17, 24, 0] {
        for name in OVER_MEMORY {
            for address in [0x300, 0x307, 0x340, 0x342, 0x343, 0x344] {
                let operation = rx1(code(name), 1, 0, address);
                let scene = Scene::new(RELOCATION)
                    .segment(0, OPEN)
                    .segment(1, segment(0xAB, 0xCDE, 0))
                    .fullwords(0x90, &[0])
                    .register(1, number)
                    .halfwords(START, &rx3(code("L"), 4, 0, 0, 0x1_0000))
                    .halfwords(0x0C20, &operation);
                trials.push(over_devices(b"xyz", scene.run(START, 2)));
            }
        }
    }
}

/// Commands of all four beginnings.
const COMMANDS: [u32; 9] = [0x00, 0x3F, 0x40, 0x5A, 0x7F, 0x80, 0xBF, 0xC0, 0xFF];

/// Statuses under which a request is taken, or is not.
const STATUSES: [u32; 9] = [
    0,
    DEVICES | 0x5,
    DEVICES | SET_15 | 0xA,
    DEVICES | RELOCATION | ARITHMETIC,
    DEVICES | RELOCATION | PROTECTION | SET_15,
    DEVICES | WAIT,
    DEVICES | WAIT | PROTECTION | RELOCATION | 0x0030,
    WAIT,
    0xFFFF_FFFF,
];

/// A handler of the teletype. In set 0, register 2 has the device number, and registers 0 and 1 the
/// old PSW.
fn reading_handler() -> Vec<u16> {
    vec![
        first(code("RDR"), 2, 5),
        first(code("AR"), 6, 5),
        first(code("LPSWR"), 0, 0),
    ]
}

/// A command to a device, then a run under a status.
fn requests(trials: &mut Trials) {
    for command in COMMANDS {
        for status in STATUSES {
            for keys in KEYS {
                for steps in [1, 20] {
                    let case = trials.len();
                    let number = if case.is_multiple_of(7) { 18 } else { 2 };
                    let handler = 0x0D00 + case as u16 % 2;
                    let halfwords = [
                        first(code("OCR"), 1, 7),
                        first(code("AIS"), 3, 1),
                        first(code("BFBS"), 0, 1),
                    ];
                    let scene = Scene::new(varied_status(case))
                        .segment(0, OPEN)
                        .registers(&[(1, number), (7, command)])
                        .halfwords(0xD4, &[handler])
                        .halfwords(0x0D00, &reading_handler())
                        .halfwords(START, &halfwords)
                        .go(START, 1)
                        .with_status(status);
                    trials.push(over_devices(keys, scene.run(START + 2, steps)));
                }
            }
        }
    }
}

/// Handlers that read, that stop the request, that return at once, and that cannot be obeyed. The
/// same with requests that begin in the middle of a program.
fn handlers(trials: &mut Trials) {
    let handlers = [
        reading_handler(),
        vec![
            first(code("OCR"), 2, 8),
            first(code("WDR"), 2, 4),
            first(code("LPSWR"), 0, 0),
        ],
        vec![first(code("LPSWR"), 0, 0)],
        vec![0x0000],
        [
            rx1(code("RD"), 2, 0, DATA as u16),
            rx1(code("SS"), 2, 0, DATA as u16 + 1),
            vec![first(code("LPSWR"), 0, 0)],
        ]
        .concat(),
    ];
    for handler in handlers {
        for keys in KEYS {
            for status in [0, DEVICES, DEVICES | SET_15, DEVICES | RELOCATION | SET_15] {
                for steps in [2, 5, 20, 200] {
                    let program = [
                        rx1(code("OC"), 1, 0, DATA as u16 + 3),
                        vec![first(code("SSR"), 1, 4)],
                        vec![first(code("EPSR"), 9, 10)],
                        rx1(code("WD"), 1, 0, DATA as u16),
                        rx1(code("LPSW"), 0, 0, DATA as u16 + 8),
                    ];
                    let scene = Scene::new(status)
                        .segment(0, OPEN)
                        .registers(&[(1, 2), (10, status | DEVICES | 0x3)])
                        .fullwords(DATA, &[0x3132_0045, 0, status | WAIT, START])
                        .halfwords(0xD4, &[0x0D00])
                        .halfwords(0x0D00, &handler)
                        .halfwords(START, &program.concat());
                    trials.push(over_devices(keys, scene.run(START, steps)));
                }
            }
        }
    }
}

/// What is done to a drive between the bytes of its pairs.
const DONE: [&str; 3] = ["WDR", "RDR", "OCR"];

/// Every row of five writes, reads and commands, each drive in its turn.
fn pairs(trials: &mut Trials) {
    for row in 0..3usize.pow(5) {
        let number = 16 + row as u32 % 8;
        let mut program = Vec::new();
        for place in 0..5 {
            let name = DONE[row / 3usize.pow(place) % 3];
            let r2 = if name == "RDR" { 4 } else { 2 };
            program.push(first(code(name), 1, r2));
            program.push(first(code("AIS"), 2, 13));
        }
        program.push(first(code("RDR"), 1, 5));
        program.push(first(code("SSR"), 1, 6));
        let scene = Scene::new(varied_status(row))
            .registers(&[(1, number), (2, 0xA1)])
            .halfwords(START, &program);
        trials.push(over_devices(b"keys", scene.run(START, 12)));
    }
}

/// Two devices by turns, so that a pair of one is half sent while the other is used.
fn interleaved(trials: &mut Trials) {
    const USED: [u32; 9] = [2, 16, 17, 18, 19, 20, 21, 22, 23];
    for one in USED {
        for other in USED {
            let program = [
                vec![first(code("WDR"), 1, 3)],
                rx1(code("WD"), 2, 0, DATA as u16),
                vec![first(code("RDR"), 2, 5), first(code("OCR"), 1, 3)],
                rx1(code("WD"), 1, 0, DATA as u16 + 1),
                rx1(code("RD"), 1, 0, DATA as u16 + 2),
                vec![first(code("WDR"), 2, 4)],
                rx1(code("RD"), 2, 0, DATA as u16 + 3),
                rx1(code("OC"), 2, 0, DATA as u16),
            ];
            let scene = Scene::new(varied_status(trials.len()))
                .registers(&[(1, one), (2, other), (3, 0x11), (4, 0x22)])
                .halfwords(DATA, &[0x3344, 0])
                .halfwords(START, &program.concat());
            trials.push(over_devices(b"keys", scene.run(START, 9)));
        }
    }
}

#[cfg(test)]
mod tests {
    use super::*;
    use crate::generate::expected_over_devices;
    use std::collections::BTreeSet;

    /// The statuses that the SSR at the end of these trials gives are those of a device that is
    /// ready, of an absent one and of an empty teletype.
    #[test]
    fn operations_end_with_every_status() {
        let mut trials = Vec::new();
        every_operation(&mut trials);
        let mut sensed = BTreeSet::new();
        for trial in trials {
            let keys = trial.keys.unwrap_or_default();
            let (outcome, _) = expected_over_devices(&keys, &trial.tape);
            let set = usize::from(outcome.status & SET_15 != 0);
            sensed.insert(outcome.sets[set][3]);
        }
        assert!(sensed.iter().eq(&[0, 4, 8]), "{sensed:?}");
    }
}
