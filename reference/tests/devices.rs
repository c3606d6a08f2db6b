//! Buses, and the input and output instructions.

mod common;

use common::*;
use reference::{Answer, Bus, Drives, Joined, Queue, Silent, Tally, Teletype};

#[test]
fn the_silent_bus() {
    let bus = Silent;
    for device in 1..=255 {
        assert!(!bus.answers(device) && !bus.requests(device));
        assert_eq!((bus.status(device), bus.offer(device)), (0, 0));
        assert_eq!(bus.tally(device), Tally::default());
    }
    assert_eq!(bus.requesting(), None);
}

#[test]
fn the_teletype() {
    let mut bus = Teletype::with_bytes(b"AB");
    assert!(bus.answers(2) && !bus.answers(1) && !bus.answers(3));
    assert_eq!((bus.status(2), bus.offer(2)), (0, b'A'));
    assert_eq!(bus.requesting(), None);
    for command in 0..=255 {
        bus.command(2, command);
        assert_eq!(bus.requests(2), (0x40..=0x7F).contains(&command));
    }
    bus.command(2, 0x7F);
    assert_eq!(bus.requesting(), Some(2));
    assert_eq!(bus.read(2), b'A');
    assert_eq!(bus.offer(2), b'B');
    assert_eq!(bus.read(2), b'B');
    assert_eq!(
        (bus.status(2), bus.offer(2), bus.requests(2)),
        (8, 0, false)
    );
    assert_eq!(bus.read(2), 0);
    bus.write(2, 0x55);
    let tally = Tally {
        latest_data: 0x55,
        latest_command: 0x7F,
        reads: 3,
        writes: 1,
        commands: 257,
    };
    assert_eq!(bus.tally(2), tally);
    assert_eq!(bus.tally(3), Tally::default());
}

#[test]
fn the_drives() {
    let mut bus = Drives::default();
    for device in 0..=255 {
        assert_eq!(bus.answers(device), (16..=23).contains(&device));
    }
    bus.write(17, 0x12);
    assert_eq!((bus.drives[1].position, bus.offer(17)), (0, 0));
    bus.command(17, 0x40);
    assert_eq!(bus.read(17), 0);
    bus.write(17, 0x34);
    assert_eq!((bus.drives[1].position, bus.offer(17)), (0x1234, 0x12));
    assert_eq!(bus.read(17), 0x12);
    bus.write(17, 0x56);
    assert_eq!(bus.drives[1].position, 0x1234);
    let tally = Tally {
        latest_data: 0x56,
        latest_command: 0x40,
        reads: 2,
        writes: 3,
        commands: 1,
    };
    assert_eq!(bus.tally(17), tally);
    assert_eq!(bus.tally(16), Tally::default());
    assert_eq!((bus.status(17), bus.requesting()), (0, None));
}

#[test]
fn counts_wrap() {
    let mut bus = Drives::default();
    bus.drives[0].tally.reads = u32::MAX;
    bus.read(16);
    assert_eq!(bus.tally(16).reads, 0);
}

#[test]
fn joined_buses() {
    let mut first = Teletype::with_bytes(b"A");
    first.command(2, 0x40);
    let mut second = Teletype::with_bytes(b"Z");
    second.write(2, 9);
    let mut bus = Joined::new(Joined::new(first, Drives::default()), second);
    assert_eq!(bus.offer(2), b'A');
    assert_eq!(bus.tally(2).writes, 0);
    assert_eq!(bus.requesting(), Some(2));
    assert_eq!(bus.read(2), b'A');
    assert_eq!(bus.requesting(), None);
    bus.write(23, 1);
    assert_eq!(bus.tally(23).writes, 1);
    assert!(bus.answers(16) && !bus.answers(24));
    assert_eq!(bus.second.queue.len(), 1);
}

#[test]
fn queues() {
    let mut queue = Queue::new(2);
    assert_eq!(
        (queue.len(), queue.is_empty(), queue.is_full()),
        (0, true, false)
    );
    assert_eq!(queue.add(1), Ok(()));
    assert_eq!(queue.add(2), Ok(()));
    assert_eq!(queue.add(3), Err(3));
    assert_eq!(queue.oldest(), Some(&1));
    assert_eq!(queue.take(), Some(1));
    assert!(!queue.is_full());
    assert!(Queue::<u8>::new(0).is_full());
}

/// A bench with a teletype and the drives.
fn connected() -> Bench {
    Bench::with_bus(Joined::new(Teletype::with_bytes(b"AB"), Drives::default()))
}

#[test]
fn input_and_output_with_memory() {
    let mut bench = connected();
    bench.set(1, 2).put(0x1000, &[0x1234, 0x5678]).status(0xF);
    bench.instruct(&[0xDA10, 0x1001]).done();
    assert_eq!(
        (bench.machine.bus.tally(2).latest_data, bench.code()),
        (0x34, 0)
    );
    bench.instruct(&[0xDE10, 0x1000]).done();
    assert_eq!(
        (bench.machine.bus.tally(2).latest_command, bench.code()),
        (0x12, 0)
    );
    bench.instruct(&[0xDB10, 0x1002]).done();
    assert_eq!((bench.halfword(0x1002), bench.code()), (0x4178, 0));
    bench.instruct(&[0xDB10, 0x1003]).done();
    assert_eq!(bench.halfword(0x1002), 0x4142);
    bench.instruct(&[0xDD10, 0x1002]).done();
    assert_eq!((bench.halfword(0x1002), bench.code()), (0x0842, 8));
}

#[test]
fn input_and_output_with_registers() {
    let mut bench = connected();
    bench.set(1, 0xFFFF_FC11).set(2, 0x1234_56AB).status(0xF);
    bench.instruct(&[0x9A12]).done();
    assert_eq!(
        (bench.machine.bus.tally(17).latest_data, bench.code()),
        (0xAB, 0)
    );
    bench.instruct(&[0x9A12]).done();
    bench.instruct(&[0x9E12]).done();
    assert_eq!(bench.machine.bus.tally(17).latest_command, 0xAB);
    bench.instruct(&[0x9B12]).done();
    assert_eq!((bench.register(2), bench.code()), (0xAB, 0));
    bench.instruct(&[0x9D12]).done();
    assert_eq!((bench.register(2), bench.code()), (0, 0));
    bench.instruct(&[0x9B11]).done();
    assert_eq!(bench.register(1), 0xAB);
}

/// Device numbers that are absent on every bus here.
const ABSENT: [u32; 6] = [0, 1, 255, 256, 0x102, 0x3FF];

#[test]
fn absent_devices() {
    for device in ABSENT {
        let mut bench = connected();
        bench.set(1, device).set(2, 0x1234_5678);
        bench.put(0x1000, &[0xABCD]);
        for halfwords in [
            vec![0x9A12],
            vec![0x9B12],
            vec![0x9E12],
            vec![0xDA10, 0x1000],
            vec![0xDB10, 0x1000],
            vec![0xDE10, 0x1000],
        ] {
            bench.status(0xB).instruct(&halfwords).done();
            assert_eq!(bench.code(), 4);
            assert_eq!(bench.register(2), 0x1234_5678);
            assert_eq!(bench.halfword(0x1000), 0xABCD);
        }
        bench.instruct(&[0xDD10, 0x1001]).done();
        assert_eq!((bench.halfword(0x1000), bench.code()), (0xAB04, 4));
        bench.instruct(&[0x9D12]).done();
        assert_eq!((bench.register(2), bench.code()), (4, 4));
        assert_eq!(bench.machine.bus.tally(2), Tally::default());
    }
}

/// A bench with relocation on, whose register 3 points to segment 1.
fn relocated(segment_1: u32, device: u32) -> Bench {
    let mut bench = connected();
    bench.segment(0, OPEN).segment(1, segment_1);
    bench.status(RELOCATION | 3);
    bench.set(1, device).set(3, 0x1_1000);
    bench
}

#[test]
fn the_operand_is_checked_before_the_device() {
    for device in [2, 99] {
        for code in [0xDA, 0xDB, 0xDD, 0xDE] {
            let mut bench = relocated(0x0FF0_0000, device);
            bench.instruct(&[code << 8 | 0x13, 0]);
            assert_eq!(bench.step(), Answer::Access);
            bench.assert_access(RELOCATION | 3, START, 0x08);
            assert_eq!(bench.machine.bus.tally(2), Tally::default());
        }
        for code in [0xDB, 0xDD] {
            let mut bench = relocated(0x0FF0_0030, device);
            bench.instruct(&[code << 8 | 0x13, 0]);
            assert_eq!(bench.step(), Answer::Access);
            bench.assert_access(RELOCATION | 3, START, 0x04);
            assert_eq!(bench.machine.bus.tally(2), Tally::default());
        }
        let mut bench = relocated(0x0FF0_0030, device);
        bench.instruct(&[0xDA13, 0]).done();
    }
}

#[test]
fn reports_of_input() {
    let reported = 0x0FF0_0050;
    let mut bench = relocated(reported, 99);
    bench.instruct(&[0xDB13, 0]).done();
    assert_eq!(bench.machine.interrupt_status, 0);
    let mut bench = relocated(reported, 99);
    bench.instruct(&[0xDD13, 0]);
    assert_eq!(bench.step(), Answer::Access);
    bench.assert_access(RELOCATION | 4, START + 4, 0x02);
    let mut bench = relocated(reported, 2);
    bench.instruct(&[0xDB13, 0]);
    assert_eq!(bench.step(), Answer::Access);
    bench.assert_access(RELOCATION, START + 4, 0x02);
    assert_eq!(bench.halfword(0x1000), 0x4100);
}

#[test]
fn output_from_the_interrupt_status() {
    for (device, left) in [(2, 0), (99, 0x1F)] {
        for code in [0xDA, 0xDE] {
            let mut bench = connected();
            bench.set(1, device);
            bench.machine.interrupt_status = 0x1F;
            bench.instruct(&[code << 8 | 0x10, 0x0343]).done();
            assert_eq!(bench.machine.interrupt_status, left);
        }
    }
    let mut bench = connected();
    bench.set(1, 2);
    bench.machine.interrupt_status = 0x1F;
    bench.instruct(&[0xDA10, 0x0343]).done();
    assert_eq!(bench.machine.bus.tally(2).latest_data, 0x1F);
}
