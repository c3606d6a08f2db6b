//! The kinds of store.

use reference::store::MOST_PLACES;
use reference::{Kind, Store};

fn strip() -> [u16; 24] {
    std::array::from_fn(|index| 0x1000 + index as u16)
}

#[test]
fn core_boards() {
    let mut store = Store::CoreBoards(vec![1, 2]);
    assert_eq!(store.fitted(), 2);
    store.write(1, 7);
    store.write(2, 8);
    assert_eq!((store.read(0), store.read(1), store.read(2)), (1, 7, 0));
    assert_eq!(
        (store.kind(1), store.kind(2)),
        (Kind::Writable, Kind::Unfitted)
    );
    assert_eq!(store, Store::CoreBoards(vec![1, 7]));
}

#[test]
fn byte_image() {
    let mut store = Store::ByteImage(vec![0x12, 0x34, 0x56, 0x78, 0x9A]);
    assert_eq!(store.fitted(), 2);
    assert_eq!(
        (store.read(0), store.read(1), store.read(2)),
        (0x1234, 0x5678, 0)
    );
    store.write(1, 0xABCD);
    store.write(2, 0xFFFF);
    assert_eq!(store, Store::ByteImage(vec![0x12, 0x34, 0xAB, 0xCD, 0x9A]));
}

#[test]
fn the_limit_of_places() {
    let mut store = Store::zeros(MOST_PLACES + 1);
    assert_eq!(store.fitted(), MOST_PLACES);
    store.write(MOST_PLACES, 1);
    assert_eq!(store.read(MOST_PLACES), 0);
    let bytes = Store::ByteImage(vec![0; 2 * MOST_PLACES + 2]);
    assert_eq!(bytes.fitted(), MOST_PLACES);
    let mut pair = Store::bank_pair(Store::zeros(MOST_PLACES - 1), Store::zeros(5));
    assert_eq!(pair.fitted(), MOST_PLACES);
    pair.write(MOST_PLACES - 1, 1);
    pair.write(MOST_PLACES, 2);
    let Store::BankPair(_, second) = pair else {
        panic!("a pair stays a pair");
    };
    assert_eq!(*second, Store::CoreBoards(vec![1, 0, 0, 0, 0]));
}

#[test]
fn bank_pair() {
    let first = Store::CoreBoards(vec![1, 2]);
    let second = Store::ByteImage(vec![0, 3, 0, 4]);
    let mut store = Store::bank_pair(first, second);
    assert_eq!(store.fitted(), 4);
    store.write(0, 10);
    store.write(3, 40);
    let halfwords: Vec<u16> = (0..5).map(|place| store.read(place)).collect();
    assert_eq!(halfwords, [10, 2, 3, 40, 0]);
}

#[test]
fn loader_strip() {
    let mut store = Store::loader_strip(Store::zeros(100), strip());
    for place in 0..110 {
        store.write(place, 5);
    }
    for place in 0..110 {
        let (kind, halfword) = match place {
            40..=63 => (Kind::Fixed, 0x1000 + place as u16 - 40),
            0..=99 => (Kind::Writable, 5),
            _ => (Kind::Unfitted, 0),
        };
        assert_eq!((store.kind(place), store.read(place)), (kind, halfword));
    }
    let Store::LoaderStrip(below, _) = store else {
        panic!("a strip stays a strip");
    };
    assert!((40..64).all(|place| below.read(place) == 0));
}

#[test]
fn a_strip_over_few_places() {
    let store = Store::loader_strip(Store::zeros(50), strip());
    assert_eq!(store.fitted(), 50);
    assert_eq!((store.kind(49), store.read(49)), (Kind::Fixed, 0x1009));
    assert_eq!((store.kind(50), store.read(50)), (Kind::Unfitted, 0));
}

#[test]
fn a_strip_counts_its_own_places() {
    let second = Store::loader_strip(Store::zeros(100), strip());
    let store = Store::bank_pair(Store::zeros(30), second);
    assert_eq!(
        (store.kind(69), store.kind(94)),
        (Kind::Writable, Kind::Writable)
    );
    assert_eq!((store.kind(70), store.kind(93)), (Kind::Fixed, Kind::Fixed));
    assert_eq!(store.read(70), 0x1000);
}

#[test]
fn a_strip_over_a_strip() {
    let below = Store::loader_strip(Store::zeros(100), [9; 24]);
    let store = Store::loader_strip(below, strip());
    assert_eq!(store.read(41), 0x1001);
}

#[test]
fn single_bytes() {
    let mut store = Store::CoreBoards(vec![0x1234]);
    store.write_byte(0, 0xAB);
    assert_eq!(store.read(0), 0xAB34);
    store.write_byte(1, 0xCD);
    assert_eq!(store.read(0), 0xABCD);
    store.write_byte(2, 0xEF);
    assert_eq!(store, Store::CoreBoards(vec![0xABCD]));
}
