//! The store: places of one halfword each, numbered from 0.
//!
//! The fitted places come first. A read of an unfitted place gives 0, and a write to a fixed or
//! unfitted place is lost.

/// The most places that a store can have: the real address space.
pub const MOST_PLACES: usize = 524_288;

/// The first place that a loader strip covers.
pub const STRIP_START: usize = 40;

/// How many places a loader strip covers.
pub const STRIP_LENGTH: usize = 24;

/// What a place is good for. It never changes.
#[derive(Clone, Copy, Debug, PartialEq, Eq)]
pub enum Kind {
    Writable,
    Fixed,
    Unfitted,
}

/// A store, perhaps made of other stores.
#[derive(Clone, Debug, PartialEq, Eq)]
pub enum Store {
    /// Words of the caller, one for each place.
    CoreBoards(Vec<u16>),
    /// Bytes of the caller, two for each place, the high byte first. A last odd byte is not used.
    ByteImage(Vec<u8>),
    /// The places of the first store, then those of the second.
    BankPair(Box<Store>, Box<Store>),
    /// A store whose fitted places 40 to 63 are covered by fixed halfwords.
    LoaderStrip(Box<Store>, [u16; STRIP_LENGTH]),
}

impl Store {
    /// Core boards of `places` zero halfwords.
    pub fn zeros(places: usize) -> Store {
        Store::CoreBoards(vec![0; places])
    }

    pub fn bank_pair(first: Store, second: Store) -> Store {
        Store::BankPair(Box::new(first), Box::new(second))
    }

    pub fn loader_strip(below: Store, strip: [u16; STRIP_LENGTH]) -> Store {
        Store::LoaderStrip(Box::new(below), strip)
    }

    /// The number of fitted places.
    pub fn fitted(&self) -> usize {
        let places = match self {
            Store::CoreBoards(words) => words.len(),
            Store::ByteImage(bytes) => bytes.len() / 2,
            Store::BankPair(first, second) => first.fitted() + second.fitted(),
            Store::LoaderStrip(below, _) => below.fitted(),
        };
        places.min(MOST_PLACES)
    }

    pub fn kind(&self, place: usize) -> Kind {
        if place >= self.fitted() {
            return Kind::Unfitted;
        }
        match self {
            Store::CoreBoards(_) | Store::ByteImage(_) => Kind::Writable,
            Store::BankPair(first, second) => match place.checked_sub(first.fitted()) {
                None => first.kind(place),
                Some(rest) => second.kind(rest),
            },
            Store::LoaderStrip(below, _) => match strip_index(place) {
                Some(_) => Kind::Fixed,
                None => below.kind(place),
            },
        }
    }

    /// The halfword of a place, 0 if it is unfitted.
    pub fn read(&self, place: usize) -> u16 {
        if place >= self.fitted() {
            return 0;
        }
        match self {
            Store::CoreBoards(words) => words[place],
            Store::ByteImage(bytes) => u16::from_be_bytes([bytes[2 * place], bytes[2 * place + 1]]),
            Store::BankPair(first, second) => match place.checked_sub(first.fitted()) {
                None => first.read(place),
                Some(rest) => second.read(rest),
            },
            Store::LoaderStrip(below, strip) => match strip_index(place) {
                Some(index) => strip[index],
                None => below.read(place),
            },
        }
    }

    /// Replaces the halfword of a writable place; any other place is left alone.
    pub fn write(&mut self, place: usize, halfword: u16) {
        if place >= self.fitted() {
            return;
        }
        match self {
            Store::CoreBoards(words) => words[place] = halfword,
            Store::ByteImage(bytes) => {
                bytes[2 * place..2 * place + 2].copy_from_slice(&halfword.to_be_bytes());
            }
            Store::BankPair(first, second) => match place.checked_sub(first.fitted()) {
                None => first.write(place, halfword),
                Some(rest) => second.write(rest, halfword),
            },
            Store::LoaderStrip(below, _) => {
                if strip_index(place).is_none() {
                    below.write(place, halfword);
                }
            }
        }
    }

    /// Replaces one byte, at a real address.
    pub fn write_byte(&mut self, address: u32, byte: u8) {
        let place = place_of(address);
        let [high, low] = self.read(place).to_be_bytes();
        let halfword = if address & 1 == 0 {
            u16::from_be_bytes([byte, low])
        } else {
            u16::from_be_bytes([high, byte])
        };
        self.write(place, halfword);
    }
}

/// The place that holds the byte at a real address.
pub fn place_of(address: u32) -> usize {
    (address / 2) as usize
}

/// The number of a place within a loader strip, if the strip covers it.
fn strip_index(place: usize) -> Option<usize> {
    place
        .checked_sub(STRIP_START)
        .filter(|&index| index < STRIP_LENGTH)
}
