//! Writing tapes, and the halfwords of instructions.

/// A tape being written, command by command.
#[derive(Clone, Debug, Default)]
pub struct Writer {
    bytes: Vec<u8>,
}

impl Writer {
    pub fn new() -> Writer {
        Writer::default()
    }

    pub fn finish(self) -> Vec<u8> {
        self.bytes
    }

    /// A letter and its operand, right or wrong.
    pub fn command(&mut self, letter: u8, operand: &[u8]) {
        self.bytes.push(letter);
        self.bytes.extend_from_slice(operand);
    }

    /// A letter with three bytes.
    fn command_24(&mut self, letter: u8, value: u32) {
        self.command(letter, &value.to_be_bytes()[1..]);
    }

    /// A letter with a number and four bytes.
    fn command_8_32(&mut self, letter: u8, number: u8, value: u32) {
        let [a, b, c, d] = value.to_be_bytes();
        self.command(letter, &[number, a, b, c, d]);
    }

    pub fn address(&mut self, address: u32) {
        self.command_24(b'A', address);
    }

    pub fn deposit(&mut self, halfword: u16) {
        self.command(b'D', &halfword.to_be_bytes());
    }

    /// The set is 0 or 15.
    pub fn register(&mut self, set: u8, number: u8, value: u32) {
        self.command_8_32(b'R', set << 4 | number, value);
    }

    pub fn segment(&mut self, number: u8, value: u32) {
        self.command_8_32(b'S', number, value);
    }

    pub fn status(&mut self, status: u32) {
        self.command(b'P', &status.to_be_bytes());
    }

    pub fn location(&mut self, location: u32) {
        self.command_24(b'L', location);
    }

    pub fn go(&mut self, count: u32) {
        self.command_24(b'G', count);
    }

    pub fn halfwords(&mut self, address: u32, halfwords: &[u16]) {
        self.address(address);
        halfwords
            .iter()
            .for_each(|&halfword| self.deposit(halfword));
    }

    pub fn fullwords(&mut self, address: u32, fullwords: &[u32]) {
        self.address(address);
        for fullword in fullwords {
            self.deposit((fullword >> 16) as u16);
            self.deposit(*fullword as u16);
        }
    }
}

/// The first halfword of an instruction.
pub fn first(code: u8, r1: u8, r2: u8) -> u16 {
    u16::from_be_bytes([code, r1 << 4 | r2 & 0xF])
}

pub fn rx1(code: u8, r1: u8, x2: u8, displacement: u16) -> Vec<u16> {
    vec![first(code, r1, x2), displacement & 0x3FFF]
}

pub fn rx2(code: u8, r1: u8, x2: u8, distance: i32) -> Vec<u16> {
    vec![first(code, r1, x2), 0x8000 | distance as u16 & 0x7FFF]
}

pub fn rx3(code: u8, r1: u8, fx2: u8, sx2: u8, address: u32) -> Vec<u16> {
    let second = 0x4000 | u16::from(sx2) << 8 | (address >> 16) as u16 & 0xFF;
    vec![first(code, r1, fx2), second, address as u16]
}

pub fn ri1(code: u8, r1: u8, x2: u8, immediate: u16) -> Vec<u16> {
    vec![first(code, r1, x2), immediate]
}

pub fn ri2(code: u8, r1: u8, x2: u8, immediate: u32) -> Vec<u16> {
    vec![
        first(code, r1, x2),
        (immediate >> 16) as u16,
        immediate as u16,
    ]
}

/// How an RX instruction names its address.
#[derive(Clone, Copy, Debug, PartialEq, Eq)]
pub enum Way {
    Direct,
    DirectIndexed,
    Relative,
    RelativeIndexed,
    Long,
    LongFirstIndexed,
    LongSecondIndexed,
    LongTwiceIndexed,
}

pub const WAYS: [Way; 8] = [
    Way::Direct,
    Way::DirectIndexed,
    Way::Relative,
    Way::RelativeIndexed,
    Way::Long,
    Way::LongFirstIndexed,
    Way::LongSecondIndexed,
    Way::LongTwiceIndexed,
];

/// The registers that the indexed ways use.
pub const INDEX: u8 = 10;
pub const SECOND_INDEX: u8 = 11;

/// An instruction with the index registers that it counts on.
#[derive(Clone, Debug)]
pub struct Reaching {
    pub halfwords: Vec<u16>,
    pub indexes: Vec<(u8, u32)>,
}

/// An RX instruction at `own` whose address is `address`; None if this way cannot reach it.
pub fn reach(way: Way, code: u8, r1: u8, own: u32, address: u32) -> Option<Reaching> {
    /// Bits above an address of 20 bits, which must not matter.
    const ABOVE: u32 = 0xABC0_0000;
    let next = own.wrapping_add(4);
    let distance = address.wrapping_sub(next) as i32;
    let rest = |base: u32| address.wrapping_sub(base).wrapping_add(ABOVE);
    let (halfwords, indexes) = match way {
        Way::Direct if address < 0x4000 => (rx1(code, r1, 0, address as u16), vec![]),
        Way::Relative if (-0x4000..0x4000).contains(&distance) => {
            (rx2(code, r1, 0, distance), vec![])
        }
        Way::Direct | Way::Relative => return None,
        Way::DirectIndexed => (rx1(code, r1, INDEX, 0x3FFC), vec![(INDEX, rest(0x3FFC))]),
        Way::RelativeIndexed => (
            rx2(code, r1, INDEX, -0x1234),
            vec![(INDEX, rest(next.wrapping_sub(0x1234)))],
        ),
        Way::Long => (rx3(code, r1, 0, 0, address | 0xA0_0000), vec![]),
        Way::LongFirstIndexed => (
            rx3(code, r1, INDEX, 0, 0xFF_FFF0),
            vec![(INDEX, rest(0xFF_FFF0))],
        ),
        Way::LongSecondIndexed => (
            rx3(code, r1, 0, SECOND_INDEX, 0x12_3456),
            vec![(SECOND_INDEX, rest(0x12_3456))],
        ),
        Way::LongTwiceIndexed => (
            rx3(code, r1, INDEX, SECOND_INDEX, 0x80_0000),
            vec![(INDEX, 0xFFFF_FFF8), (SECOND_INDEX, rest(0x7F_FFF8))],
        ),
    };
    Some(Reaching { halfwords, indexes })
}

#[cfg(test)]
mod tests {
    use super::*;
    use crate::generate::expected;

    /// LA shows the address that an instruction reaches.
    fn reached(way: Way, own: u32, address: u32) -> Option<u32> {
        let Reaching { halfwords, indexes } = reach(way, 0xE6, 1, own, address)?;
        let mut writer = Writer::new();
        writer.halfwords(own, &halfwords);
        for (number, value) in indexes {
            writer.register(0, number, value);
        }
        writer.status(0);
        writer.location(own);
        writer.go(1);
        Some(expected(&writer.finish()).sets[0][1])
    }

    #[test]
    fn every_way_reaches_its_address() {
        for way in WAYS {
            for address in [0, 1, 0x1000, 0x3FFF, 0x1_1000, 0xF_FFFF] {
                let address_reached = reached(way, 0xA00, address);
                let direct = matches!(way, Way::Direct | Way::Relative);
                if !direct || address < 0x4000 {
                    assert_eq!(address_reached, Some(address), "{way:?}");
                }
            }
        }
    }
}
