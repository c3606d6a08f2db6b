//! Results and condition codes of the arithmetic, as functions of numbers alone.
//!
//! A result comes with its code: C is 8, V is 4, G is 2 and L is 1.

pub const C: u32 = 8;
pub const V: u32 = 4;
pub const G: u32 = 2;
pub const L: u32 = 1;

/// The code of a comparison that found less.
pub const LESS: u32 = C | L;

/// G for a positive result, L for a negative one, nothing for zero.
pub fn sign(result: u32) -> u32 {
    match result as i32 {
        0 => 0,
        1.. => G,
        _ => L,
    }
}

fn when(condition: bool, code: u32) -> u32 {
    if condition {
        code
    } else {
        0
    }
}

pub fn add(a: u32, b: u32) -> (u32, u32) {
    let (sum, carry) = a.overflowing_add(b);
    let (_, overflow) = (a as i32).overflowing_add(b as i32);
    (sum, sign(sum) | when(carry, C) | when(overflow, V))
}

pub fn subtract(a: u32, b: u32) -> (u32, u32) {
    let (difference, borrow) = a.overflowing_sub(b);
    let (_, overflow) = (a as i32).overflowing_sub(b as i32);
    (
        difference,
        sign(difference) | when(borrow, C) | when(overflow, V),
    )
}

pub fn compare_signed(a: u32, b: u32) -> u32 {
    order((a as i32).cmp(&(b as i32)))
}

pub fn compare_unsigned(a: u32, b: u32) -> u32 {
    order(a.cmp(&b))
}

fn order(ordering: std::cmp::Ordering) -> u32 {
    match ordering {
        std::cmp::Ordering::Less => LESS,
        std::cmp::Ordering::Equal => 0,
        std::cmp::Ordering::Greater => G,
    }
}

/// The signed product of 64 bits, as its high and its low half.
pub fn multiply(a: u32, b: u32) -> (u32, u32) {
    let product = i64::from(a as i32) * i64::from(b as i32);
    ((product >> 32) as u32, product as u32)
}

/// The quotient and the remainder, both as 32 bits. None is an arithmetic fault.
pub fn divide(high: u32, low: u32, divisor: u32) -> Option<(u32, u32)> {
    let dividend = (u64::from(high) << 32 | u64::from(low)) as i64;
    let divisor = i64::from(divisor as i32);
    let quotient = dividend.checked_div(divisor)?;
    let remainder = dividend.checked_rem(divisor)?;
    let quotient = i32::try_from(quotient).ok()?;
    Some((quotient as u32, remainder as u32))
}

/// The code of a shift whose last bit out stood at `position`, counted from the right.
fn shifted(old: u32, position: u32, result: u32) -> (u32, u32) {
    (result, sign(result) | when(old >> position & 1 == 1, C))
}

/// Counts are 0 to 31 in all the shifts.
pub fn shift_right(value: u32, count: u32) -> (u32, u32) {
    match count {
        0 => (value, sign(value)),
        _ => shifted(value, count - 1, value >> count),
    }
}

pub fn shift_left(value: u32, count: u32) -> (u32, u32) {
    match count {
        0 => (value, sign(value)),
        _ => shifted(value, 32 - count, value << count),
    }
}

pub fn shift_right_arithmetic(value: u32, count: u32) -> (u32, u32) {
    match count {
        0 => (value, sign(value)),
        _ => shifted(value, count - 1, (value as i32 >> count) as u32),
    }
}

/// Bit 0 stays; the other 31 bits move.
pub fn shift_left_arithmetic(value: u32, count: u32) -> (u32, u32) {
    const BIT_0: u32 = 0x8000_0000;
    match count {
        0 => (value, sign(value)),
        _ => shifted(value, 31 - count, value & BIT_0 | (value << count) & !BIT_0),
    }
}
