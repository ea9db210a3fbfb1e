//! Stands in for wide.rs of the source: whole numbers as 64-bit limbs, lowest first, in two's
//! complement at a width that the caller keeps. The behaviour is the one that bits.rs and
//! consteval.rs rely on; a result that takes a width has exactly `limb_count` limbs and is zero
//! from that width on.

use std::cmp::Ordering;

const LIMB: u32 = 64;

pub fn limb_count(width: u32) -> usize {
    width.div_ceil(LIMB) as usize
}

pub fn zeros(width: u32) -> Vec<u64> {
    vec![0; limb_count(width)]
}

/// Clears every bit from `width` on.
pub fn mask_to_width(limbs: &mut [u64], width: u32) {
    for (i, limb) in limbs.iter_mut().enumerate() {
        let below = (width as usize).saturating_sub(i * LIMB as usize);
        if below < LIMB as usize {
            *limb &= (1 << below) - 1;
        }
    }
}

/// Bits past the last limb are 0.
pub fn bit_at(limbs: &[u64], bit: u32) -> bool {
    limb_at(limbs, (bit / LIMB) as usize) >> (bit % LIMB) & 1 == 1
}

/// From width `from` to width `to`, repeating the top bit where `signed`.
pub fn extend(limbs: &[u64], from: u32, to: u32, signed: bool) -> Vec<u64> {
    let mut out = zeros(to);
    for (i, limb) in out.iter_mut().enumerate() {
        *limb = limb_at(limbs, i);
    }
    mask_to_width(&mut out, from);
    if signed && from > 0 && bit_at(limbs, from - 1) {
        set_from(&mut out, from);
    }
    mask_to_width(&mut out, to);
    out
}

pub fn add(a: &[u64], b: &[u64], width: u32) -> Vec<u64> {
    let mut carry = false;
    let mut out = zeros(width);
    for (i, limb) in out.iter_mut().enumerate() {
        let (sum, over) = limb_at(a, i).overflowing_add(limb_at(b, i));
        let (sum, over_too) = sum.overflowing_add(carry as u64);
        *limb = sum;
        carry = over || over_too;
    }
    mask_to_width(&mut out, width);
    out
}

pub fn sub(a: &[u64], b: &[u64], width: u32) -> Vec<u64> {
    let mut borrow = false;
    let mut out = zeros(width);
    for (i, limb) in out.iter_mut().enumerate() {
        let (rest, under) = limb_at(a, i).overflowing_sub(limb_at(b, i));
        let (rest, under_too) = rest.overflowing_sub(borrow as u64);
        *limb = rest;
        borrow = under || under_too;
    }
    mask_to_width(&mut out, width);
    out
}

/// The product modulo 2^width: right for two's complement once both sides are extended to it.
pub fn mul(a: &[u64], b: &[u64], width: u32) -> Vec<u64> {
    let mut out = zeros(width);
    let len = out.len();
    for (i, &x) in a.iter().enumerate().take(len) {
        let mut carry = 0u128;
        for (j, limb) in out[i..].iter_mut().enumerate() {
            let sum = x as u128 * limb_at(b, j) as u128 + *limb as u128 + carry;
            *limb = sum as u64;
            carry = sum >> LIMB;
        }
    }
    mask_to_width(&mut out, width);
    out
}

pub fn shl(limbs: &[u64], amount: u32, width: u32) -> Vec<u64> {
    let (skip, bits) = ((amount / LIMB) as usize, amount % LIMB);
    let mut out = zeros(width);
    for (i, limb) in out.iter_mut().enumerate().skip(skip) {
        let here = limb_at(limbs, i - skip) << bits;
        let below = if i > skip {
            carried(limb_at(limbs, i - skip - 1), bits)
        } else {
            0
        };
        *limb = here | below;
    }
    mask_to_width(&mut out, width);
    out
}

/// Zeros come in from above; there are as many limbs as before.
pub fn shr(limbs: &[u64], amount: u32) -> Vec<u64> {
    let (skip, bits) = ((amount / LIMB) as usize, amount % LIMB);
    let shifted = |i: usize| {
        let above = limb_at(limbs, i + skip + 1);
        limb_at(limbs, i + skip) >> bits | if bits == 0 { 0 } else { above << (LIMB - bits) }
    };
    (0..limbs.len()).map(shifted).collect()
}

pub fn bitand(a: &[u64], b: &[u64]) -> Vec<u64> {
    limbwise(a, b, |x, y| x & y)
}

pub fn bitor(a: &[u64], b: &[u64]) -> Vec<u64> {
    limbwise(a, b, |x, y| x | y)
}

pub fn bitxor(a: &[u64], b: &[u64]) -> Vec<u64> {
    limbwise(a, b, |x, y| x ^ y)
}

/// Compares two's complement numbers of one width.
pub fn cmp_signed(a: &[u64], b: &[u64], width: u32) -> Ordering {
    let negative = |limbs: &[u64]| width > 0 && bit_at(limbs, width - 1);
    match (negative(a), negative(b)) {
        (true, false) => Ordering::Less,
        (false, true) => Ordering::Greater,
        _ => a.iter().rev().cmp(b.iter().rev()),
    }
}

pub fn to_decimal_string(limbs: &[u64], width: u32, signed: bool) -> String {
    let negative = signed && width > 0 && bit_at(limbs, width - 1);
    let magnitude = if negative {
        sub(&[], limbs, width)
    } else {
        extend(limbs, width, width, false)
    };
    let digits = decimal_digits(magnitude);
    if negative {
        format!("-{digits}")
    } else {
        digits
    }
}

/// Limbs past the last are 0.
fn limb_at(limbs: &[u64], i: usize) -> u64 {
    limbs.get(i).copied().unwrap_or(0)
}

/// What a shift by `bits` pushes out of a limb at the top.
fn carried(limb: u64, bits: u32) -> u64 {
    if bits == 0 { 0 } else { limb >> (LIMB - bits) }
}

/// Sets every bit from `width` on.
fn set_from(limbs: &mut [u64], width: u32) {
    for (i, limb) in limbs.iter_mut().enumerate() {
        let below = (width as usize).saturating_sub(i * LIMB as usize);
        if below < LIMB as usize {
            *limb |= u64::MAX << below;
        }
    }
}

fn limbwise(a: &[u64], b: &[u64], f: impl Fn(u64, u64) -> u64) -> Vec<u64> {
    (0..a.len().max(b.len()))
        .map(|i| f(limb_at(a, i), limb_at(b, i)))
        .collect()
}

fn decimal_digits(mut limbs: Vec<u64>) -> String {
    const GROUP: u64 = 1_000_000_000_000_000_000;
    let mut groups = Vec::new();
    while limbs.iter().any(|&limb| limb != 0) {
        groups.push(divide(&mut limbs, GROUP));
    }
    let mut digits = groups.pop().unwrap_or(0).to_string();
    for group in groups.iter().rev() {
        digits.push_str(&format!("{group:018}"));
    }
    digits
}

/// Divides in place and gives the remainder.
fn divide(limbs: &mut [u64], by: u64) -> u64 {
    let mut rest = 0u128;
    for limb in limbs.iter_mut().rev() {
        let part = rest << LIMB | *limb as u128;
        *limb = (part / by as u128) as u64;
        rest = part % by as u128;
    }
    rest as u64
}
