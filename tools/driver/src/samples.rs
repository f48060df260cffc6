//! Elements to compare on: every edge of a kind, and random ones that lean towards halfway points and ends.
use crate::{exact, is_float};

/// splitmix64
pub struct Random(pub u64);

impl Random {
    pub fn next(&mut self) -> u64 {
        self.0 = self.0.wrapping_add(0x9e37_79b9_7f4a_7c15);
        let mut z = self.0;
        z = (z ^ (z >> 30)).wrapping_mul(0xbf58_476d_1ce4_e5b9);
        z = (z ^ (z >> 27)).wrapping_mul(0x94d0_49bb_1331_11eb);
        z ^ (z >> 31)
    }

    pub fn below(&mut self, n: u64) -> u64 {
        ((u128::from(self.next()) * u128::from(n)) >> 64) as u64
    }
}

fn bits_of(kind: u8) -> u32 {
    crate::width(kind) as u32 * 8
}

fn masked(kind: u8, pattern: u64) -> u64 {
    let n = bits_of(kind);
    if n == 64 {
        pattern
    } else {
        pattern & ((1 << n) - 1)
    }
}

/// A float kind's fraction bits and exponent field's bits.
fn format(kind: u8) -> (u32, u32) {
    match kind {
        8 => (23, 8),
        9 => (52, 11),
        _ => (10, 5),
    }
}

/// The pattern of m * 2^e in a float kind, cut off where it does not fit.
fn float_pattern(kind: u8, m: f64, e: i32) -> u64 {
    let (a, b) = (e / 2, e - e / 2);
    let x = m * 2f64.powi(a) * 2f64.powi(b);
    match kind {
        8 => u64::from((x as f32).to_bits()),
        9 => x.to_bits(),
        _ => exact::f64_to_f16(0, x.to_bits()),
    }
}

/// Every edge value of a kind, as patterns, each once, smallest first: those that its own format, f32 and f64 have, and what f16 adds to them.
pub fn edges(kind: u8) -> Vec<u64> {
    let mut out = own_edges(kind);
    for x in if is_float(kind) { float_edges(kind) } else { integer_edges(kind) } {
        for d in 0..5 {
            let y = x.wrapping_add(d).wrapping_sub(2);
            let negated = if is_float(kind) {
                y ^ 1 << (bits_of(kind) - 1)
            } else {
                y.wrapping_neg()
            };
            out.extend([y, negated].map(|y| masked(kind, y)));
        }
    }
    out.sort_unstable();
    out.dedup();
    out
}

/// What f16 tells of the floats of a kind: halfway points of its smallest numbers, its ends, and at each power of two a half and one and a half
/// steps above and a half below.
fn float_edges(kind: u8) -> Vec<u64> {
    let of = |m: f64, e: i32| float_pattern(kind, m, e);
    let mut out: Vec<u64> = (0..40).map(|k| of(f64::from(k), -25)).collect();
    // its largest subnormal and its largest number, each with the halfway point and the power of two above it
    for (e, largest) in [(-24, 1023.0), (5, 2047.0)] {
        out.extend([largest, largest + 0.5, largest + 1.0].map(|m| of(m, e)));
    }
    for e in -26..18 {
        out.extend([2049.0, 2051.0, 4095.0].map(|m| of(m, e - 11)));
    }
    out
}

/// The same of the integers of a kind: halfway points at 11 significant bits, with an even and an odd neighbour below, and what is just short of a
/// carry; its largest number, and the halfway point above that.
fn integer_edges(kind: u8) -> Vec<u64> {
    let mut out = vec![65504, 65520];
    for k in 11..bits_of(kind) {
        let (top, unit) = (1u64 << k, 1u64 << (k - 10));
        out.extend([top + unit / 2, top + unit + unit / 2, top.wrapping_mul(2).wrapping_sub(unit / 2)]);
    }
    out
}

/// The edge values that a kind's own format, f32 and f64 have.
fn own_edges(kind: u8) -> Vec<u64> {
    let mut out = Vec::new();
    let n = bits_of(kind);
    if !is_float(kind) {
        let mut near = |x: u64| {
            for d in 0..5 {
                let y = x.wrapping_add(d).wrapping_sub(2);
                out.push(y);
                out.push(0u64.wrapping_sub(y));
            }
        };
        for k in 0..n {
            near(1 << k);
            // halfway points at 24 and at 53 significant bits, with an even and an odd neighbour below, and what is just short of a carry
            for digits in [24, 53] {
                if digits <= k {
                    let unit = 1u64 << (k + 1 - digits);
                    near((1 << k) + unit / 2);
                    near((1 << k) + unit + unit / 2);
                    near((1u64 << k).wrapping_mul(2).wrapping_sub(unit / 2));
                    near((1 << k) + unit);
                }
            }
        }
        for pattern in &mut out {
            *pattern = masked(kind, *pattern);
        }
    } else {
        let (fraction, field) = format(kind);
        let sign = 1u64 << (n - 1);
        let infinity = ((1u64 << field) - 1) << fraction;
        let mut near = |x: u64| {
            for d in 0..7 {
                let y = x.wrapping_add(d).wrapping_sub(3);
                if y < sign {
                    out.push(y);
                    out.push(y | sign);
                }
            }
        };
        // each power of two, the subnormal ones too, with what is half and one and a half steps of f32 above it
        for e in 0..((1u64 << field) - 1) {
            let base = e << fraction;
            near(base);
            if kind == 9 {
                near(base + (1 << 28));
                near(base + (1 << 29) + (1 << 28));
                near(base + (1 << 52) - (1 << 28));
            }
        }
        for k in 0..fraction {
            near(1 << k);
        }
        // halfway between whole numbers, and whole numbers, at each size and around each target's ends
        for k in 0..300 {
            near(float_pattern(kind, f64::from(2 * k + 1), -1));
            near(float_pattern(kind, f64::from(k), 0));
        }
        for e in 0..66 {
            for d in [-2.5, -2.0, -1.5, -1.0, -0.5, 0.0, 0.5, 1.0, 1.5, 2.0] {
                near(float_pattern(kind, 2f64.powi(e) + d, 0) & !sign);
            }
        }
        // halfway points of f32's smallest numbers
        for k in 0..40 {
            near(float_pattern(kind, f64::from(k), -150));
        }
        near(infinity);
        // f32's largest number and the halfway point above it
        if kind == 9 {
            near(f64::from(f32::MAX).to_bits());
            near(f64::from(f32::MAX).to_bits() + (1 << 28));
            near(2f64.powi(128).to_bits());
        }
        for k in 0..fraction {
            for s in [0, sign] {
                out.push(s | infinity | 1 << k);
                out.push(s | infinity | ((1 << fraction) - 1) >> k);
                out.push(s | infinity | 1 << (fraction - 1) | 1 << k);
            }
        }
    }
    out.sort_unstable();
    out.dedup();
    out
}

/// A random pattern of a kind, one in six uniform and the others near a halfway point or an end.
pub fn biased(kind: u8, r: &mut Random) -> u64 {
    let n = bits_of(kind);
    let shape = r.below(6);
    if !is_float(kind) {
        if shape == 0 {
            return masked(kind, r.next());
        }
        // of a random size: near a halfway point at 11, at 24 or at 53 bits, or near a power of two
        let k = r.below(u64::from(n)) as u32;
        let top = 1u64 << k;
        let x = top | (r.next() & (top - 1));
        let digits = [11, 24, 53][r.below(3) as usize];
        let y = if 3 < shape || k < digits {
            (if shape == 4 { top } else { x }).wrapping_add(r.below(5)).wrapping_sub(2)
        } else {
            let unit = 1u64 << (k + 1 - digits);
            ((x & !(unit - 1)) | unit / 2).wrapping_add(r.below(3)).wrapping_sub(1)
        };
        return masked(kind, if r.below(2) == 0 { y } else { 0u64.wrapping_sub(y) });
    }
    let (fraction, field) = format(kind);
    let sign = r.below(2) << (n - 1);
    let near = |y: u64, r: &mut Random| {
        masked(
            kind,
            (y & !(1u64 << (n - 1))).wrapping_add(r.below(3)).wrapping_sub(1) & !(1u64 << (n - 1)) | sign,
        )
    };
    match shape {
        0 => masked(kind, r.next()),
        // a whole number of a random size, and half of one
        1 | 2 => {
            let k = r.below(66) as i32;
            let m = (r.next() >> 12) as f64 / 2f64.powi(52);
            let x = ((1.0 + m) * 2f64.powi(k)).floor() + if shape == 1 { 0.5 } else { 0.0 };
            let p = float_pattern(kind, x, 0);
            near(p, r)
        }
        // near an end of an integer target
        3 => {
            let e = [7, 8, 15, 16, 31, 32, 63, 64][r.below(8) as usize];
            // or of f16, 65504 and 65520
            let below = if e == 16 { 16.0 * r.below(3) as f64 } else { 0.0 };
            let x = 2f64.powi(e) - below + (r.below(17) as f64 - 8.0) / 4.0;
            let p = float_pattern(kind, x, 0);
            near(p, r)
        }
        // halfway between two numbers of f16, and what is just above or below, from the lowest bit up
        4 if r.below(2) == 0 && kind == 9 => {
            let x = exact::halfway(r.below(0x7c00)) | sign;
            let off = 1u64 << r.below(41);
            [x, x + 1, x - 1, x + off, x - off][r.below(5) as usize]
        }
        4 if r.below(2) == 0 => {
            let p = float_pattern(kind, f64::from_bits(exact::halfway(r.below(0x7c00))), 0);
            near(p, r)
        }
        // halfway between two numbers of f32, normal or subnormal
        4 => {
            let m = r.below(1 << 24) as f64 + 0.5;
            let e = r.below(280) as i32 - 150;
            let p = float_pattern(kind, m, e - if r.below(8) == 0 { 0 } else { 24 });
            near(p, r)
        }
        // near a power of two
        _ => {
            let e = r.below((1 << field) - 1);
            near(e << fraction, r)
        }
    }
}

/// An f64 near f16's numbers: one in eight any, the others at a halfway point, the one above MAX among them, or off it by a power of two from the
/// lowest bit up.
pub fn near_halves(r: &mut Random) -> u64 {
    let sign = r.below(2) << 63;
    let middle = exact::halfway(match r.below(8) {
        0 => return biased(9, r),
        1 => r.below(0x400),
        2 => 0x7bff - r.below(4),
        _ => r.below(0x7c00),
    });
    let off = 1 << if r.below(2) == 0 { 0 } else { r.below(43) };
    sign | [middle, middle + off, middle - off][r.below(3) as usize]
}
