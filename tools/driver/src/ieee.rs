//! The second opinion of ieee.c: what a conversion under clamp must give, from the machine's rounding modes and exact integer arithmetic; and the
//! processor's conversion from f32 to f16.
use crate::Settings;

extern "C" {
    fn ieee_f64_to_f32(src: *const f64, out: *mut f32, n: usize, rule: i32);
    fn ieee_f64_to_whole(src: *const f64, out: *mut f64, n: usize, rule: i32);
    fn ieee_i64_to_f32(src: *const i64, out: *mut f32, n: usize, rule: i32);
    fn ieee_i64_to_f64(src: *const i64, out: *mut f64, n: usize, rule: i32);
    fn ieee_u64_to_f32(src: *const u64, out: *mut f32, n: usize, rule: i32);
    fn ieee_u64_to_f64(src: *const u64, out: *mut f64, n: usize, rule: i32);
    fn ieee_has_f16() -> i32;
    fn ieee_f64_to_f16(src: *const f64, out: *mut u16, n: usize, rule: i32);
    fn ieee_f16_to_f64(src: *const u16, out: *mut f64, n: usize);
    fn ieee_f32_to_f16(src: *const f32, out: *mut u16, n: usize, rule: i32);
}

/// Whether the C compiler has f16.
pub fn has_f16() -> bool {
    // SAFETY: it takes nothing and returns a number.
    unsafe { ieee_has_f16() != 0 }
}

/// Whether the processor converts f32 to f16.
pub fn has_f16c() -> bool {
    std::arch::is_x86_feature_detected!("f16c")
}

/// The processor's conversion of f32 elements to f16 under clamp, for the rules that it has, 0 to 3: both as bytes.
pub fn by_f16c(rule: u8, src: &[u8], out: &mut Vec<u8>) {
    let (xs, magnitude) = (crate::view::<u32>(src), 0x7fff_ffff);
    let mut ys = vec![0u16; xs.len()];
    // SAFETY: both are as long as n says, and each pattern is an f32.
    unsafe { ieee_f32_to_f16(xs.as_ptr().cast(), ys.as_mut_ptr(), xs.len(), i32::from(rule)) };
    out.clear();
    out.extend(xs.iter().zip(ys).flat_map(|(x, y)| {
        // MAX from 2^16 on is no pick of the endless grid, which overruns there
        let past = (0x4780_0000..0x7f80_0000).contains(&(x & magnitude));
        (if past { (x >> 16 & 0x8000) as u16 | 0x7c00 } else { y }).to_le_bytes()
    }));
}

/// The pairs that have a second opinion: float to anything, and 32- and 64-bit integers to floats; with f16 where the compiler has it.
pub fn has_opinion(from: u8, to: u8) -> bool {
    if (from == 10 || to == 10) && !has_f16() {
        return false;
    }
    match from {
        8..=10 => true,
        2 | 3 | 6 | 7 => 8 <= to,
        _ => false,
    }
}

fn whole_ends(to: u8) -> (i128, i128) {
    let n = crate::width(to) as u32 * 8;
    if to < 4 {
        (-(1 << (n - 1)), (1 << (n - 1)) - 1)
    } else {
        (0, (1 << n) - 1)
    }
}

macro_rules! call {
    ($f:ident, $src:expr, $zero:expr, $rule:expr) => {{
        let mut out = vec![$zero; $src.len()];
        // SAFETY: both are as long as n says.
        unsafe { $f($src.as_ptr(), out.as_mut_ptr(), $src.len(), i32::from($rule)) };
        out
    }};
}

/// f64s in f16. The machine's MAX for 2^16 and more towards zero is no pick of the endless grid, which overruns there.
fn to_f16(xs: &[f64], rule: u8) -> Vec<Option<u64>> {
    let past = |x: f64| if x < 0.0 { 0xfc00 } else { 0x7c00 };
    call!(ieee_f64_to_f16, xs, 0u16, rule)
        .iter()
        .zip(xs)
        .map(|(y, x)| Some(u64::from(if x.abs() < 65536.0 || x.is_nan() { *y } else { past(*x) })))
        .collect()
}

/// Float patterns as f64s, exactly.
fn as_f64(kind: u8, patterns: &[u64]) -> Vec<f64> {
    if kind == 10 {
        let halves: Vec<u16> = patterns.iter().map(|p| *p as u16).collect();
        let mut out = vec![0.0; halves.len()];
        // SAFETY: both are as long as n says.
        unsafe { ieee_f16_to_f64(halves.as_ptr(), out.as_mut_ptr(), halves.len()) };
        return out;
    }
    let wide = |p: &u64| {
        if kind == 8 {
            f64::from(f32::from_bits(*p as u32))
        } else {
            f64::from_bits(*p)
        }
    };
    patterns.iter().map(wide).collect()
}

/// The target patterns of source patterns under clamp. `None` where the element has none: a NaN or an infinity to an integer kind.
pub fn opinion(s: Settings, patterns: &[u64]) -> Vec<Option<u64>> {
    let rule = s.rounding;
    if !crate::is_float(s.from) {
        if s.from < 4 {
            let xs: Vec<i64> = patterns
                .iter()
                .map(|p| if s.from == 2 { i64::from(*p as i32) } else { *p as i64 })
                .collect();
            return match s.to {
                // an integer that f64 does not hold overruns f16
                10 => to_f16(&xs.iter().map(|x| *x as f64).collect::<Vec<f64>>(), rule),
                8 => call!(ieee_i64_to_f32, xs, 0f32, rule)
                    .iter()
                    .map(|y| Some(u64::from(y.to_bits())))
                    .collect(),
                _ => call!(ieee_i64_to_f64, xs, 0f64, rule).iter().map(|y| Some(y.to_bits())).collect(),
            };
        }
        return match s.to {
            10 => to_f16(&patterns.iter().map(|x| *x as f64).collect::<Vec<f64>>(), rule),
            8 => call!(ieee_u64_to_f32, patterns, 0f32, rule)
                .iter()
                .map(|y| Some(u64::from(y.to_bits())))
                .collect(),
            _ => call!(ieee_u64_to_f64, patterns, 0f64, rule)
                .iter()
                .map(|y| Some(y.to_bits()))
                .collect(),
        };
    }
    let xs = as_f64(s.from, patterns);
    match s.to {
        10 => to_f16(&xs, rule),
        // widening and same-kind casts are exact
        9 => xs.iter().map(|x| Some(x.to_bits())).collect(),
        // the machine's MAX for 2^128 and more towards zero is no pick of the endless grid, which overruns there
        8 => call!(ieee_f64_to_f32, xs, 0f32, rule)
            .iter()
            .zip(&xs)
            .map(|(y, x)| {
                Some(u64::from(
                    if x.abs() < 2f64.powi(128) || x.is_nan() {
                        *y
                    } else {
                        f32::INFINITY.copysign(*x as f32)
                    }
                    .to_bits(),
                ))
            })
            .collect(),
        _ => {
            let (lo, hi) = whole_ends(s.to);
            let mask = if crate::width(s.to) == 8 {
                u64::MAX
            } else {
                (1 << (crate::width(s.to) * 8)) - 1
            };
            call!(ieee_f64_to_whole, xs, 0f64, rule)
                .iter()
                .map(|y| {
                    if !y.is_finite() {
                        return None;
                    }
                    // exact below 2^127, and far past every end from there on
                    let whole = *y as i128;
                    Some(whole.clamp(lo, hi) as u64 & mask)
                })
                .collect()
        }
    }
}
