//! The fixed list: a sample of the answers that are due, for the program `replay`: the original's, and with f16 those of exact integers.
use driver::compare::{due, whole_call};
use driver::samples::{edges, Random};
use driver::{all_settings, barred, is_float, permitted_settings, width, Answer, Reference, Settings, KINDS};

/// A map and elements that often meet it.
pub struct Sample {
    pub keys: Vec<u64>,
    pub targets: Vec<u64>,
    pub elements: Vec<u64>,
}

/// Patterns that a map is likely to get wrong.
fn special(kind: u8, r: &mut Random) -> u64 {
    let all: &[u64] = match kind {
        8 => &[
            0,
            0x8000_0000,
            0x7f80_0000,
            0xff80_0000,
            0x7fc0_0000,
            0xffc0_0000,
            0x7f80_0001,
            0xffff_ffff,
            1,
            0x8000_0001,
            0x3f80_0000,
        ],
        9 => &[
            0,
            1 << 63,
            0x7ff0 << 48,
            0xfff0 << 48,
            0x7ff8 << 48,
            0xfff8 << 48,
            (0x7ff0 << 48) + 1,
            u64::MAX,
            1,
            (1 << 63) + 1,
            0x3ff0 << 48,
        ],
        10 => &[0, 0x8000, 0x7c00, 0xfc00, 0x7e00, 0xfe00, 0x7c01, 0xffff, 1, 0x8001, 0x3c00],
        _ => &[0, 1, 2, 0x7f, 0x80, 0xff],
    };
    all[r.below(all.len() as u64) as usize]
}

fn some(kind: u8, edge: &[Vec<u64>], r: &mut Random) -> u64 {
    if r.below(2) == 0 {
        special(kind, r)
    } else {
        let all = &edge[kind as usize];
        all[r.below(all.len() as u64) as usize]
    }
}

/// A map of 0 to 8 entries with duplicates, and up to 40 elements.
pub fn a_map(s: Settings, edge: &[Vec<u64>], round: usize, r: &mut Random) -> Sample {
    let mut keys: Vec<u64> = Vec::new();
    for j in 0..round % 9 {
        let again = 0 < j && r.below(4) == 0;
        keys.push(if again {
            keys[r.below(j as u64) as usize]
        } else {
            some(s.from, edge, r)
        });
    }
    let targets = keys.iter().map(|_| some(s.to, edge, r)).collect();
    let elements = (0..1 + r.below(40))
        .map(|_| {
            if !keys.is_empty() && r.below(2) == 0 {
                keys[r.below(keys.len() as u64) as usize]
            } else {
                some(s.from, edge, r)
            }
        })
        .collect();
    Sample { keys, targets, elements }
}

/// The fields of a refusal in the list: the element counts of 4; position, value and ends of the others.
fn fields(a: &Answer) -> [u64; 4] {
    match a.number {
        4 => [a.src_len, a.dst_len, 0, 0],
        _ => [a.position, a.value, a.lowest, a.highest],
    }
}

/// A case. Its head has 46 bytes: the section, the four codes, the lengths of source, destination, keys and targets (16 bits each), the
/// number that is due and its four fields (64 bits each); every number lowest byte first. Its body has the source, the keys, the targets, and
/// the destination that is due after the call. Before the call each byte of the destination is 0xee.
fn case(out: &mut Vec<u8>, section: u8, s: Settings, src: &[u8], dst_len: usize, keys: &[u8], targets: &[u8]) {
    let (answer, after) = whole_call(s, src, &vec![0xee; dst_len], keys, targets);
    out.extend_from_slice(&[section, s.from, s.to, s.rounding, s.range]);
    for length in [src.len(), dst_len, keys.len(), targets.len()] {
        assert!(length <= 256);
        out.extend_from_slice(&(length as u16).to_le_bytes());
    }
    out.push(answer.number);
    for field in fields(&answer) {
        out.extend_from_slice(&field.to_le_bytes());
    }
    for part in [src, keys, targets, &after] {
        out.extend_from_slice(part);
    }
}

fn bytes_of(kind: u8, patterns: &[u64]) -> Vec<u8> {
    let mut out = Vec::new();
    for p in patterns {
        driver::put(&mut out, kind, *p);
    }
    out
}

/// A few edges of a kind that tell most: ends, halfway points, neighbours, and what is not finite.
fn telling(kind: u8) -> Vec<u64> {
    if !is_float(kind) {
        let n = width(kind) * 8;
        let mut all: Vec<u64> = Vec::new();
        for k in [0, 7, 8, 11, 15, 16, 24, 31, 32, 53, 63] {
            if k < n {
                for x in [(1u64 << k) - 1, 1 << k, (1 << k) + 1] {
                    all.push(x);
                    all.push(0u64.wrapping_sub(x));
                }
            }
        }
        if 16 <= n {
            all.extend([
                65503,
                65504,
                65519,
                65520,
                65521,
                0u64.wrapping_sub(65519),
                0u64.wrapping_sub(65520),
            ]);
        }
        if n == 64 {
            for x in [
                (1u64 << 40) + (1 << 16),
                (1 << 40) + (3 << 16),
                (1 << 60) + (1 << 7),
                (1 << 60) + (3 << 7),
                (1 << 60) + (1 << 36),
            ] {
                all.extend([x - 1, x, x + 1, 0u64.wrapping_sub(x)]);
            }
        }
        let mask = if n == 64 { u64::MAX } else { (1 << n) - 1 };
        let mut all: Vec<u64> = all.into_iter().map(|x| x & mask).collect();
        all.sort_unstable();
        all.dedup();
        return all;
    }
    if kind == 10 {
        return telling_halves();
    }
    let mut all = Vec::new();
    let mut xs = vec![
        0.0, 0.25, 0.5, 0.75, 1.0, 1.5, 2.5, 3.5, 126.5, 127.5, 128.5, 254.5, 255.5, 256.0, 300.0, 32767.5, 65535.5,
    ];
    for e in [31, 32, 53, 63, 64, 100] {
        xs.push(2f64.powi(e));
    }
    xs.extend([
        2147483647.5,
        4294967295.5,
        16777217.0,
        2f64.powi(-150),
        2f64.powi(-149),
        3.0 * 2f64.powi(-150),
        2f64.powi(-126),
        f64::INFINITY,
    ]);
    // f16's halfway points at 1, at its ends and among its smallest numbers
    xs.extend([1.0 + 2f64.powi(-11), 1.0 + 3.0 * 2f64.powi(-11), 65504.0, 65519.0, 65520.0, 65536.0]);
    xs.extend([
        2f64.powi(-25),
        3.0 * 2f64.powi(-25),
        2045.0 * 2f64.powi(-25),
        2047.0 * 2f64.powi(-25),
    ]);
    for x in xs {
        for y in [x, -x] {
            if kind == 8 {
                all.push(u64::from((y as f32).to_bits()));
            } else {
                all.push(y.to_bits());
            }
        }
    }
    if kind == 8 {
        all.extend([0x7f7f_ffff, 0xff7f_ffff, 1, 0x3eff_ffff, 0x7fc0_0000, 0xff80_0001]);
    } else {
        let max = f64::from(f32::MAX).to_bits();
        all.extend([
            max,
            max + (1 << 28) - 1,
            max + (1 << 28),
            max + (1 << 28) + 1,
            2f64.powi(128).to_bits(),
            2f64.powi(128).to_bits() | 1 << 63,
        ]);
        all.extend([
            0x3fdf_ffff_ffff_ffff,
            0x43df_ffff_ffff_ffff,
            0xc3e0_0000_0000_0001,
            0x7fef_ffff_ffff_ffff,
            1,
            (1 << 63) | 1,
        ]);
        // what is a tie of f16 once it is an f32
        all.extend([0x3ff0_0200_0000_1000, 0x40ef_fdff_fffe_0000, 0xfff0_0400_0000_0001]);
        all.extend([0x7ff8 << 48, (0xfff0 << 48) | 1, (-200f64).exp2().to_bits() | 1 << 63]);
    }
    all
}

/// The same of f16: zeros, the smallest numbers, 1, halves, whole numbers about the ends of the small kinds, MAX, infinities and NaNs.
fn telling_halves() -> Vec<u64> {
    let positive = [
        0, 1, 0x03ff, 0x0400, 0x3400, 0x3800, 0x3bff, 0x3c00, 0x3c01, 0x3e00, 0x4100, 0x4300, 0x57e8, 0x57f8, 0x5804, 0x5bf4, 0x5bfc,
        0x5c00, 0x5cb0, 0x77ff, 0x7800, 0x7bff, 0x7c00, 0x7c01, 0x7e00, 0x7fff,
    ];
    positive.iter().flat_map(|x| [*x, x | 0x8000]).collect()
}

pub fn write(file: &str) {
    let mut out: Vec<u8> = Vec::new();
    let edge: Vec<Vec<u64>> = (0..KINDS.len() as u8).map(edges).collect();
    let mut r = Random(0x4000);
    for (i, s) in permitted_settings().into_iter().enumerate() {
        let patterns = telling(s.from);
        let mut reference_of = Reference::default();
        due(s, &bytes_of(s.from, &patterns), &[], &[], &mut reference_of, &mut Vec::new());
        let refused: Vec<usize> = reference_of.refused.iter().map(|a| a.position as usize).collect();
        let (mut yes, mut no) = (Vec::new(), Vec::new());
        for (j, p) in patterns.iter().enumerate() {
            if refused.contains(&j) {
                no.push(*p);
            } else {
                yes.push(*p);
            }
        }
        // 1: what is accepted, in one chunk, at most 24 of it in turn
        let turn = i * 24 % yes.len();
        yes.rotate_left(turn);
        yes.truncate(24);
        let (sw, dw) = (s.from, width(s.to));
        case(&mut out, 1, s, &bytes_of(sw, &yes), yes.len() * dw, &[], &[]);
        // 2: refusals, at the front, in the middle and at the end of three elements
        for j in 0..no.len().min(3) {
            let mut chunk = [yes[0], yes[1 % yes.len()], yes[2 % yes.len()]];
            chunk[j % 3] = no[(i + j * 5) % no.len()];
            case(&mut out, 2, s, &bytes_of(sw, &chunk), 3 * dw, &[], &[]);
        }
        // 3: a map, in each third setting
        if i % 3 == 0 {
            let mut m = a_map(s, &edge, 1 + i / 3, &mut r);
            m.elements.truncate(12);
            case(
                &mut out,
                3,
                s,
                &bytes_of(s.from, &m.elements),
                m.elements.len() * dw,
                &bytes_of(s.from, &m.keys),
                &bytes_of(s.to, &m.targets),
            );
        }
    }
    // 4: broken lengths and bad codes
    let zeros = [0u8; 32];
    let mark = [0x77u8; 32];
    for from in 0..KINDS.len() as u8 {
        for to in 0..KINDS.len() as u8 {
            for (a, b, c, d) in [
                (1, 1, 0, 0),
                (7, 5, 3, 1),
                (8, 8, 8, 8),
                (16, 8, 8, 4),
                (8, 9, 0, 0),
                (9, 8, 0, 0),
                (0, 0, 0, 0),
                (0, 0, 8, 8),
                (16, 2, 16, 2),
            ] {
                let s = Settings {
                    from,
                    to,
                    rounding: r.below(5) as u8,
                    range: r.below(3) as u8,
                };
                case(&mut out, 4, s, &zeros[..a], b, &zeros[..c], &mark[..d]);
            }
        }
    }
    for code in [3, 5, 10, 11, 128, 255] {
        for place in 0..4 {
            for lengths in [(16, 16), (5, 3), (0, 0)] {
                let mut s = Settings {
                    from: 9,
                    to: 9,
                    rounding: 0,
                    range: 0,
                };
                *[&mut s.from, &mut s.to, &mut s.rounding, &mut s.range][place] = code;
                case(&mut out, 4, s, &zeros[..lengths.0], lengths.1, &[], &[]);
            }
        }
    }
    // 5: wrap with a float target, for three elements, for none, and with a broken destination, a broken map and counts that differ in turn
    for s in all_settings().into_iter().filter(|s| barred(*s)) {
        let (sw, dw) = (width(s.from), width(s.to));
        case(&mut out, 5, s, &zeros[..3 * sw], 3 * dw, &[], &[]);
        case(&mut out, 5, s, &[], 0, &zeros[..sw], &mark[..dw]);
        let broken = [(sw, dw + 1, 0, 0), (sw, dw, sw, 0), (2 * sw, dw, 0, 0)][s.rounding as usize % 3];
        case(&mut out, 5, s, &zeros[..broken.0], broken.1, &zeros[..broken.2], &mark[..broken.3]);
    }
    std::fs::write(file, &out).unwrap_or_else(|e| panic!("{file}: {e}"));
    println!("{file}: {} bytes", out.len());
}
