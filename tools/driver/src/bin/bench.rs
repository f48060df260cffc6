//! Times the original's scalar route, its slice functions over typed slices, and ours, the byte route of the proved library and its typed
//! entries, in one run; and the preview beside the conversion. Prints ns per element, the best of several repeats, and the ratio.
use driver::samples::Random;
use driver::{
    entries, ours, ours_preview, range_of, rounding_of, typed, typed_entries, width, Element, Settings, Typed, KINDS, RANGES, RULES,
};
use original::{
    convert_slice_float_to_float, convert_slice_float_to_int, convert_slice_int_to_float, convert_slice_int_to_int, f16, CastFloat,
    CastInt, CastInto, FloatToFloatConfig, FloatToIntConfig, IntToFloatConfig, IntToIntConfig,
};
use std::hint::black_box;
use std::time::Instant;

/// A row: settings, the source bytes, the map, and what the row is called beside them.
struct Row {
    s: Settings,
    src: Vec<u8>,
    keys: Vec<u8>,
    targets: Vec<u8>,
    note: &'static str,
}

/// The original's time for one pass, in seconds, the best of `repeats`.
type Original = fn(&Row, usize) -> f64;

/// The best time of so many repeats, each of as many passes as last a millisecond or more.
fn best(repeats: usize, mut pass: impl FnMut()) -> f64 {
    let start = Instant::now();
    pass();
    let once = start.elapsed().as_secs_f64().max(1e-9);
    let passes = (0.001 / once).ceil().max(1.0) as usize;
    let mut least = f64::MAX;
    for _ in 0..repeats {
        let start = Instant::now();
        for _ in 0..passes {
            pass();
        }
        least = least.min(start.elapsed().as_secs_f64() / passes as f64);
    }
    least
}

macro_rules! original {
    ($name:ident, $config:ident, $convert:ident, $src:ident, $dst:ident $(, $field:ident)?) => {
        fn $name<S: Element + $src + CastInto<D>, D: Element + $dst>(row: &Row, repeats: usize) -> f64 {
            let src: Vec<S> = row.src.chunks_exact(S::SIZE).map(S::read).collect();
            let zero = [0u8; 8];
            let mut dst: Vec<D> = vec![D::read(&zero[..D::SIZE]); src.len()];
            let config = $config {
                map_entries: entries::<S, D>(&row.keys, &row.targets),
                $($field: rounding_of(row.s.rounding),)?
                out_of_range: range_of(row.s.range),
            };
            best(repeats, || {
                $convert(black_box(&src), black_box(&mut dst), black_box(&config)).expect("nothing is refused");
            })
        }
    };
}

original!(
    float_int,
    FloatToIntConfig,
    convert_slice_float_to_int,
    CastFloat,
    CastInt,
    rounding
);
original!(int_int, IntToIntConfig, convert_slice_int_to_int, CastInt, CastInt);
original!(
    float_float,
    FloatToFloatConfig,
    convert_slice_float_to_float,
    CastFloat,
    CastFloat,
    rounding
);
original!(
    int_float,
    IntToFloatConfig,
    convert_slice_int_to_float,
    CastInt,
    CastFloat,
    rounding
);

fn proved(row: &Row, repeats: usize) -> f64 {
    let mut dst = vec![0u8; row.src.len() / width(row.s.from) * width(row.s.to)];
    best(repeats, || {
        let (a, _) = ours(black_box(row.s), black_box(&row.src), black_box(&mut dst), &row.keys, &row.targets);
        assert_eq!(a.number, 0, "nothing is refused");
    })
}

/// The preview of the row over what its conversion leaves, or over bytes of which each differs from that.
fn foreseen(row: &Row, repeats: usize, other: bool) -> f64 {
    let mut dst = vec![0u8; row.src.len() / width(row.s.from) * width(row.s.to)];
    ours(row.s, &row.src, &mut dst, &row.keys, &row.targets);
    let due = if other { dst.len() as u64 } else { 0 };
    dst.iter_mut().for_each(|b| *b ^= u8::from(other));
    best(repeats, || {
        let (a, _, changed) = ours_preview(black_box(row.s), black_box(&row.src), black_box(&dst), &row.keys, &row.targets);
        assert_eq!((a.number, changed), (0, due), "nothing is refused");
    })
}

fn typed_call<S: Typed<D>, D: Element>(row: &Row, repeats: usize) -> f64 {
    let src: Vec<S> = row.src.chunks_exact(S::SIZE).map(S::read).collect();
    let zero = [0u8; 8];
    let mut dst: Vec<D> = vec![D::read(&zero[..D::SIZE]); src.len()];
    let entries = typed_entries::<S, D>(&row.keys, &row.targets);
    best(repeats, || {
        let (a, _) = typed(row.s, black_box(&src), black_box(&mut dst), &entries);
        assert_eq!(a.number, 0, "nothing is refused");
    })
}

/// The typed call of two kinds, where there is one.
fn typed_entry(from: u8, to: u8) -> Option<Original> {
    match (from, to) {
        (9, 4) => Some(typed_call::<f64, u8>),
        (9, 2) => Some(typed_call::<f64, i32>),
        (8, 4) => Some(typed_call::<f32, u8>),
        (9, 8) => Some(typed_call::<f64, f32>),
        (3, 8) => Some(typed_call::<i64, f32>),
        _ => None,
    }
}

/// n elements of a kind, each by `make`.
fn fill<T: Element>(n: usize, mut make: impl FnMut(&mut Random) -> T) -> Vec<u8> {
    let mut r = Random(7);
    let mut out = vec![0; n * T::SIZE];
    for place in out.chunks_exact_mut(T::SIZE) {
        make(&mut r).write(place);
    }
    out
}

/// A number from 0 to below 1.
fn unit(r: &mut Random) -> f64 {
    (r.next() >> 11) as f64 / 2f64.powi(53)
}

fn between(lo: f64, hi: f64) -> impl FnMut(&mut Random) -> f64 {
    move |r| lo + (hi - lo) * unit(r)
}

fn rows(n: usize) -> Vec<(Row, Original)> {
    let mut out: Vec<(Row, Original)> = Vec::new();
    let mut add = |from, to, rounding, range, note, src: Vec<u8>, entries: usize, original: Original| {
        // keys that no element of the data has, so that the whole map is searched each time
        let keys: Vec<u8> = (0..entries).flat_map(|i| (1e6 + i as f64).to_le_bytes()).collect();
        let targets = vec![9u8; entries];
        out.push((
            Row {
                s: Settings { from, to, rounding, range },
                src,
                keys,
                targets,
                note,
            },
            original,
        ));
    };
    for rounding in [0, 1, 4] {
        add(
            9,
            4,
            rounding,
            1,
            "-100 to 400",
            fill(n, between(-100.0, 400.0)),
            0,
            float_int::<f64, u8>,
        );
    }
    add(9, 2, 0, 1, "-3e9 to 3e9", fill(n, between(-3e9, 3e9)), 0, float_int::<f64, i32>);
    add(9, 2, 0, 0, "-2e9 to 2e9", fill(n, between(-2e9, 2e9)), 0, float_int::<f64, i32>);
    add(
        8,
        4,
        0,
        1,
        "-100 to 400",
        fill::<f32>(n, |r| (-100.0 + 500.0 * unit(r)) as f32),
        0,
        float_int::<f32, u8>,
    );
    for rounding in [0, 1, 4] {
        add(
            9,
            8,
            rounding,
            0,
            "-1e6 to 1e6",
            fill(n, between(-1e6, 1e6)),
            0,
            float_float::<f64, f32>,
        );
    }
    for rounding in [0, 1, 4] {
        add(
            3,
            8,
            rounding,
            0,
            "any i64",
            fill::<i64>(n, |r| r.next() as i64),
            0,
            int_float::<i64, f32>,
        );
    }
    for rounding in [0, 1, 4] {
        add(
            9,
            10,
            rounding,
            0,
            "-6e4 to 6e4",
            fill(n, between(-6e4, 6e4)),
            0,
            float_float::<f64, f16>,
        );
    }
    for rounding in [0, 1, 4] {
        add(
            8,
            10,
            rounding,
            0,
            "-6e4 to 6e4",
            fill::<f32>(n, |r| (-6e4 + 12e4 * unit(r)) as f32),
            0,
            float_float::<f32, f16>,
        );
    }
    add(
        10,
        8,
        0,
        0,
        "any f16",
        fill::<u16>(n, |r| r.next() as u16),
        0,
        float_float::<f16, f32>,
    );
    add(
        5,
        10,
        0,
        0,
        "0 to 65519",
        fill::<u16>(n, |r| r.below(65520) as u16),
        0,
        int_float::<u16, f16>,
    );
    add(9, 3, 0, 2, "in range", fill(n, between(-1e18, 1e18)), 0, float_int::<f64, i64>);
    add(9, 3, 0, 2, "far out", fill(n, between(-1e25, 1e25)), 0, float_int::<f64, i64>);
    add(5, 0, 0, 1, "any u16", fill::<u16>(n, |r| r.next() as u16), 0, int_int::<u16, i8>);
    add(4, 4, 0, 0, "any u8", fill::<u8>(n, |r| r.next() as u8), 0, int_int::<u8, u8>);
    for (entries, note) in [(0, "map of 0"), (1, "map of 1"), (8, "map of 8")] {
        add(9, 4, 0, 1, note, fill(n, between(-100.0, 400.0)), entries, float_int::<f64, u8>);
    }
    out
}

/// The first two cells of a line: the conversion and its data.
fn title(row: &Row) -> String {
    let s = row.s;
    let [from, to] = [s.from, s.to].map(|kind| KINDS[kind as usize]);
    format!(
        "| {from} to {to}, {}, {} | {} |",
        RANGES[s.range as usize], RULES[s.rounding as usize], row.note
    )
}

/// The preview beside the conversion of the same chunk.
fn previews(repeats: usize) {
    println!();
    println!(
        "the preview of the same chunks, over a destination that holds what the conversion leaves, and over one that differs from it in every byte"
    );
    println!("| conversion | data | convert 4,096 | preview, same | preview, other | convert 1,000,000 | preview, same | preview, other |");
    println!("|---|---|---|---|---|---|---|---|");
    for ((small, _), (large, _)) in rows(4096).into_iter().zip(rows(1_000_000)) {
        print!("{}", title(&small));
        for row in [&small, &large] {
            let n = row.src.len() as f64 / width(row.s.from) as f64;
            let mut times = [f64::MAX; 3];
            for _ in 0..3 {
                let turn = repeats.div_ceil(3);
                let now = [proved(row, turn), foreseen(row, turn, false), foreseen(row, turn, true)];
                times = [0, 1, 2].map(|i| times[i].min(now[i]));
            }
            for t in times {
                print!(" {:.2} |", t / n * 1e9);
            }
        }
        println!();
    }
}

fn main() {
    let repeats: usize = std::env::args().nth(1).map_or(15, |a| a.parse().expect("a number of repeats"));
    println!("ns per element, best of {repeats} repeats; ratio is ours to the original's; typed is the typed call, where there is one");
    println!("| conversion | data | original 4,096 | ours 4,096 | ratio | typed 4,096 | original 1,000,000 | ours 1,000,000 | ratio | typed 1,000,000 |");
    println!("|---|---|---|---|---|---|---|---|---|---|");
    for ((small, original), (large, _)) in rows(4096).into_iter().zip(rows(1_000_000)) {
        let s = small.s;
        print!("{}", title(&small));
        for row in [&small, &large] {
            let n = row.src.len() as f64 / width(s.from) as f64;
            // both in turn, so that what else the machine does falls on both
            let (mut a, mut b, mut c) = (f64::MAX, f64::MAX, f64::MAX);
            for _ in 0..3 {
                a = a.min(original(row, repeats.div_ceil(3)));
                b = b.min(proved(row, repeats.div_ceil(3)));
                if let Some(typed) = typed_entry(s.from, s.to) {
                    c = c.min(typed(row, repeats.div_ceil(3)));
                }
            }
            let typed = typed_entry(s.from, s.to).map_or(String::new(), |_| format!("{:.2} ", c / n * 1e9));
            print!(" {:.2} | {:.2} | {:.2} | {typed}|", a / n * 1e9, b / n * 1e9, b / a);
        }
        println!();
    }
    previews(repeats);
}
