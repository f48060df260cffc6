//! Converts 2.5 and 300 from f64 to u8: refused, clamped, by a map, and by the typed call; previews 7 and 300 from i16 to u8; and converts to f16.
use polskrea::{convert, convert_f64_to_u8, preview, Counts, Entry, Kind, Map, OutOfRangeMode, Preview, Refused, RoundingMode};

/// Prints what came of a call and the destination, and how the converted elements fared.
fn show(title: &str, answer: Result<Counts, Refused>, dst: &[u8]) {
    match answer {
        Ok(counts) => println!("{title}: ok; {dst:?}\n  {counts}"),
        Err(Refused { error, counts }) => println!("{title}: refused {}, {error}; {dst:?}\n  {counts}", error.number()),
    }
}

/// The byte route: elements are bytes, lowest first.
fn by_bytes() {
    let src: Vec<u8> = [2.5f64, 300.0].iter().flat_map(|x| x.to_le_bytes()).collect();
    let mut dst = [0u8; 2];
    let cast = |dst: &mut [u8], map, range| convert(&src, dst, map, Kind::F64, Kind::U8, RoundingMode::NearestEven, range);

    let answer = cast(&mut dst, Map::default(), OutOfRangeMode::None);
    show("none", answer, &dst);

    let answer = cast(&mut dst, Map::default(), OutOfRangeMode::Clamp);
    show("clamp", answer, &dst);

    // one entry: 300 goes to 7
    let map = Map {
        keys: &300f64.to_le_bytes(),
        targets: &[7],
    };
    let answer = cast(&mut dst, map, OutOfRangeMode::None);
    show("map", answer, &dst);
}

/// What a call would change of the bytes that stand there, before and after it is made.
fn before_overwriting() {
    let src: Vec<u8> = [7i16, 300].iter().flat_map(|x| x.to_le_bytes()).collect();
    let mut dst = [9u8, 44];
    let ask = |title: &str, dst: &[u8], range| {
        let Preview { answer, changed } = preview(&src, dst, Map::default(), Kind::I16, Kind::U8, RoundingMode::NearestEven, range);
        show(title, answer, dst);
        println!("  would change {changed} of {} bytes", dst.len());
    };
    ask("preview none", &dst, OutOfRangeMode::None);
    ask("preview wrap", &dst, OutOfRangeMode::Wrap);

    let (from, to, rounding) = (Kind::I16, Kind::U8, RoundingMode::NearestEven);
    let answer = convert(&src, &mut dst, Map::default(), from, to, rounding, OutOfRangeMode::Wrap);
    show("wrap", answer, &dst);
    ask("preview wrap again", &dst, OutOfRangeMode::Wrap);
}

/// Halves are their patterns, of two bytes: 65519 is rounded to 65504, the largest of them, 65520 overruns, and an f64 is rounded once.
fn to_f16() {
    let src: Vec<u8> = [65519u16, 65520].iter().flat_map(|x| x.to_le_bytes()).collect();
    let mut dst = [0u8; 4];
    let cast = |dst: &mut [u8], range| convert(&src, dst, Map::default(), Kind::U16, Kind::F16, RoundingMode::NearestEven, range);

    let answer = cast(&mut dst, OutOfRangeMode::None);
    show("f16 none", answer, &dst);

    let answer = cast(&mut dst, OutOfRangeMode::Clamp);
    show("f16 clamp", answer, &dst);

    // just above the middle of 1 and the next f16
    let src = (1.0 + 2f64.powi(-11) + 2f64.powi(-40)).to_le_bytes();
    let (from, to, rounding) = (Kind::F64, Kind::F16, RoundingMode::NearestEven);
    let answer = convert(&src, &mut dst[..2], Map::default(), from, to, rounding, OutOfRangeMode::None);
    show("f64 to f16", answer, &dst[..2]);
}

/// The typed call, with no map and with a typed one.
fn by_numbers() {
    let mut dst = [0u8; 2];
    let answer = convert_f64_to_u8(&[2.5, 300.0], &mut dst, &[], RoundingMode::NearestAway, OutOfRangeMode::None);
    show("typed none", answer, &dst);

    let entries = [Entry { key: 300.0, target: 7 }];
    let answer = convert_f64_to_u8(&[2.5, 300.0], &mut dst, &entries, RoundingMode::NearestAway, OutOfRangeMode::None);
    show("typed map", answer, &dst);
}

fn main() {
    by_bytes();
    before_overwriting();
    to_f16();
    by_numbers();
}
