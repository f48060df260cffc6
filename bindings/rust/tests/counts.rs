//! How the elements fared: each class, what a refusal counts, and that every field of an answer is written, by the byte route and by the typed calls.
use polskrea::{
    convert, convert_f32_to_u8, convert_f64_to_f32, convert_f64_to_i32, convert_f64_to_u8, convert_i64_to_f32, sys, Counts, Entry, Kind,
    Map, OutOfRangeMode, Refused, RoundingMode,
};
use std::ptr::null;
use OutOfRangeMode::{Clamp, None as Refuse, Wrap};
use RoundingMode::{NearestAway, NearestEven, TowardsNegative, TowardsPositive, TowardsZero};

const ROUNDINGS: [RoundingMode; 5] = [NearestEven, TowardsZero, TowardsPositive, TowardsNegative, NearestAway];
const RANGES: [OutOfRangeMode; 3] = [Refuse, Clamp, Wrap];
/// Those that a float target may have.
const TO_FLOAT: [OutOfRangeMode; 2] = [Refuse, Clamp];

/// In the order of the fields.
fn counts([mapped, exact, rounded, clamped, wrapped]: [u64; 5]) -> Counts {
    Counts {
        mapped,
        exact,
        rounded,
        clamped,
        wrapped,
    }
}

/// As C has them: the first six fields, and the counts.
fn answer([src_len, dst_len, position, value, lowest, highest]: [u64; 6], counts: [u64; 5]) -> sys::Answer {
    let [mapped, exact, rounded, clamped, wrapped] = counts;
    sys::Answer {
        src_len,
        dst_len,
        position,
        value,
        lowest,
        highest,
        mapped,
        exact,
        rounded,
        clamped,
        wrapped,
    }
}

/// Bytes, lowest first, of the elements of any number type.
macro_rules! bytes {
    ($elements:expr) => {
        $elements.iter().flat_map(|x| x.to_le_bytes()).collect::<Vec<u8>>()
    };
}

/// The chunk call with no map on `src`, into a destination of its own.
fn cast(src: &[u8], from: Kind, to: Kind, rounding: RoundingMode, range: OutOfRangeMode) -> Result<Counts, Refused> {
    let mut dst = vec![0; src.len() / from.bytes() * to.bytes()];
    convert(src, &mut dst, Map::default(), from, to, rounding, range)
}

#[test]
fn mapped_whatever_the_target() {
    let map = Map {
        keys: &bytes!([f64::NAN, 0.0, 300.0, 2.5]),
        targets: &[1, 2, 3, 4],
    };
    let src = bytes!([f64::NAN, -f64::NAN, 0.0, -0.0, 300.0, 2.5, 1.0]);
    for range in RANGES {
        let got = convert(&src, &mut [0; 7], map, Kind::F64, Kind::U8, NearestEven, range);
        assert_eq!(got, Ok(counts([6, 1, 0, 0, 0])));
    }
}

#[test]
fn exact_where_the_number_is_the_same() {
    for (rounding, range) in ROUNDINGS.iter().flat_map(|o| RANGES.map(|r| (*o, r))) {
        let whole = bytes!([0.0f64, -0.0, 1.0, 255.0]);
        assert_eq!(cast(&whole, Kind::F64, Kind::U8, rounding, range), Ok(counts([0, 4, 0, 0, 0])));
        let integers = bytes!([0i16, 127, -128]);
        assert_eq!(cast(&integers, Kind::I16, Kind::I8, rounding, range), Ok(counts([0, 3, 0, 0, 0])));
    }
    for (rounding, range) in ROUNDINGS.iter().flat_map(|o| TO_FLOAT.map(|r| (*o, r))) {
        let special = bytes!([f64::NAN, f64::INFINITY, -f64::INFINITY, -0.0, 0.5, f64::from(f32::MAX)]);
        assert_eq!(cast(&special, Kind::F64, Kind::F32, rounding, range), Ok(counts([0, 6, 0, 0, 0])));
        assert_eq!(cast(&special, Kind::F64, Kind::F64, rounding, range), Ok(counts([0, 6, 0, 0, 0])));
        let widened = bytes!([f32::NAN, f32::MAX, f32::from_bits(1), 0.1]);
        assert_eq!(cast(&widened, Kind::F32, Kind::F64, rounding, range), Ok(counts([0, 4, 0, 0, 0])));
        let long = bytes!([1i64 << 24, -(1 << 62), (1 << 24) - 1]);
        assert_eq!(cast(&long, Kind::I64, Kind::F32, rounding, range), Ok(counts([0, 3, 0, 0, 0])));
        let halves = bytes!([f64::NAN, -f64::INFINITY, -0.0, 65504.0, 2f64.powi(-24), 2048.0]);
        assert_eq!(cast(&halves, Kind::F64, Kind::F16, rounding, range), Ok(counts([0, 6, 0, 0, 0])));
        let patterns = bytes!([0x7c01u16, 0xfc00, 0x8000, 0x7bff, 1]);
        for to in [Kind::F16, Kind::F32, Kind::F64] {
            assert_eq!(cast(&patterns, Kind::F16, to, rounding, range), Ok(counts([0, 5, 0, 0, 0])));
        }
        let even = bytes!([2047i32, -65504, 65472]);
        assert_eq!(cast(&even, Kind::I32, Kind::F16, rounding, range), Ok(counts([0, 3, 0, 0, 0])));
    }
}

#[test]
fn rounded_where_it_is_another() {
    for rounding in [TowardsZero, TowardsPositive, NearestEven, NearestAway] {
        let parts = bytes!([-0.3f64, 2.5, 254.25, 1.0]);
        for range in RANGES {
            assert_eq!(cast(&parts, Kind::F64, Kind::U8, rounding, range), Ok(counts([0, 1, 3, 0, 0])));
        }
        let fine = bytes!([0.1f64, -(2f64.powi(-200)), 1.0]);
        let long = bytes!([16_777_217i64, -16_777_217, i64::MAX, 0]);
        for range in TO_FLOAT {
            assert_eq!(cast(&fine, Kind::F64, Kind::F32, rounding, range), Ok(counts([0, 1, 2, 0, 0])));
            assert_eq!(cast(&long, Kind::I64, Kind::F32, rounding, range), Ok(counts([0, 1, 3, 0, 0])));
            assert_eq!(cast(&fine, Kind::F64, Kind::F16, rounding, range), Ok(counts([0, 1, 2, 0, 0])));
            let odd = bytes!([2049i32, -4099, 2048]);
            assert_eq!(cast(&odd, Kind::I32, Kind::F16, rounding, range), Ok(counts([0, 1, 2, 0, 0])));
        }
    }
}

#[test]
fn past_the_range_is_clamped_or_wrapped_alone() {
    let past = bytes!([300.0f64, -1.0, 255.5, 1e300, -0.75, 255.0]);
    assert_eq!(cast(&past, Kind::F64, Kind::U8, NearestEven, Clamp), Ok(counts([0, 1, 0, 5, 0])));
    assert_eq!(cast(&past, Kind::F64, Kind::U8, NearestEven, Wrap), Ok(counts([0, 1, 0, 0, 5])));
    assert_eq!(cast(&past, Kind::F64, Kind::U8, TowardsZero, Clamp), Ok(counts([0, 1, 2, 3, 0])));
    assert_eq!(cast(&past, Kind::F64, Kind::U8, TowardsZero, Wrap), Ok(counts([0, 1, 2, 0, 3])));
    let overrun = bytes!([1e300f64, -1e300, 2f64.powi(128), f64::INFINITY]);
    assert_eq!(
        cast(&overrun, Kind::F64, Kind::F32, TowardsZero, Clamp),
        Ok(counts([0, 1, 0, 3, 0]))
    );
    let integers = bytes!([65520u16, 65519, 65535, 65504]);
    assert_eq!(
        cast(&integers, Kind::U16, Kind::F16, NearestEven, Clamp),
        Ok(counts([0, 1, 1, 2, 0]))
    );
    assert_eq!(
        cast(&integers, Kind::U16, Kind::F16, TowardsZero, Clamp),
        Ok(counts([0, 1, 3, 0, 0]))
    );
    let bytes = bytes!([255u8, 127]);
    assert_eq!(cast(&bytes, Kind::U8, Kind::I8, NearestEven, Clamp), Ok(counts([0, 1, 0, 1, 0])));
    assert_eq!(cast(&bytes, Kind::U8, Kind::I8, NearestEven, Wrap), Ok(counts([0, 1, 0, 0, 1])));
}

/// One element mapped, one exact, one rounded, and then one that is refused, with one behind it.
#[test]
fn a_refusal_counts_what_stands_before_it() {
    for (to, last, number) in [
        (Kind::U8, f64::NAN, 5),
        (Kind::U8, 300.0, 6),
        (Kind::F32, 1e300, 7),
        (Kind::F16, 65520.0, 7),
    ] {
        let key = bytes!([7.0f64]);
        let map = Map {
            keys: &key,
            targets: &[0; 4][..to.bytes()],
        };
        let src = bytes!([7.0, 1.0, 1.1, last, 1.0]);
        let mut dst = vec![0; 5 * to.bytes()];
        let refused = convert(&src, &mut dst, map, Kind::F64, to, NearestEven, Refuse).unwrap_err();
        assert_eq!((refused.error.number(), refused.counts), (number, counts([1, 1, 1, 0, 0])));
        assert_eq!(refused.counts.converted(), 3);
    }
}

/// A typed call on four elements, of which the map has the first, under each of these range choices.
macro_rules! fared {
    ($call:ident, $src:expr, $target:expr, $ranges:expr) => {{
        let (src, target) = ($src, $target);
        let entries = [Entry { key: src[0], target }];
        $ranges.map(|range| $call(&src, &mut [target; 4], &entries, NearestEven, range))
    }};
}

#[test]
fn typed_calls_count_alike() {
    let past = [Ok(counts([1, 1, 1, 1, 0])), Ok(counts([1, 1, 1, 0, 1]))];
    assert_eq!(fared!(convert_f64_to_u8, [9.0, 1.0, 1.5, 300.0], 1, [Clamp, Wrap]), past);
    assert_eq!(fared!(convert_f64_to_i32, [9.0, 1.0, 1.5, 3e9], 1, [Clamp, Wrap]), past);
    assert_eq!(fared!(convert_f32_to_u8, [9.0, 1.0, 1.5, 300.0], 1, [Clamp, Wrap]), past);
    let within = [Ok(counts([1, 2, 1, 0, 0])); 2];
    let floats = [9.0, f64::NAN, f64::INFINITY, 0.1];
    assert_eq!(fared!(convert_f64_to_f32, floats, f32::NAN, TO_FLOAT), within);
    assert_eq!(fared!(convert_i64_to_f32, [9, 0, -1, 16_777_217], f32::NAN, TO_FLOAT), within);
    let overrun = convert_f64_to_f32(&[1e300], &mut [0.0], &[], NearestEven, Clamp);
    assert_eq!(overrun, Ok(counts([0, 0, 0, 1, 0])));
}

/// What a call answers into fields that hold all ones.
fn fields(call: impl FnOnce(*mut sys::Answer) -> u8) -> (u8, sys::Answer) {
    let mut fields = answer([u64::MAX; 6], [u64::MAX; 5]);
    let number = call(&mut fields);
    (number, fields)
}

/// The number and the fields of a chunk call on the elements of an f64 source. With no targets, keys of any length but 0 are a broken map.
fn by_bytes(src: &[f64], dst_len: usize, keys_len: usize, from: u8, to: Kind) -> (u8, sys::Answer) {
    by_bytes_under(src, dst_len, keys_len, from, to, Refuse)
}

/// The same by a range choice.
fn by_bytes_under(src: &[f64], dst_len: usize, keys_len: usize, from: u8, to: Kind, range: OutOfRangeMode) -> (u8, sys::Answer) {
    let (src, mut dst, keys) = (bytes!(src), vec![0u8; dst_len], vec![0u8; keys_len]);
    fields(|answer| {
        // SAFETY: each pointer is good for its length, and what is written overlaps nothing.
        unsafe {
            sys::polskrea_convert(
                src.as_ptr(),
                src.len(),
                dst.as_mut_ptr(),
                dst.len(),
                keys.as_ptr(),
                keys.len(),
                null(),
                0,
                from,
                to as u8,
                0,
                range as u8,
                answer,
            )
        }
    })
}

#[test]
fn every_field_is_written() {
    let none = answer([0; 6], [0; 5]);
    assert_eq!(by_bytes(&[1.0, 2.5], 2, 0, 9, Kind::U8), (0, answer([0; 6], [0, 1, 1, 0, 0])));
    assert_eq!(by_bytes(&[1.0], 1, 0, 11, Kind::U8), (1, none));
    assert_eq!(by_bytes(&[1.0], 1, 8, 9, Kind::U8), (2, none));
    assert_eq!(by_bytes(&[1.0], 3, 0, 9, Kind::I16), (3, none));
    assert_eq!(by_bytes(&[1.0, 2.5], 3, 0, 9, Kind::U8), (4, answer([2, 3, 0, 0, 0, 0], [0; 5])));
    assert_eq!(
        by_bytes(&[1.0, f64::INFINITY], 2, 0, 9, Kind::U8),
        (5, refused(f64::INFINITY, [0, 0]))
    );
    assert_eq!(
        by_bytes(&[1.0, 300.0], 2, 0, 9, Kind::I8),
        (6, refused(300.0, [-128i64 as u64, 127]))
    );
    assert_eq!(by_bytes(&[1.0, 1e300], 8, 0, 9, Kind::F32), (7, refused(1e300, f32_ends())));
    assert_eq!(by_bytes(&[1.0, 65520.0], 4, 0, 9, Kind::F16), (7, refused(65520.0, F16_ENDS)));
    assert_eq!(by_bytes_under(&[1.0, 1e300], 8, 0, 9, Kind::F32, Wrap), (8, none));
    assert_eq!(by_bytes_under(&[1.0, 65520.0], 4, 0, 9, Kind::F16, Wrap), (8, none));
}

/// The fields where the second element is refused and the first is exact.
fn refused(value: f64, [lowest, highest]: [u64; 2]) -> sys::Answer {
    answer([0, 0, 1, value.to_bits(), lowest, highest], [0, 1, 0, 0, 0])
}

/// -MAX and MAX of f32, as bits of f64.
fn f32_ends() -> [u64; 2] {
    [f32::MIN, f32::MAX].map(|x| f64::from(x).to_bits())
}

/// -65504 and 65504, as bits of f64.
const F16_ENDS: [u64; 2] = [0xc0ef_fc00_0000_0000, 0x40ef_fc00_0000_0000];

/// The number and the fields of a typed call with no map, into so many places.
macro_rules! by_numbers {
    ($call:ident, $src:expr, $target:ty, $places:expr, $rounding:expr) => {
        by_numbers!($call, $src, $target, $places, $rounding, 0)
    };
    ($call:ident, $src:expr, $target:ty, $places:expr, $rounding:expr, $range:expr) => {
        fields(|answer| {
            let (src, mut dst) = ($src, vec![<$target>::default(); $places]);
            // SAFETY: each pointer is good for its length, and what is written overlaps nothing.
            unsafe {
                sys::$call(
                    src.as_ptr(),
                    src.len(),
                    dst.as_mut_ptr(),
                    dst.len(),
                    null(),
                    0,
                    $rounding,
                    $range,
                    answer,
                )
            }
        })
    };
}

/// The five typed calls, each on an element that is exact and one that is rounded; the last two are to f32.
fn all_five(places: usize, rounding: u8, range: u8) -> [(u8, sys::Answer); 5] {
    [
        by_numbers!(polskrea_convert_f64_to_u8, [1.0, 2.5], u8, places, rounding, range),
        by_numbers!(polskrea_convert_f64_to_i32, [1.0, 2.5], i32, places, rounding, range),
        by_numbers!(polskrea_convert_f32_to_u8, [1.0, 2.5], u8, places, rounding, range),
        by_numbers!(polskrea_convert_f64_to_f32, [1.0, 0.1], f32, places, rounding, range),
        by_numbers!(polskrea_convert_i64_to_f32, [1, 16_777_217], f32, places, rounding, range),
    ]
}

#[test]
fn every_field_is_written_by_the_typed_calls() {
    let (converted, none) = (answer([0; 6], [0, 1, 1, 0, 0]), answer([0; 6], [0; 5]));
    let mismatch = answer([2, 1, 0, 0, 0, 0], [0; 5]);
    assert_eq!(all_five(2, 0, 0), [(0, converted); 5]);
    assert_eq!(all_five(2, 5, 0), [(1, none); 5]);
    assert_eq!(all_five(2, 5, 2), [(1, none); 5]);
    assert_eq!(all_five(1, 0, 0), [(4, mismatch); 5]);
    let (three, two) = ([(0, converted); 3], [(8, none); 2]);
    assert_eq!(all_five(2, 0, 2)[..3], three);
    assert_eq!(all_five(2, 0, 2)[3..], two);
    assert_eq!(all_five(1, 0, 2)[..3], [(4, mismatch); 3]);
    assert_eq!(all_five(1, 0, 2)[3..], two);
}

#[test]
fn every_field_is_written_where_a_typed_call_refuses_an_element() {
    let five = (5, refused(f64::NAN, [0, 0]));
    assert_eq!(by_numbers!(polskrea_convert_f64_to_u8, [1.0, f64::NAN], u8, 2, 0), five);
    assert_eq!(by_numbers!(polskrea_convert_f64_to_i32, [1.0, f64::NAN], i32, 2, 0), five);
    assert_eq!(by_numbers!(polskrea_convert_f32_to_u8, [1.0, f32::NAN], u8, 2, 0), five);
    let six = |value, lowest: i64, highest| (6, refused(value, [lowest as u64, highest]));
    assert_eq!(by_numbers!(polskrea_convert_f64_to_u8, [1.0, -1.0], u8, 2, 0), six(-1.0, 0, 255));
    assert_eq!(
        by_numbers!(polskrea_convert_f64_to_i32, [1.0, 3e9], i32, 2, 0),
        six(3e9, -(1 << 31), (1 << 31) - 1)
    );
    assert_eq!(by_numbers!(polskrea_convert_f32_to_u8, [1.0, 256.0], u8, 2, 0), six(256.0, 0, 255));
    let seven = (7, refused(1e300, f32_ends()));
    assert_eq!(by_numbers!(polskrea_convert_f64_to_f32, [1.0, 1e300], f32, 2, 0), seven);
}
