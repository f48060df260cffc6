//! The wrapper on the paper's samples, each refusal, and what a refusal leaves untouched.
use polskrea::{convert, convert_codes, version, CastError, Counts, Kind, Map, OutOfRangeMode, Refused, RoundingMode};
use OutOfRangeMode::{Clamp, None as Refuse, Wrap};
use RoundingMode::{NearestAway, NearestEven, TowardsNegative, TowardsPositive, TowardsZero};

fn f64s(xs: &[f64]) -> Vec<u8> {
    xs.iter().flat_map(|x| x.to_le_bytes()).collect()
}

fn u16s(xs: &[u16]) -> Vec<u8> {
    xs.iter().flat_map(|x| x.to_le_bytes()).collect()
}

fn cast(src: &[u8], from: Kind, to: Kind, rounding: RoundingMode, range: OutOfRangeMode) -> Result<Vec<u8>, CastError> {
    let mut dst = vec![0xee; src.len() / from.bytes() * to.bytes()];
    convert(src, &mut dst, Map::default(), from, to, rounding, range)?;
    Ok(dst)
}

#[test]
fn the_version_is_this_wrapper_s() {
    assert_eq!(version(), 2);
}

#[test]
fn an_early_refusal_leaves_the_rest() {
    let mut dst = [0xee; 3];
    let answer = convert(
        &f64s(&[2.5, 300.0, 1.0]),
        &mut dst,
        Map::default(),
        Kind::F64,
        Kind::U8,
        NearestEven,
        Refuse,
    );
    assert_eq!(
        answer,
        Err(Refused {
            error: CastError::OutOfRange {
                position: 1,
                value: 300.0,
                lo: 0,
                hi: 255
            },
            counts: Counts {
                rounded: 1,
                ..Counts::default()
            }
        })
    );
    assert_eq!(dst, [2, 0xee, 0xee]);
}

#[test]
fn halves() {
    assert_eq!(cast(&f64s(&[2.5]), Kind::F64, Kind::U8, NearestEven, Refuse), Ok(vec![2]));
    assert_eq!(cast(&f64s(&[2.5]), Kind::F64, Kind::U8, NearestAway, Refuse), Ok(vec![3]));
    assert_eq!(
        cast(&f64s(&[0.499_999_999_999_999_94]), Kind::F64, Kind::I32, NearestAway, Refuse),
        Ok(vec![0; 4])
    );
    assert_eq!(cast(&f64s(&[-0.5]), Kind::F64, Kind::U8, NearestEven, Refuse), Ok(vec![0]));
    assert_eq!(cast(&f64s(&[-0.5]), Kind::F64, Kind::U8, TowardsNegative, Clamp), Ok(vec![0]));
    assert_eq!(cast(&f64s(&[-0.5]), Kind::F64, Kind::U8, TowardsNegative, Wrap), Ok(vec![255]));
}

#[test]
fn the_end_of_i64() {
    let x = f64s(&[9_223_372_036_854_775_808.0]);
    let lo = i64::MIN;
    assert_eq!(
        cast(&x, Kind::F64, Kind::I64, NearestEven, Refuse),
        Err(CastError::OutOfRange {
            position: 0,
            value: 9_223_372_036_854_775_808.0,
            lo,
            hi: i64::MAX as u64
        })
    );
    assert_eq!(
        cast(&x, Kind::F64, Kind::I64, NearestEven, Clamp),
        Ok(i64::MAX.to_le_bytes().to_vec())
    );
    assert_eq!(
        cast(&x, Kind::F64, Kind::I64, NearestEven, Wrap),
        Ok(i64::MIN.to_le_bytes().to_vec())
    );
}

#[test]
fn integers_to_floats_round_once() {
    let x = 16_777_217_i64;
    assert_eq!(
        cast(&x.to_le_bytes(), Kind::I64, Kind::F32, NearestEven, Refuse),
        Ok(16_777_216.0_f32.to_le_bytes().to_vec())
    );
    assert_eq!(
        cast(&x.to_le_bytes(), Kind::I64, Kind::F32, NearestAway, Refuse),
        Ok(16_777_218.0_f32.to_le_bytes().to_vec())
    );
    assert_eq!(
        cast(&(-x).to_le_bytes(), Kind::I64, Kind::F32, TowardsPositive, Refuse),
        Ok((-16_777_216.0_f32).to_le_bytes().to_vec())
    );
}

#[test]
fn past_the_end_of_f32() {
    let x = f64s(&[2.0_f64.powi(128)]);
    let ends = (f64::from(f32::MIN), f64::from(f32::MAX));
    assert_eq!(
        cast(&x, Kind::F64, Kind::F32, TowardsZero, Refuse),
        Err(CastError::FloatOutOfRange {
            position: 0,
            value: 2.0_f64.powi(128),
            lo: ends.0,
            hi: ends.1
        })
    );
    assert_eq!(
        cast(&x, Kind::F64, Kind::F32, TowardsZero, Clamp),
        Ok(f32::INFINITY.to_le_bytes().to_vec())
    );
}

/// What one f64 comes to in f16, as a pattern.
fn f16_of(x: f64, rounding: RoundingMode, range: OutOfRangeMode) -> Result<u16, CastError> {
    cast(&f64s(&[x]), Kind::F64, Kind::F16, rounding, range).map(|b| u16::from_le_bytes([b[0], b[1]]))
}

/// The refusal of an only element past f16.
fn past_f16(value: f64) -> CastError {
    CastError::FloatOutOfRange {
        position: 0,
        value,
        lo: f64::from_bits(0xc0ef_fc00_0000_0000),
        hi: f64::from_bits(0x40ef_fc00_0000_0000),
    }
}

#[test]
fn an_f64_to_f16_is_rounded_once() {
    let tie = 1.0 + 2f64.powi(-11);
    let above = f64::from_bits(0x3ff0_0200_0000_1000);
    assert_eq!(f16_of(tie, NearestEven, Refuse), Ok(0x3c00));
    assert_eq!(f16_of(tie, NearestAway, Refuse), Ok(0x3c01));
    for (rounding, due) in [(NearestEven, 0x3c01), (NearestAway, 0x3c01), (TowardsZero, 0x3c00)] {
        assert_eq!(f16_of(above, rounding, Refuse), Ok(due));
    }
    assert_eq!(f16_of(-above, TowardsPositive, Refuse), Ok(0xbc00));
    assert_eq!(f16_of(-above, TowardsNegative, Refuse), Ok(0xbc01));
    assert_eq!(f16_of(tie + 2f64.powi(-52), NearestEven, Refuse), Ok(0x3c01), "just above the tie");
    let smallest = 2f64.powi(-24);
    assert_eq!(f16_of(smallest / 2.0, NearestEven, Refuse), Ok(0));
    assert_eq!(f16_of(-smallest / 2.0, NearestAway, Refuse), Ok(0x8001));
    assert_eq!(f16_of(-f64::from_bits(1), TowardsPositive, Refuse), Ok(0x8000));
}

#[test]
fn past_the_end_of_f16() {
    assert_eq!(f16_of(65519.9, NearestEven, Refuse), Ok(0x7bff));
    assert_eq!(f16_of(65520.0, NearestEven, Refuse), Err(past_f16(65520.0)));
    assert_eq!(f16_of(65535.9, TowardsZero, Refuse), Ok(0x7bff));
    assert_eq!(f16_of(-65536.0, TowardsZero, Refuse), Err(past_f16(-65536.0)));
    assert_eq!(f16_of(-65536.0, TowardsZero, Clamp), Ok(0xfc00));
    assert_eq!(f16_of(f64::INFINITY, NearestEven, Refuse), Ok(0x7c00));
}

#[test]
fn an_integer_may_overrun_f16() {
    let of = |x, rounding, range| cast(&u16s(&[x]), Kind::U16, Kind::F16, rounding, range);
    assert_eq!(of(65519, NearestEven, Refuse), Ok(vec![0xff, 0x7b]));
    assert_eq!(of(65520, NearestEven, Refuse), Err(past_f16(65520.0)));
    assert_eq!(of(65520, NearestEven, Clamp), Ok(vec![0x00, 0x7c]));
    assert_eq!(of(65535, TowardsZero, Refuse), Ok(vec![0xff, 0x7b]));
    assert_eq!(of(65505, TowardsPositive, Refuse), Err(past_f16(65505.0)));
    let low = i64::MIN.to_le_bytes();
    assert_eq!(
        cast(&low, Kind::I64, Kind::F16, TowardsZero, Refuse),
        Err(past_f16(-9_223_372_036_854_775_808.0))
    );
    assert_eq!(cast(&low, Kind::I64, Kind::F16, TowardsZero, Clamp), Ok(vec![0x00, 0xfc]));
    assert_eq!(cast(&[0x80], Kind::I8, Kind::F16, NearestEven, Refuse), Ok(vec![0x00, 0xd8]));
}

#[test]
fn from_f16() {
    let of = |x, to, rounding, range| cast(&u16s(&[x]), Kind::F16, to, rounding, range);
    assert_eq!(of(0x4100, Kind::U8, NearestEven, Refuse), Ok(vec![2]));
    assert_eq!(of(0x4100, Kind::U8, NearestAway, Refuse), Ok(vec![3]));
    assert_eq!(of(0x7bff, Kind::U8, NearestEven, Wrap), Ok(vec![0xe0]));
    assert_eq!(
        of(0xfbff, Kind::I16, NearestEven, Refuse),
        Err(CastError::OutOfRange {
            position: 0,
            value: -65504.0,
            lo: -32768,
            hi: 32767
        })
    );
    assert_eq!(
        of(0x0001, Kind::F32, NearestEven, Refuse),
        Ok(2f32.powi(-24).to_le_bytes().to_vec())
    );
    assert_eq!(of(0x83ff, Kind::F64, NearestEven, Refuse), Ok(f64s(&[-1023.0 * 2f64.powi(-24)])));
    assert_eq!(of(0xfc00, Kind::F64, TowardsZero, Clamp), Ok(f64s(&[f64::NEG_INFINITY])));
    assert_eq!(of(0x7c00, Kind::I64, NearestEven, Clamp).unwrap_err().number(), 5);
}

#[test]
fn nans_to_and_from_f16() {
    let to_f16 = |src: &[u8], from| cast(src, from, Kind::F16, NearestEven, Refuse);
    assert_eq!(to_f16(&0x7ff0_0000_0000_0001u64.to_le_bytes(), Kind::F64), Ok(u16s(&[0x7e00])));
    assert_eq!(to_f16(&0xfff0_0c00_0000_0000u64.to_le_bytes(), Kind::F64), Ok(u16s(&[0xfe03])));
    assert_eq!(to_f16(&0xffc1_2345u32.to_le_bytes(), Kind::F32), Ok(u16s(&[0xfe09])));
    assert_eq!(to_f16(&u16s(&[0x7c01]), Kind::F16), Ok(u16s(&[0x7c01])));
    let from_f16 = |to| cast(&u16s(&[0xfc01]), Kind::F16, to, NearestEven, Refuse);
    assert_eq!(from_f16(Kind::F32), Ok(0xffc0_2000u32.to_le_bytes().to_vec()));
    assert_eq!(from_f16(Kind::F64), Ok(0xfff8_0400_0000_0000u64.to_le_bytes().to_vec()));
    let refused = from_f16(Kind::U8).unwrap_err();
    assert!(matches!(refused, CastError::NanOrInf { position: 0, value } if value.to_bits() == 0xfff8_0400_0000_0000));
}

/// Zeros of both signs, NaNs of other bits, an infinity and the first of two like keys; the targets are stored as they are.
#[test]
fn keys_and_targets_of_f16() {
    let keys = u16s(&[0x8000, 0x7e00, 0xfc00, 0x3c00, 0x3c00]);
    let targets = u16s(&[0x7c01, 0x0001, 0xfbff, 0x8000, 0x1234]);
    let map = Map {
        keys: &keys,
        targets: &targets,
    };
    let mut dst = [0xee; 12];
    let src = u16s(&[0x0000, 0xfc01, 0xfc00, 0x3c00, 0x7c00, 0x0001]);
    assert_eq!(
        convert(&src, &mut dst, map, Kind::F16, Kind::F16, NearestEven, Refuse),
        Ok(Counts {
            mapped: 4,
            exact: 2,
            ..Counts::default()
        })
    );
    assert_eq!(dst[..], u16s(&[0x7c01, 0x0001, 0xfbff, 0x8000, 0x7c00, 0x0001]));
}

#[test]
fn a_nan_to_an_integer_kind() {
    let answer = cast(&f64s(&[f64::NAN]), Kind::F64, Kind::I32, NearestEven, Clamp);
    assert!(matches!(answer, Err(CastError::NanOrInf { position: 0, value }) if value.is_nan()));
    assert_eq!(answer.unwrap_err().number(), 5);
}

#[test]
fn the_first_entry_wins() {
    let map = Map {
        keys: &f64s(&[f64::NAN, 0.0, 0.0]),
        targets: &[9, 7, 8],
    };
    let mut dst = [0; 3];
    assert_eq!(
        convert(
            &f64s(&[-0.0, f64::NAN, 1.0]),
            &mut dst,
            map,
            Kind::F64,
            Kind::U8,
            NearestEven,
            Refuse
        ),
        Ok(Counts {
            mapped: 2,
            exact: 1,
            ..Counts::default()
        })
    );
    assert_eq!(dst, [7, 9, 1]);
}

#[test]
fn refusals_1_to_4_in_their_order_with_no_counts() {
    let mut dst = [0xee; 3];
    let none = Map::default();
    let broken = Map {
        keys: &[0; 8],
        targets: &[],
    };
    let uncounted = |error| {
        Err(Refused {
            error,
            counts: Counts::default(),
        })
    };
    let mut call = |len, map, from, rounding| convert_codes(&[0; 16][..len], &mut dst, map, from, 4, rounding, 0);
    assert_eq!(call(9, broken, 11, 0), uncounted(CastError::UnknownCode));
    assert_eq!(call(9, broken, 9, 5), uncounted(CastError::UnknownCode));
    assert_eq!(call(9, broken, 9, 0), uncounted(CastError::BrokenMap));
    assert_eq!(call(9, none, 9, 0), uncounted(CastError::BrokenElement));
    assert_eq!(call(9, none, 10, 0), uncounted(CastError::BrokenElement));
    assert_eq!(
        call(4, none, 10, 0),
        uncounted(CastError::LengthMismatch { src_len: 2, dst_len: 3 })
    );
    assert_eq!(
        call(16, none, 9, 0),
        uncounted(CastError::LengthMismatch { src_len: 2, dst_len: 3 })
    );
    assert_eq!(dst, [0xee; 3]);
}

/// Wrap with a float target: after 1, before 2, 3 and 4, for the empty chunk as well, and only there.
#[test]
fn barred_wrap() {
    let mut dst = [0xee; 3];
    let none = Map::default();
    let broken = Map {
        keys: &[0; 8],
        targets: &[],
    };
    for to in [Kind::F16, Kind::F32, Kind::F64] {
        let mut number = |len, map, rounding, range| {
            let refused = convert_codes(&[0; 16][..len], &mut dst, map, 9, to as u8, rounding, range).unwrap_err();
            assert_eq!(refused.counts, Counts::default());
            refused.error.number()
        };
        assert_eq!(number(9, broken, 5, 2), 1);
        for len in [0, 8, 9, 16] {
            assert_eq!(number(len, none, 0, 2), 8);
            assert_eq!(number(len, broken, 0, 2), 8);
        }
        let four_or_two = convert_codes(&[0; 8], &mut [0xee; 16], none, 9, to as u8, 0, 2).unwrap_err();
        assert_eq!(four_or_two.error, CastError::BarredWrap, "one element into more whole places");
        assert_eq!(number(8, broken, 0, 1), 2);
        assert_eq!(number(8, none, 0, 0), 3);
        assert_eq!(
            cast(&[], Kind::F64, to, NearestEven, Wrap),
            Err(CastError::BarredWrap),
            "an empty chunk to {to:?}"
        );
        assert_eq!(cast(&[], Kind::F64, to, NearestEven, Clamp), Ok(vec![]));
    }
    assert_eq!(dst, [0xee; 3]);
    for to in [Kind::I8, Kind::U64] {
        assert_eq!(cast(&[], Kind::F32, to, NearestEven, Wrap), Ok(vec![]));
        assert_eq!(cast(&[], Kind::F16, to, NearestEven, Wrap), Ok(vec![]));
    }
}

#[test]
fn two_empty_chunks() {
    assert_eq!(
        convert(&[], &mut [], Map::default(), Kind::F64, Kind::F32, NearestEven, Refuse),
        Ok(Counts::default())
    );
}
