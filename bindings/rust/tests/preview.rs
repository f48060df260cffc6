//! The preview against the conversion of a copy, in every setting: the same number and the same bits in every field, all of them written, nothing else
//! written, and as many bytes as then differ.
use polskrea::{preview, preview_codes, sys, Kind, Map, OutOfRangeMode, RoundingMode};

const KINDS: [Kind; 11] = [
    Kind::I8,
    Kind::I16,
    Kind::I32,
    Kind::I64,
    Kind::U8,
    Kind::U16,
    Kind::U32,
    Kind::U64,
    Kind::F32,
    Kind::F64,
    Kind::F16,
];

/// What stands in the fields before a call, so that one that is not written shows.
const UNWRITTEN: sys::Answer = sys::Answer {
    src_len: u64::MAX,
    dst_len: u64::MAX,
    position: u64::MAX,
    value: u64::MAX,
    lowest: u64::MAX,
    highest: u64::MAX,
    mapped: u64::MAX,
    exact: u64::MAX,
    rounded: u64::MAX,
    clamped: u64::MAX,
    wrapped: u64::MAX,
};

/// Pseudo-random bytes.
fn noise(len: usize, mut seed: u64) -> Vec<u8> {
    (0..len)
        .map(|_| {
            seed = seed.wrapping_mul(6364136223846793005).wrapping_add(1442695040888963407);
            (seed >> 56) as u8
        })
        .collect()
}

/// The number and every field of the conversion of `dst`, which is written.
fn converted(src: &[u8], dst: &mut [u8], map: Map<'_>, [from, to, rounding, range]: [u8; 4]) -> (u8, sys::Answer) {
    let mut answer = UNWRITTEN;
    let (s, k, t) = (src.as_ptr(), map.keys.as_ptr(), map.targets.as_ptr());
    let (d, d_len, k_len, t_len) = (dst.as_mut_ptr(), dst.len(), map.keys.len(), map.targets.len());
    // SAFETY: each pointer and length is a slice's, and what is written is `&mut`.
    let number = unsafe { sys::polskrea_convert(s, src.len(), d, d_len, k, k_len, t, t_len, from, to, rounding, range, &mut answer) };
    (number, answer)
}

/// The number and every field of the preview, and its figure.
fn previewed(src: &[u8], dst: &[u8], map: Map<'_>, [from, to, rounding, range]: [u8; 4]) -> ((u8, sys::Answer), u64) {
    let (mut answer, mut changed) = (UNWRITTEN, 1);
    let (s, d, k, t) = (src.as_ptr(), dst.as_ptr(), map.keys.as_ptr(), map.targets.as_ptr());
    let (k_len, t_len, at) = (map.keys.len(), map.targets.len(), &mut changed);
    // SAFETY: each pointer and length is a slice's, and what is written is `&mut`.
    let number = unsafe {
        sys::polskrea_preview(
            s,
            src.len(),
            d,
            dst.len(),
            k,
            k_len,
            t,
            t_len,
            from,
            to,
            rounding,
            range,
            &mut answer,
            at,
        )
    };
    ((number, answer), changed)
}

/// Holds the preview to the conversion of a copy, and a second one to what that leaves. Returns what would change.
fn held(src: &[u8], dst: &[u8], map: Map<'_>, codes: [u8; 4]) -> u64 {
    let mut copy = dst.to_vec();
    let (told, changed) = previewed(src, dst, map, codes);
    assert_eq!(dst, copy, "{codes:?}");
    assert_eq!(told, converted(src, &mut copy, map, codes), "{codes:?}");
    let differ = dst.iter().zip(&copy).filter(|(old, new)| old != new).count() as u64;
    assert_eq!(changed, differ, "{codes:?}");
    assert_eq!(previewed(src, &copy, map, codes), (told, 0), "{codes:?}");
    let [from, to, rounding, range] = codes;
    let wrapped = preview_codes(src, dst, map, from, to, rounding, range);
    assert_eq!(
        (wrapped.changed, wrapped.answer.map_or_else(|r| r.error.number(), |_| 0)),
        (changed, told.0)
    );
    differ
}

#[test]
fn as_converting_a_copy() {
    let mut changed = 0;
    for from in KINDS {
        for to in KINDS {
            for rounding in 0..6 {
                for range in 0..4 {
                    let codes = [from as u8, to as u8, rounding, range];
                    let keys = noise(3 * from.bytes(), 1);
                    let map = Map {
                        keys: &keys,
                        targets: &noise(3 * to.bytes(), 2),
                    };
                    let mut src = noise(13 * from.bytes(), 3);
                    src[..from.bytes()].copy_from_slice(&keys[..from.bytes()]);
                    let dst = noise(13 * to.bytes(), 4);
                    changed += held(&src, &dst, map, codes);
                    changed += held(&src, &dst, Map::default(), codes);
                    changed += held(&src, &vec![0; dst.len()], map, codes);
                    for (src, dst) in [
                        (&src[1..], &dst[..]),
                        (&src[..], &dst[1..]),
                        (&src[..], &dst[to.bytes()..]),
                        (&[][..], &[][..]),
                    ] {
                        changed += held(src, dst, map, codes);
                    }
                }
            }
        }
    }
    assert!(changed > 100_000, "{changed}");
}

#[test]
fn a_bad_kind_code() {
    for code in [11, 12, 255] {
        for codes in [[code, 9, 0, 0], [9, code, 0, 0], [code, code, 0, 2]] {
            assert_eq!(held(&[0; 16], &[1; 16], Map::default(), codes), 0);
            assert_eq!(previewed(&[0; 16], &[1; 16], Map::default(), codes).0 .0, 1);
        }
    }
}

#[test]
fn bytes_and_not_numbers_or_elements() {
    let ask =
        |src: &[u8], dst: &[u8], from, to| preview(src, dst, Map::default(), from, to, RoundingMode::NearestEven, OutOfRangeMode::None);
    assert_eq!(ask(&[1, 0], &[0, 0], Kind::U16, Kind::U16).changed, 1);
    assert_eq!(ask(&[1, 1], &[0, 0], Kind::U16, Kind::U16).changed, 2);
    let (zero, minus_zero) = (0f64.to_le_bytes(), (-0f64).to_le_bytes());
    assert_eq!(ask(&zero, &minus_zero, Kind::F64, Kind::F64).changed, 1);
    assert_eq!(ask(&minus_zero, &zero, Kind::F64, Kind::F64).changed, 1);
    // 1.0 over -1.0, and 65504 over 65472
    assert_eq!(ask(&[0x00, 0x3c], &[0x00, 0xbc], Kind::F16, Kind::F16).changed, 1);
    assert_eq!(ask(&[0xef, 0xff], &[0xfe, 0x7b], Kind::U16, Kind::F16).changed, 1);
    let overrun = ask(&[1, 0, 0xf0, 0xff], &[0; 4], Kind::U16, Kind::F16);
    assert_eq!((overrun.answer.unwrap_err().error.number(), overrun.changed), (7, 1));
    let refused = ask(&[7, 0, 44, 1], &[0, 0], Kind::I16, Kind::U8);
    assert_eq!(refused.answer.unwrap_err().error.number(), 6);
    assert_eq!(refused.changed, 1);
}
