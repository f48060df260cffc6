//! Each typed call against the byte route on the elements' bytes: answers, counts, and every element, a NaN as a NaN.
use polskrea::{
    convert, convert_f32_to_u8, convert_f64_to_f32, convert_f64_to_i32, convert_f64_to_u8, convert_i64_to_f32, CastError, Counts, Entry,
    Kind, Map, OutOfRangeMode, Refused, RoundingMode,
};

const ROUNDINGS: [RoundingMode; 5] = [
    RoundingMode::NearestEven,
    RoundingMode::TowardsZero,
    RoundingMode::TowardsPositive,
    RoundingMode::TowardsNegative,
    RoundingMode::NearestAway,
];
const RANGES: [OutOfRangeMode; 3] = [OutOfRangeMode::None, OutOfRangeMode::Clamp, OutOfRangeMode::Wrap];

/// Pseudo-random numbers (splitmix64).
struct Numbers(u64);

impl Numbers {
    fn next(&mut self) -> u64 {
        self.0 = self.0.wrapping_add(0x9e37_79b9_7f4a_7c15);
        let mut z = self.0;
        z = (z ^ (z >> 30)).wrapping_mul(0xbf58_476d_1ce4_e5b9);
        z = (z ^ (z >> 27)).wrapping_mul(0x94d0_49bb_1331_11eb);
        z ^ (z >> 31)
    }
}

/// A number of one of the five types: its bytes, its value for comparison, and one from random bits, often a special or a small one.
trait Number: Copy {
    fn bytes(self) -> Vec<u8>;
    fn same(self, other: Self) -> bool;
    fn random(n: &mut Numbers) -> Self;
}

macro_rules! floats {
    ($t:ty, $bits:ty) => {
        impl Number for $t {
            fn bytes(self) -> Vec<u8> {
                self.to_le_bytes().to_vec()
            }
            fn same(self, other: Self) -> bool {
                self.to_bits() == other.to_bits() || (self.is_nan() && other.is_nan())
            }
            fn random(n: &mut Numbers) -> Self {
                match n.next() % 8 {
                    0 => 0.0,
                    1 => -0.0,
                    2 => <$t>::from_bits(<$t>::INFINITY.to_bits() | (n.next() as $bits >> 12)),
                    3 => -<$t>::INFINITY,
                    4 | 5 => (n.next() % 4001) as $t / 8.0 - 250.0,
                    6 => (n.next() as i64) as $t / (1u64 << (n.next() % 60)) as $t,
                    _ => <$t>::from_bits(n.next() as $bits),
                }
            }
        }
    };
}

macro_rules! integers {
    ($t:ty) => {
        impl Number for $t {
            fn bytes(self) -> Vec<u8> {
                self.to_le_bytes().to_vec()
            }
            fn same(self, other: Self) -> bool {
                self == other
            }
            fn random(n: &mut Numbers) -> Self {
                (n.next() as i64 >> (n.next() % 64)) as $t
            }
        }
    };
}

floats!(f64, u64);
floats!(f32, u32);
integers!(u8);
integers!(i32);
integers!(i64);

fn bytes<T: Number>(xs: &[T]) -> Vec<u8> {
    xs.iter().flat_map(|x| x.bytes()).collect()
}

type Answer = Result<Counts, Refused>;

/// The value of a refused NaN, and its position.
fn refused_nan(answer: Answer) -> Option<(u64, f64)> {
    match answer.err()?.error {
        CastError::NanOrInf { position, value } if value.is_nan() => Some((position, value)),
        _ => None,
    }
}

/// A refusal's NaN is the quiet one; the byte route has the element's own bits.
fn same_answer(typed: Answer, byte: Answer) -> bool {
    match (refused_nan(typed), refused_nan(byte)) {
        (Some((p, v)), Some((q, _))) => p == q && v.to_bits() == 0x7ff8_0000_0000_0000 && counts(typed) == counts(byte),
        _ => typed == byte,
    }
}

fn counts(answer: Answer) -> Counts {
    answer.unwrap_or_else(|refused| refused.counts)
}

type Typed<S, T> = fn(&[S], &mut [T], &[Entry<S, T>], RoundingMode, OutOfRangeMode) -> Answer;

fn agree<S: Number, T: Number>(typed: Typed<S, T>, from: Kind, to: Kind) {
    let mut n = Numbers(from as u64 * 10 + to as u64);
    for round in 0..3000 {
        let count = (n.next() % 7) as usize;
        let src: Vec<S> = (0..count).map(|_| S::random(&mut n)).collect();
        let before: Vec<T> = (0..count + usize::from(round % 50 == 0)).map(|_| T::random(&mut n)).collect();
        let entries: Vec<Entry<S, T>> = (0..n.next() % 4)
            .map(|_| Entry {
                key: S::random(&mut n),
                target: T::random(&mut n),
            })
            .collect();
        let (rounding, range) = (ROUNDINGS[round % 5], RANGES[round / 5 % 3]);

        let mut dst = before.clone();
        let a = typed(&src, &mut dst, &entries, rounding, range);

        let keys = bytes(&entries.iter().map(|e| e.key).collect::<Vec<_>>());
        let targets = bytes(&entries.iter().map(|e| e.target).collect::<Vec<_>>());
        let mut out = bytes(&before);
        let b = convert(
            &bytes(&src),
            &mut out,
            Map {
                keys: &keys,
                targets: &targets,
            },
            from,
            to,
            rounding,
            range,
        );

        assert!(same_answer(a, b), "{from:?} to {to:?}, round {round}: {a:?}, {b:?}");
        for (i, x) in dst.iter().enumerate() {
            let place = &out[i * to.bytes()..(i + 1) * to.bytes()];
            assert!(
                x.bytes() == place || (x.same(*x) && nan(to, place) && nan(to, &x.bytes())),
                "{from:?} to {to:?}, round {round}, element {i}"
            );
        }
    }
}

fn nan(kind: Kind, bytes: &[u8]) -> bool {
    kind == Kind::F32 && f32::from_le_bytes(bytes.try_into().unwrap()).is_nan()
}

#[test]
fn typed_entries_agree_with_the_byte_route() {
    agree(convert_f64_to_u8, Kind::F64, Kind::U8);
    agree(convert_f64_to_i32, Kind::F64, Kind::I32);
    agree(convert_f32_to_u8, Kind::F32, Kind::U8);
    agree(convert_f64_to_f32, Kind::F64, Kind::F32);
    agree(convert_i64_to_f32, Kind::I64, Kind::F32);
}

/// The language has one NaN, so the contract cannot see a NaN's bits: this test shows that they stay.
#[test]
fn an_untouched_nan_keeps_its_bits() {
    const SIGNALLING: u32 = 0x7fa0_0001;
    let bits = |dst: &[f32]| dst.iter().map(|x| x.to_bits()).collect::<Vec<_>>();
    for rounding in ROUNDINGS {
        let mut dst = [f32::from_bits(SIGNALLING); 5];
        let answer = convert_f64_to_f32(&[1.0, 1e300, f64::NAN, 2.0, 1e300], &mut dst, &[], rounding, OutOfRangeMode::None);
        assert!(matches!(answer.unwrap_err().error, CastError::FloatOutOfRange { position: 1, .. }));
        assert_eq!(bits(&dst), [1.0f32.to_bits(), SIGNALLING, SIGNALLING, SIGNALLING, SIGNALLING]);
        let mut dst = [f32::from_bits(SIGNALLING); 2];
        let barred = Err(Refused {
            error: CastError::BarredWrap,
            counts: Counts::default(),
        });
        for len in 0..3 {
            let (floats, integers) = (&[1.0, 2.0][..len], &[1, 2][..len]);
            assert_eq!(convert_f64_to_f32(floats, &mut dst, &[], rounding, OutOfRangeMode::Wrap), barred);
            assert_eq!(convert_i64_to_f32(integers, &mut dst, &[], rounding, OutOfRangeMode::Wrap), barred);
        }
        let mismatch = Err(Refused {
            error: CastError::LengthMismatch { src_len: 1, dst_len: 2 },
            counts: Counts::default(),
        });
        assert_eq!(convert_f64_to_f32(&[1.0], &mut dst, &[], rounding, OutOfRangeMode::None), mismatch);
        assert_eq!(convert_i64_to_f32(&[1], &mut dst, &[], rounding, OutOfRangeMode::None), mismatch);
        assert_eq!(bits(&dst), [SIGNALLING; 2]);
    }
}
