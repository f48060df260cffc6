//! A safe wrapper of `polskrea_convert` and of its preview: chunks of numbers cast between eleven number kinds.
//!
//! The library's side is proved (`crates/polskrea`, `crates/polskrea_preview`, `crates/polskrea_typed`); what this file has to keep is the
//! caller's side of `include/polskrea.h`, and the borrow checker keeps it: what a call writes is `&mut`, so it overlaps nothing, and a slice's
//! pointer is good for its length.
//! The floating-point environment is left to its user: Rust's own is the default one.
//!
//! Each call returns how the converted elements fared, and a refused one has that beside the error:
//!
//! ```
//! use polskrea::{convert_f64_to_u8, Counts, OutOfRangeMode, RoundingMode};
//!
//! let src = [1.0, 2.5, 300.0];
//! let mut dst = [0; 3];
//! let counts = convert_f64_to_u8(&src, &mut dst, &[], RoundingMode::NearestEven, OutOfRangeMode::Clamp)?;
//! assert_eq!(dst, [1, 2, 255]);
//! assert_eq!(counts, Counts { exact: 1, rounded: 1, clamped: 1, ..Counts::default() });
//!
//! let refused = convert_f64_to_u8(&src, &mut dst, &[], RoundingMode::NearestEven, OutOfRangeMode::None).unwrap_err();
//! assert_eq!(refused.error.number(), 6);
//! assert_eq!(refused.counts, Counts { exact: 1, rounded: 1, ..Counts::default() });
//! # Ok::<(), polskrea::Refused>(())
//! ```
#![no_std]
#![deny(missing_docs)]

use core::fmt;

pub mod sys;
pub use sys::Entry;

/// The safe wrapper of a typed call.
macro_rules! typed {
    ($name:ident, $entry:ident, $source:ty, $target:ty) => {
        /// [`convert`] on slices of numbers. A NaN's own bits play no part: a refused one has the value `f64::NAN`, and which NaN is stored is free.
        ///
        /// # Errors
        ///
        /// The first refusal, 8 or 4 to 7, with the counts of the elements before it; 8 with an `f32` target only. Refusals 8 and 4 leave `dst` as it
        /// was; 5 to 7 leave it so from the refused element on.
        pub fn $name(
            src: &[$source],
            dst: &mut [$target],
            entries: &[Entry<$source, $target>],
            rounding: RoundingMode,
            range: OutOfRangeMode,
        ) -> Result<Counts, Refused> {
            let mut answer = sys::Answer::default();
            // SAFETY: each pointer and length is a slice's, the two that are written are `&mut`, and nothing is kept.
            let number = unsafe {
                sys::$entry(
                    src.as_ptr(),
                    src.len(),
                    dst.as_mut_ptr(),
                    dst.len(),
                    entries.as_ptr(),
                    entries.len(),
                    rounding as u8,
                    range as u8,
                    &mut answer,
                )
            };
            answered(number, &answer)
        }
    };
}

typed!(convert_f64_to_u8, polskrea_convert_f64_to_u8, f64, u8);
typed!(convert_f64_to_i32, polskrea_convert_f64_to_i32, f64, i32);
typed!(convert_f32_to_u8, polskrea_convert_f32_to_u8, f32, u8);
typed!(convert_f64_to_f32, polskrea_convert_f64_to_f32, f64, f32);
typed!(convert_i64_to_f32, polskrea_convert_i64_to_f32, i64, f32);

/// A number kind. Elements are bytes, lowest first; an f16, IEEE 754 binary16, is its 16-bit pattern.
#[derive(Debug, Clone, Copy, PartialEq, Eq)]
#[repr(u8)]
#[allow(missing_docs)]
pub enum Kind {
    I8 = 0,
    I16 = 1,
    I32 = 2,
    I64 = 3,
    U8 = 4,
    U16 = 5,
    U32 = 6,
    U64 = 7,
    F32 = 8,
    F64 = 9,
    F16 = 10,
}

impl Kind {
    /// The bytes of an element.
    pub fn bytes(self) -> usize {
        match self {
            Kind::I8 | Kind::U8 => 1,
            Kind::I16 | Kind::U16 | Kind::F16 => 2,
            Kind::I32 | Kind::U32 | Kind::F32 => 4,
            Kind::I64 | Kind::U64 | Kind::F64 => 8,
        }
    }
}

/// How a number that the target kind has not is rounded.
#[derive(Debug, Clone, Copy, PartialEq, Eq)]
#[repr(u8)]
#[allow(missing_docs)]
pub enum RoundingMode {
    NearestEven = 0,
    TowardsZero = 1,
    TowardsPositive = 2,
    TowardsNegative = 3,
    NearestAway = 4,
}

/// What becomes of a rounded value past the target's finite range.
#[derive(Debug, Clone, Copy, PartialEq, Eq)]
#[repr(u8)]
pub enum OutOfRangeMode {
    /// It is refused.
    None = 0,
    /// The nearer end of an integer kind; the infinity of its sign in a float kind.
    Clamp = 1,
    /// The congruent number of an integer kind. With a float target every call is refused, by [`CastError::BarredWrap`].
    Wrap = 2,
}

/// Map entries as bytes: keys of the source kind, targets of the target kind. The first entry whose key equals an element wins.
#[derive(Debug, Clone, Copy, Default)]
pub struct Map<'a> {
    /// The keys, one after the other.
    pub keys: &'a [u8],
    /// As many targets.
    pub targets: &'a [u8],
}

/// How the converted elements fared: each counts in one field, a refused one and those behind it in none.
#[derive(Debug, Clone, Copy, Default, PartialEq, Eq)]
pub struct Counts {
    /// A map entry matches the element, whatever its target.
    pub mapped: u64,
    /// Unmatched: the rounded value equals the element as a number, or a NaN or an infinity goes to a float kind. Either zero is the number 0.
    pub exact: u64,
    /// Unmatched: the rounded value is another number, within the target's finite range.
    pub rounded: u64,
    /// Unmatched: the rounded value is past that range, under [`OutOfRangeMode::Clamp`].
    pub clamped: u64,
    /// Unmatched: the rounded value is past that range, under [`OutOfRangeMode::Wrap`].
    pub wrapped: u64,
}

impl Counts {
    /// The number of converted elements: the sum of the five.
    pub fn converted(self) -> u64 {
        self.mapped + self.exact + self.rounded + self.clamped + self.wrapped
    }
}

impl From<&sys::Answer> for Counts {
    fn from(answer: &sys::Answer) -> Self {
        Counts {
            mapped: answer.mapped,
            exact: answer.exact,
            rounded: answer.rounded,
            clamped: answer.clamped,
            wrapped: answer.wrapped,
        }
    }
}

impl fmt::Display for Counts {
    fn fmt(&self, f: &mut fmt::Formatter<'_>) -> fmt::Result {
        let Counts {
            mapped,
            exact,
            rounded,
            clamped,
            wrapped,
        } = self;
        write!(
            f,
            "{mapped} mapped, {exact} exact, {rounded} rounded, {clamped} clamped, {wrapped} wrapped"
        )
    }
}

/// A call that was refused: why, and how the elements before the refused one fared.
#[derive(Debug, Clone, Copy, PartialEq)]
pub struct Refused {
    /// Why.
    pub error: CastError,
    /// Of the elements before the refused one. All are 0 for the refusals 1 to 4 and 8, which convert nothing.
    pub counts: Counts,
}

impl fmt::Display for Refused {
    fn fmt(&self, f: &mut fmt::Formatter<'_>) -> fmt::Result {
        fmt::Display::fmt(&self.error, f)
    }
}

impl core::error::Error for Refused {}

/// Drops the counts.
impl From<Refused> for CastError {
    fn from(refused: Refused) -> Self {
        refused.error
    }
}

/// Why a call was refused.
#[derive(Debug, Clone, Copy, PartialEq)]
pub enum CastError {
    /// 1: a code is not listed. Only [`convert_codes`] and [`preview_codes`] can answer it.
    UnknownCode,
    /// 2: key or target bytes are not whole elements, or their counts differ.
    BrokenMap,
    /// 3: source or destination bytes are not whole elements.
    BrokenElement,
    /// 4: the element counts differ.
    LengthMismatch {
        /// Source elements.
        src_len: u64,
        /// Destination elements.
        dst_len: u64,
    },
    /// 5: a NaN or an infinity goes to an integer kind.
    NanOrInf {
        /// From 0, in elements.
        position: u64,
        /// The element as f64.
        value: f64,
    },
    /// 6: the rounded value is outside an integer target.
    OutOfRange {
        /// From 0, in elements.
        position: u64,
        /// The element as f64, unrounded; an integer by nearest-even.
        value: f64,
        /// The target's lowest number.
        lo: i64,
        /// The target's highest number.
        hi: u64,
    },
    /// 7: the rounded value is past a float target's finite range; an integer's can be past that of f16 alone.
    FloatOutOfRange {
        /// From 0, in elements.
        position: u64,
        /// The element as f64, unrounded; an integer by nearest-even.
        value: f64,
        /// The target's lowest finite number.
        lo: f64,
        /// The target's highest finite number.
        hi: f64,
    },
    /// 8: [`OutOfRangeMode::Wrap`] with a float target, whatever the lengths, the map and the elements; tested directly after 1.
    BarredWrap,
    /// A number above 8, which a later library may answer: this wrapper does not know what was done.
    UnknownNumber(u8),
}

impl CastError {
    /// The number that the library answered.
    pub fn number(self) -> u8 {
        match self {
            CastError::UnknownCode => 1,
            CastError::BrokenMap => 2,
            CastError::BrokenElement => 3,
            CastError::LengthMismatch { .. } => 4,
            CastError::NanOrInf { .. } => 5,
            CastError::OutOfRange { .. } => 6,
            CastError::FloatOutOfRange { .. } => 7,
            CastError::BarredWrap => 8,
            CastError::UnknownNumber(number) => number,
        }
    }
}

impl fmt::Display for CastError {
    fn fmt(&self, f: &mut fmt::Formatter<'_>) -> fmt::Result {
        match *self {
            CastError::UnknownCode => write!(f, "a code is not listed"),
            CastError::BrokenMap => write!(f, "the map's keys and targets are not as many whole elements"),
            CastError::BrokenElement => write!(f, "source or destination bytes are not whole elements"),
            CastError::LengthMismatch { src_len, dst_len } => write!(f, "{src_len} source elements, {dst_len} destination elements"),
            CastError::NanOrInf { position, value } => write!(f, "element {position}: {value} has no integer"),
            CastError::OutOfRange { position, value, lo, hi } => write!(f, "element {position}: {value} is outside {lo} to {hi}"),
            CastError::FloatOutOfRange { position, value, lo, hi } => write!(f, "element {position}: {value} is outside {lo} to {hi}"),
            CastError::BarredWrap => write!(f, "wrap needs an integer target"),
            CastError::UnknownNumber(number) => write!(f, "the library answered {number}, which this wrapper does not know"),
        }
    }
}

impl core::error::Error for CastError {}

/// Converts the elements of `src` in order into `dst`, as `include/polskrea.h` says, and returns how they fared.
///
/// # Errors
///
/// The first refusal, 8 or 2 to 7, with the counts of the elements before it. Refusals 8 and 2 to 4 leave `dst` as it was; 5 to 7 leave it so
/// from the refused element on.
pub fn convert(
    src: &[u8],
    dst: &mut [u8],
    map: Map<'_>,
    from: Kind,
    to: Kind,
    rounding: RoundingMode,
    range: OutOfRangeMode,
) -> Result<Counts, Refused> {
    convert_codes(src, dst, map, from as u8, to as u8, rounding as u8, range as u8)
}

/// [`convert`] by codes, which may be any bytes.
///
/// # Errors
///
/// As [`convert`], and 1 where a code is not listed.
pub fn convert_codes(src: &[u8], dst: &mut [u8], map: Map<'_>, from: u8, to: u8, rounding: u8, range: u8) -> Result<Counts, Refused> {
    let mut answer = sys::Answer::default();
    // SAFETY: each pointer and length is a slice's, the two that are written are `&mut`, and nothing is kept.
    let number = unsafe {
        sys::polskrea_convert(
            src.as_ptr(),
            src.len(),
            dst.as_mut_ptr(),
            dst.len(),
            map.keys.as_ptr(),
            map.keys.len(),
            map.targets.as_ptr(),
            map.targets.len(),
            from,
            to,
            rounding,
            range,
            &mut answer,
        )
    };
    answered(number, &answer)
}

/// What [`preview`] tells of a call.
#[derive(Debug, Clone, Copy, PartialEq)]
pub struct Preview {
    /// What [`convert`] would return. Where it refuses a NaN it holds that NaN, and is then unequal to itself.
    pub answer: Result<Counts, Refused>,
    /// How many bytes of the destination it would change: bytes, so that `0.0` over `-0.0` changes one. For the refusals 5 to 7 those before the
    /// refused element; 0 for the other refusals.
    pub changed: u64,
}

/// What [`convert`] would return, and how many bytes of `dst` it would change. Nothing is written.
///
/// ```
/// use polskrea::{convert, preview, Kind, Map, OutOfRangeMode, RoundingMode};
///
/// let (src, mut dst) = (1u16.to_le_bytes(), 0u16.to_le_bytes());
/// let ask = |dst: &[u8]| preview(&src, dst, Map::default(), Kind::U16, Kind::U16, RoundingMode::NearestEven, OutOfRangeMode::None);
/// let before = ask(&dst);
/// assert_eq!((before.changed, dst), (1, [0, 0]));
///
/// let answer = convert(&src, &mut dst, Map::default(), Kind::U16, Kind::U16, RoundingMode::NearestEven, OutOfRangeMode::None);
/// assert_eq!(answer, before.answer);
/// assert_eq!(ask(&dst).changed, 0);
/// ```
pub fn preview(src: &[u8], dst: &[u8], map: Map<'_>, from: Kind, to: Kind, rounding: RoundingMode, range: OutOfRangeMode) -> Preview {
    preview_codes(src, dst, map, from as u8, to as u8, rounding as u8, range as u8)
}

/// [`preview`] by codes, which may be any bytes.
pub fn preview_codes(src: &[u8], dst: &[u8], map: Map<'_>, from: u8, to: u8, rounding: u8, range: u8) -> Preview {
    let mut answer = sys::Answer::default();
    let mut changed = 0;
    // SAFETY: each pointer and length is a slice's, the two that are written are `&mut`, and nothing is kept.
    let number = unsafe {
        sys::polskrea_preview(
            src.as_ptr(),
            src.len(),
            dst.as_ptr(),
            dst.len(),
            map.keys.as_ptr(),
            map.keys.len(),
            map.targets.as_ptr(),
            map.targets.len(),
            from,
            to,
            rounding,
            range,
            &mut answer,
            &mut changed,
        )
    };
    Preview {
        answer: answered(number, &answer),
        changed,
    }
}

/// What a call's number and fields say.
fn answered(number: u8, answer: &sys::Answer) -> Result<Counts, Refused> {
    let counts = Counts::from(answer);
    let sys::Answer {
        position, lowest, highest, ..
    } = *answer;
    let value = f64::from_bits(answer.value);
    let error = match number {
        0 => return Ok(counts),
        1 => CastError::UnknownCode,
        2 => CastError::BrokenMap,
        3 => CastError::BrokenElement,
        4 => CastError::LengthMismatch {
            src_len: answer.src_len,
            dst_len: answer.dst_len,
        },
        5 => CastError::NanOrInf { position, value },
        6 => CastError::OutOfRange {
            position,
            value,
            lo: lowest as i64,
            hi: highest,
        },
        7 => CastError::FloatOutOfRange {
            position,
            value,
            lo: f64::from_bits(lowest),
            hi: f64::from_bits(highest),
        },
        8 => CastError::BarredWrap,
        _ => CastError::UnknownNumber(number),
    };
    Err(Refused { error, counts })
}

/// The version of the library's calls: 2, for 0.2.
pub fn version() -> u32 {
    // SAFETY: it takes nothing and returns a number.
    unsafe { sys::polskrea_version() }
}

#[cfg(test)]
mod tests {
    use super::{answered, sys, CastError, Counts, Refused};

    /// Each field another number.
    const ANSWER: sys::Answer = sys::Answer {
        src_len: 1,
        dst_len: 2,
        position: 3,
        value: 4,
        lowest: 5,
        highest: 6,
        mapped: 7,
        exact: 8,
        rounded: 9,
        clamped: 10,
        wrapped: 11,
    };
    const COUNTS: Counts = Counts {
        mapped: 7,
        exact: 8,
        rounded: 9,
        clamped: 10,
        wrapped: 11,
    };

    #[test]
    fn a_number_above_8_is_unknown() {
        for number in 9..=255 {
            let error = CastError::UnknownNumber(number);
            assert_eq!(answered(number, &ANSWER), Err(Refused { error, counts: COUNTS }));
            assert_eq!(error.number(), number);
        }
    }

    #[test]
    fn each_number_has_its_fields() {
        let [value, lo, hi] = [4, 5, 6].map(f64::from_bits);
        let refusals = [
            CastError::UnknownCode,
            CastError::BrokenMap,
            CastError::BrokenElement,
            CastError::LengthMismatch { src_len: 1, dst_len: 2 },
            CastError::NanOrInf { position: 3, value },
            CastError::OutOfRange {
                position: 3,
                value,
                lo: 5,
                hi: 6,
            },
            CastError::FloatOutOfRange {
                position: 3,
                value,
                lo,
                hi,
            },
            CastError::BarredWrap,
        ];
        assert_eq!(answered(0, &ANSWER), Ok(COUNTS));
        for (number, error) in (1..).zip(refusals) {
            assert_eq!(answered(number, &ANSWER), Err(Refused { error, counts: COUNTS }));
            assert_eq!(error.number(), number);
        }
    }
}
