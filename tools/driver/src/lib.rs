//! Both sides of the comparison. Ours: `ours`, the chunk call, `ours_preview`, its preview, and `ours_typed`, the typed calls. The original's:
//! `reference`, its element functions applied in order, and `slices`, its slice functions. It has no counts: `account` has them. Where a kind is
//! f16, what is due is that of `exact`.
use original::{
    convert_float_to_float, convert_float_to_int, convert_int_to_float, convert_int_to_int, convert_slice_float_to_float,
    convert_slice_float_to_int, convert_slice_int_to_float, convert_slice_int_to_int, f16, CastError, CastFloat, CastInt, CastInto,
    FloatToFloatConfig, FloatToIntConfig, IntToFloatConfig, IntToIntConfig, MapEntry, OutOfRangeMode, RoundingMode,
};
use polskrea::{sys, Counts, Entry};
use std::ptr;

pub mod account;
pub mod compare;
pub mod exact;
pub mod ieee;
pub mod samples;

pub const KINDS: [&str; 11] = ["i8", "i16", "i32", "i64", "u8", "u16", "u32", "u64", "f32", "f64", "f16"];
pub const RULES: [&str; 5] = [
    "nearest-even",
    "towards-zero",
    "towards-positive",
    "towards-negative",
    "nearest-away",
];
pub const RANGES: [&str; 3] = ["none", "clamp", "wrap"];

/// The bytes of an element of a listed kind.
pub fn width(kind: u8) -> usize {
    [1, 2, 4, 8, 1, 2, 4, 8, 4, 8, 2][kind as usize]
}

pub fn is_float(kind: u8) -> bool {
    8 <= kind
}

#[derive(Clone, Copy, Debug, PartialEq, Eq, PartialOrd, Ord)]
pub struct Settings {
    pub from: u8,
    pub to: u8,
    pub rounding: u8,
    pub range: u8,
}

impl Settings {
    pub fn name(&self) -> String {
        let pick = |names: &[&str], code: u8| names.get(code as usize).map_or(format!("code {code}"), |s| s.to_string());
        format!(
            "{} to {}, {}, {}",
            pick(&KINDS, self.from),
            pick(&KINDS, self.to),
            pick(&RULES, self.rounding),
            pick(&RANGES, self.range)
        )
    }
}

/// Whether a refusal of this number names the position of an element.
pub fn names_position(number: u8) -> bool {
    (5..=7).contains(&number)
}

/// Whether the settings have wrap and a float target: 8 refuses them, and the original, which accepts them, is not consulted.
pub fn barred(s: Settings) -> bool {
    s.range == 2 && is_float(s.to)
}

/// Whether f16 is one of the two kinds: exact arithmetic says what is due, and the original is held to it.
pub fn has_half(s: Settings) -> bool {
    s.from == 10 || s.to == 10
}

/// The settings that the original is consulted for: 1,650 of those that are listed.
pub fn permitted_settings() -> Vec<Settings> {
    all_settings().into_iter().filter(|s| !barred(*s)).collect()
}

/// All settings that are listed, 11 x 11 x 5 x 3.
pub fn all_settings() -> Vec<Settings> {
    let mut all = Vec::new();
    for from in 0..11 {
        for to in 0..11 {
            for rounding in 0..5 {
                for range in 0..3 {
                    all.push(Settings { from, to, rounding, range });
                }
            }
        }
    }
    all
}

/// A call's number and the fields of a refusal, 0 where they do not apply: what both sides have. The default is that of a converted chunk.
#[derive(Clone, Copy, Debug, Default, PartialEq, Eq)]
pub struct Answer {
    pub number: u8,
    pub src_len: u64,
    pub dst_len: u64,
    pub position: u64,
    pub value: u64,
    pub lowest: u64,
    pub highest: u64,
}

impl Answer {
    /// Equal, with the value of 5 to 7 a NaN where the other's is one.
    pub fn same(&self, other: &Answer) -> bool {
        let nan = |a: &Answer| names_position(a.number) && f64::from_bits(a.value).is_nan();
        if nan(self) && nan(other) {
            let value = other.value;
            return Answer { value, ..*self } == *other;
        }
        self == other
    }

    pub fn text(&self) -> String {
        let Answer {
            number,
            src_len,
            dst_len,
            position,
            value,
            lowest,
            highest,
        } = self;
        let double = f64::from_bits(*value);
        format!(
            "{number}, lengths {src_len} and {dst_len}, at {position}, value {value:#018x} ({double:e}), ends {lowest:#x} and {highest:#x}"
        )
    }
}

/// What stands in the fields before a call, so that one that is not written shows.
const UNWRITTEN: sys::Answer = {
    let mark = 0x5555_5555_5555_5555;
    sys::Answer {
        src_len: mark,
        dst_len: mark,
        position: mark,
        value: mark,
        lowest: mark,
        highest: mark,
        mapped: mark,
        exact: mark,
        rounded: mark,
        clamped: mark,
        wrapped: mark,
    }
};

/// What a call of the library answered.
fn answered(number: u8, fields: &sys::Answer) -> (Answer, Counts) {
    let answer = Answer {
        number,
        src_len: fields.src_len,
        dst_len: fields.dst_len,
        position: fields.position,
        value: fields.value,
        lowest: fields.lowest,
        highest: fields.highest,
    };
    (answer, Counts::from(fields))
}

fn address<T>(s: &[T]) -> *const T {
    if s.is_empty() {
        ptr::null()
    } else {
        s.as_ptr()
    }
}

/// The proved library. An empty slice goes in as a null pointer.
#[inline]
pub fn ours(s: Settings, src: &[u8], dst: &mut [u8], keys: &[u8], targets: &[u8]) -> (Answer, Counts) {
    let mut fields = UNWRITTEN;
    let to = if dst.is_empty() { ptr::null_mut() } else { dst.as_mut_ptr() };
    // SAFETY: pointers and lengths are slices', and what is written is `&mut`.
    let number = unsafe {
        sys::polskrea_convert(
            address(src),
            src.len(),
            to,
            dst.len(),
            address(keys),
            keys.len(),
            address(targets),
            targets.len(),
            s.from,
            s.to,
            s.rounding,
            s.range,
            &mut fields,
        )
    };
    answered(number, &fields)
}

/// The proved library's preview: the answer, the counts, and how many bytes of the destination would change.
#[inline]
pub fn ours_preview(s: Settings, src: &[u8], dst: &[u8], keys: &[u8], targets: &[u8]) -> (Answer, Counts, u64) {
    let mut fields = UNWRITTEN;
    let mut changed = u64::MAX;
    // SAFETY: pointers and lengths are slices', and what is written is `&mut`.
    let number = unsafe {
        sys::polskrea_preview(
            address(src),
            src.len(),
            address(dst),
            dst.len(),
            address(keys),
            keys.len(),
            address(targets),
            targets.len(),
            s.from,
            s.to,
            s.rounding,
            s.range,
            &mut fields,
            &mut changed,
        )
    };
    let (answer, counts) = answered(number, &fields);
    (answer, counts, changed)
}

/// An element type and its bytes.
pub trait Element: Copy + 'static {
    const CODE: u8;
    const SIZE: usize;
    fn read(bytes: &[u8]) -> Self;
    fn write(self, bytes: &mut [u8]);
}

macro_rules! elements {
    ($($ty:ty: $code:expr),*) => {
        $(impl Element for $ty {
            const CODE: u8 = $code;
            const SIZE: usize = size_of::<$ty>();
            #[inline]
            fn read(bytes: &[u8]) -> Self { <$ty>::from_le_bytes(bytes.try_into().unwrap()) }
            #[inline]
            fn write(self, bytes: &mut [u8]) { bytes.copy_from_slice(&self.to_le_bytes()) }
        })*
    };
}

elements!(i8: 0, i16: 1, i32: 2, i64: 3, u8: 4, u16: 5, u32: 6, u64: 7, f32: 8, f64: 9);

impl Element for f16 {
    const CODE: u8 = 10;
    const SIZE: usize = 2;
    #[inline]
    fn read(bytes: &[u8]) -> Self {
        f16::from_bits(u16::read(bytes))
    }
    #[inline]
    fn write(self, bytes: &mut [u8]) {
        self.to_bits().write(bytes);
    }
}

/// The C type of a typed call.
type TypedCall<S, D> = unsafe extern "C" fn(*const S, usize, *mut D, usize, *const Entry<S, D>, usize, u8, u8, *mut sys::Answer) -> u8;

/// A source type that has a typed call to the target type.
pub trait Typed<D>: Element {
    const CALL: TypedCall<Self, D>;
}

macro_rules! typed {
    ($source:ty, $target:ty, $call:ident) => {
        impl Typed<$target> for $source {
            const CALL: TypedCall<$source, $target> = sys::$call;
        }
    };
}

typed!(f64, u8, polskrea_convert_f64_to_u8);
typed!(f64, i32, polskrea_convert_f64_to_i32);
typed!(f32, u8, polskrea_convert_f32_to_u8);
typed!(f64, f32, polskrea_convert_f64_to_f32);
typed!(i64, f32, polskrea_convert_i64_to_f32);

/// A typed call of the proved library. An empty slice goes in as a null pointer.
#[inline]
pub fn typed<S: Typed<D>, D>(s: Settings, src: &[S], dst: &mut [D], entries: &[Entry<S, D>]) -> (Answer, Counts) {
    let mut fields = UNWRITTEN;
    let to = if dst.is_empty() { ptr::null_mut() } else { dst.as_mut_ptr() };
    // SAFETY: pointers and lengths are slices', and what is written is `&mut`.
    let number = unsafe {
        S::CALL(
            address(src),
            src.len(),
            to,
            dst.len(),
            address(entries),
            entries.len(),
            s.rounding,
            s.range,
            &mut fields,
        )
    };
    answered(number, &fields)
}

/// The map of a typed call.
pub fn typed_entries<S: Element, D: Element>(keys: &[u8], targets: &[u8]) -> Vec<Entry<S, D>> {
    let pairs = entries::<S, D>(keys, targets);
    pairs.into_iter().map(|e| Entry { key: e.src, target: e.tgt }).collect()
}

pub fn rounding_of(code: u8) -> RoundingMode {
    match code {
        0 => RoundingMode::NearestEven,
        1 => RoundingMode::TowardsZero,
        2 => RoundingMode::TowardsPositive,
        3 => RoundingMode::TowardsNegative,
        4 => RoundingMode::NearestAway,
        _ => unreachable!("a listed rounding code"),
    }
}

pub fn range_of(code: u8) -> Option<OutOfRangeMode> {
    match code {
        0 => None,
        1 => Some(OutOfRangeMode::Clamp),
        2 => Some(OutOfRangeMode::Wrap),
        _ => unreachable!("a listed range code"),
    }
}

/// What the original's element functions say of each element: the stored bytes, and the refusals by position.
#[derive(Default)]
pub struct Reference {
    pub stored: Vec<u8>,
    pub refused: Vec<Answer>,
}

fn refusal(position: usize, error: CastError) -> Answer {
    let refused = |number, value: f64, lowest, highest| Answer {
        number,
        position: position as u64,
        value: value.to_bits(),
        lowest,
        highest,
        ..Answer::default()
    };
    match error {
        CastError::NanOrInf { value } => refused(5, value, 0, 0),
        CastError::OutOfRange { value, lo, hi } => {
            let lowest = i64::try_from(lo).expect("a lowest end fits i64") as u64;
            let highest = u64::try_from(hi).expect("a highest end fits u64");
            refused(6, value, lowest, highest)
        }
        CastError::FloatOutOfRange { value, lo, hi } => refused(7, value, lo.to_bits(), hi.to_bits()),
        CastError::LengthMismatch { src_len, dst_len } => lengths_differ(src_len, dst_len),
    }
}

/// The number 4, with both element counts.
pub fn lengths_differ(src_len: usize, dst_len: usize) -> Answer {
    Answer {
        number: 4,
        src_len: src_len as u64,
        dst_len: dst_len as u64,
        ..Answer::default()
    }
}

pub fn entries<S: Element, D: Element>(keys: &[u8], targets: &[u8]) -> Vec<MapEntry<S, D>> {
    keys.chunks_exact(S::SIZE)
        .zip(targets.chunks_exact(D::SIZE))
        .map(|(k, t)| MapEntry {
            src: S::read(k),
            tgt: D::read(t),
        })
        .collect()
}

/// The bytes of whole elements as a slice of them.
fn view<T: Element>(bytes: &[u8]) -> &[T] {
    // SAFETY: each pattern of an element type is a value.
    let (before, elements, after) = unsafe { bytes.align_to::<T>() };
    assert!(before.is_empty() && after.is_empty(), "whole elements at their alignment");
    elements
}

fn view_mut<T: Element>(bytes: &mut [u8]) -> &mut [T] {
    // SAFETY: each pattern of an element type is a value.
    let (before, elements, after) = unsafe { bytes.align_to_mut::<T>() };
    assert!(before.is_empty() && after.is_empty(), "whole elements at their alignment");
    elements
}

/// Whether two kinds have a typed call.
pub fn has_typed(from: u8, to: u8) -> bool {
    matches!((from, to), (9, 4) | (9, 2) | (8, 4) | (9, 8) | (3, 8))
}

/// The typed call of the two kinds, on whole elements and a whole map; source and destination stand at their alignment.
pub fn ours_typed(s: Settings, src: &[u8], dst: &mut [u8], keys: &[u8], targets: &[u8]) -> (Answer, Counts) {
    fn call<S: Typed<D>, D: Element>(s: Settings, src: &[u8], dst: &mut [u8], keys: &[u8], targets: &[u8]) -> (Answer, Counts) {
        typed(s, view::<S>(src), view_mut::<D>(dst), &typed_entries(keys, targets))
    }
    match (s.from, s.to) {
        (9, 4) => call::<f64, u8>(s, src, dst, keys, targets),
        (9, 2) => call::<f64, i32>(s, src, dst, keys, targets),
        (8, 4) => call::<f32, u8>(s, src, dst, keys, targets),
        (9, 8) => call::<f64, f32>(s, src, dst, keys, targets),
        (3, 8) => call::<i64, f32>(s, src, dst, keys, targets),
        _ => unreachable!("a pair with a typed call"),
    }
}

/// A conversion of the original, by its element function and by its slice function.
macro_rules! route {
    ($element:ident, $slice:ident, $config:ident, $convert:ident, $convert_slice:ident, $src:ident, $dst:ident $(, $field:ident)?) => {
        fn $element<S: Element + $src + CastInto<D>, D: Element + $dst>(s: Settings, src: &[u8], keys: &[u8], targets: &[u8], out: &mut Reference) {
            let config = $config { map_entries: entries::<S, D>(keys, targets), $($field: rounding_of(s.rounding),)? out_of_range: range_of(s.range) };
            let places = out.stored.chunks_exact_mut(D::SIZE);
            for (i, (b, place)) in src.chunks_exact(S::SIZE).zip(places).enumerate() {
                match $convert(S::read(b), &config) {
                    Ok(y) => y.write(place),
                    Err(e) => out.refused.push(refusal(i, e)),
                }
            }
        }

        fn $slice<S: Element + $src + CastInto<D>, D: Element + $dst>(s: Settings, src: &[u8], keys: &[u8], targets: &[u8], dst: &mut [u8]) -> Result<(), CastError> {
            let config = $config { map_entries: entries::<S, D>(keys, targets), $($field: rounding_of(s.rounding),)? out_of_range: range_of(s.range) };
            $convert_slice(view::<S>(src), view_mut::<D>(dst), &config)
        }
    };
}

route!(
    float_int,
    float_int_slice,
    FloatToIntConfig,
    convert_float_to_int,
    convert_slice_float_to_int,
    CastFloat,
    CastInt,
    rounding
);
route!(
    int_int,
    int_int_slice,
    IntToIntConfig,
    convert_int_to_int,
    convert_slice_int_to_int,
    CastInt,
    CastInt
);
route!(
    float_float,
    float_float_slice,
    FloatToFloatConfig,
    convert_float_to_float,
    convert_slice_float_to_float,
    CastFloat,
    CastFloat,
    rounding
);
route!(
    int_float,
    int_float_slice,
    IntToFloatConfig,
    convert_int_to_float,
    convert_slice_int_to_float,
    CastInt,
    CastFloat,
    rounding
);

macro_rules! by_target {
    ($S:ty, $int:ident, $float:ident, $s:expr, $args:tt) => {
        match $s.to {
            0 => $int::<$S, i8> $args,
            1 => $int::<$S, i16> $args,
            2 => $int::<$S, i32> $args,
            3 => $int::<$S, i64> $args,
            4 => $int::<$S, u8> $args,
            5 => $int::<$S, u16> $args,
            6 => $int::<$S, u32> $args,
            7 => $int::<$S, u64> $args,
            8 => $float::<$S, f32> $args,
            9 => $float::<$S, f64> $args,
            10 => $float::<$S, f16> $args,
            _ => unreachable!("a listed kind"),
        }
    };
}

macro_rules! by_source {
    ($int_int:ident, $int_float:ident, $float_int:ident, $float_float:ident, $s:expr, $args:tt) => {
        match $s.from {
            0 => by_target!(i8, $int_int, $int_float, $s, $args),
            1 => by_target!(i16, $int_int, $int_float, $s, $args),
            2 => by_target!(i32, $int_int, $int_float, $s, $args),
            3 => by_target!(i64, $int_int, $int_float, $s, $args),
            4 => by_target!(u8, $int_int, $int_float, $s, $args),
            5 => by_target!(u16, $int_int, $int_float, $s, $args),
            6 => by_target!(u32, $int_int, $int_float, $s, $args),
            7 => by_target!(u64, $int_int, $int_float, $s, $args),
            8 => by_target!(f32, $float_int, $float_float, $s, $args),
            9 => by_target!(f64, $float_int, $float_float, $s, $args),
            10 => by_target!(f16, $float_int, $float_float, $s, $args),
            _ => unreachable!("a listed kind"),
        }
    };
}

/// Fills `out` by the original's element functions, for permitted settings, whole elements and a whole map. What is refused holds 0.
pub fn reference(s: Settings, src: &[u8], keys: &[u8], targets: &[u8], out: &mut Reference) {
    out.stored.clear();
    out.stored.resize(src.len() / width(s.from) * width(s.to), 0);
    out.refused.clear();
    by_source!(int_int, int_float, float_int, float_float, s, (s, src, keys, targets, out))
}

/// The original's slice function, for permitted settings, whole elements at their alignment and a whole map. A refusal is 4 with both counts, or
/// that of an element, at the position 0, for the original names none.
pub fn slices(s: Settings, src: &[u8], keys: &[u8], targets: &[u8], dst: &mut [u8]) -> Answer {
    let result = by_source!(
        int_int_slice,
        int_float_slice,
        float_int_slice,
        float_float_slice,
        s,
        (s, src, keys, targets, dst)
    );
    result.map_or_else(|e| refusal(0, e), |()| Answer::default())
}

/// An element's bytes as a number, lowest byte first.
pub fn pattern(bytes: &[u8]) -> u64 {
    bytes.iter().rev().fold(0, |n, b| n << 8 | u64::from(*b))
}

/// Appends the element of a kind that has this pattern.
pub fn put(out: &mut Vec<u8>, kind: u8, pattern: u64) {
    out.extend_from_slice(&pattern.to_le_bytes()[..width(kind)]);
}

/// Whether a pattern of a kind is a NaN.
pub fn is_nan(kind: u8, pattern: u64) -> bool {
    match kind {
        8 => f32::from_bits(pattern as u32).is_nan(),
        9 => f64::from_bits(pattern).is_nan(),
        10 => 0x7c00 < pattern & 0x7fff,
        _ => false,
    }
}

/// What the original is known to store of an f64 in f16 where IEEE 754 has another number: the crate behind it drops the lowest 32 bits, and so
/// takes a number just above a halfway point for that point.
pub fn known(s: Settings, x: u64) -> Option<u64> {
    let finite = x & 0x7fff_ffff_ffff_ffff < 0x7ff0 << 48;
    if (s.from, s.to) != (9, 10) || !matches!(s.rounding, 0 | 4) || !finite || x as u32 == 0 {
        return None;
    }
    let theirs = exact::f64_to_f16(0, x & !0xffff_ffff);
    (theirs != exact::f64_to_f16(s.rounding, x)).then_some(theirs)
}

/// Whether two runs of elements of a kind are the same, a NaN as a NaN; else the position of the first that differ.
pub fn first_difference(kind: u8, a: &[u8], b: &[u8]) -> Option<usize> {
    if a == b {
        return None;
    }
    let w = width(kind);
    a.chunks_exact(w)
        .zip(b.chunks_exact(w))
        .position(|(x, y)| x != y && !(is_nan(kind, pattern(x)) && is_nan(kind, pattern(y))))
}
