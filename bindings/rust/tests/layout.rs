//! The layout of the types that cross to C, as `include/polskrea.h` has it on x86-64, and the kinds' codes and bytes.
use polskrea::sys::{Answer, Entry};
use polskrea::Kind;
use std::mem::{align_of, offset_of, size_of};

/// Size, alignment, and where key and target stand.
macro_rules! layout {
    ($key:ty, $target:ty) => {{
        type E = Entry<$key, $target>;
        (size_of::<E>(), align_of::<E>(), offset_of!(E, key), offset_of!(E, target))
    }};
}

#[test]
fn entries() {
    assert_eq!(layout!(f64, u8), (16, 8, 0, 8));
    assert_eq!(layout!(f64, i32), (16, 8, 0, 8));
    assert_eq!(layout!(f32, u8), (8, 4, 0, 4));
    assert_eq!(layout!(f64, f32), (16, 8, 0, 8));
    assert_eq!(layout!(i64, f32), (16, 8, 0, 8));
}

#[test]
fn kinds() {
    let integers = [Kind::I8, Kind::I16, Kind::I32, Kind::I64, Kind::U8, Kind::U16, Kind::U32, Kind::U64];
    let all = integers.into_iter().chain([Kind::F32, Kind::F64, Kind::F16]);
    for ((kind, code), bytes) in all.zip(0..).zip([1, 2, 4, 8, 1, 2, 4, 8, 4, 8, 2]) {
        assert_eq!((kind as u8, kind.bytes()), (code, bytes), "{kind:?}");
    }
}

#[test]
fn answer_and_lengths() {
    assert_eq!((size_of::<Answer>(), align_of::<Answer>()), (88, 8));
    assert_eq!(size_of::<usize>(), 8);
}

#[test]
fn fields_of_the_answer() {
    assert_eq!(offset_of!(Answer, src_len), 0);
    assert_eq!(offset_of!(Answer, dst_len), 8);
    assert_eq!(offset_of!(Answer, position), 16);
    assert_eq!(offset_of!(Answer, value), 24);
    assert_eq!(offset_of!(Answer, lowest), 32);
    assert_eq!(offset_of!(Answer, highest), 40);
    assert_eq!(offset_of!(Answer, mapped), 48);
    assert_eq!(offset_of!(Answer, exact), 56);
    assert_eq!(offset_of!(Answer, rounded), 64);
    assert_eq!(offset_of!(Answer, clamped), 72);
    assert_eq!(offset_of!(Answer, wrapped), 80);
}
