//! The library's calls as C has them: `include/polskrea.h` says what each answers, leaves, and asks of its caller.

/// What a call answers beside its number. Every call writes every field, 0 where the field does not apply.
#[derive(Debug, Clone, Copy, Default, PartialEq, Eq)]
#[repr(C)]
pub struct Answer {
    /// 4: the elements of the source.
    pub src_len: u64,
    /// 4: the elements of the destination.
    pub dst_len: u64,
    /// 5, 6, 7: of the refused element, in elements from 0.
    pub position: u64,
    /// 5, 6, 7: the refused element, unrounded, as the bits of an f64.
    pub value: u64,
    /// 6: the target's lowest number, as the bits of an i64; 7: -MAX, as the bits of an f64.
    pub lowest: u64,
    /// 6: the target's highest number; 7: MAX, as the bits of an f64.
    pub highest: u64,
    /// Converted elements that a map entry matches.
    pub mapped: u64,
    /// Unmatched ones whose rounded value is the same number, and NaNs and infinities to a float kind.
    pub exact: u64,
    /// Unmatched ones whose rounded value is another number, in range.
    pub rounded: u64,
    /// Unmatched ones whose rounded value is past the range, clamped.
    pub clamped: u64,
    /// Unmatched ones whose rounded value is past the range, wrapped.
    pub wrapped: u64,
}

/// A map entry of a typed call: the key's and the target's own types.
#[derive(Debug, Clone, Copy, PartialEq)]
#[repr(C)]
pub struct Entry<K, T> {
    /// What an element is compared with.
    pub key: K,
    /// What is stored for an element that equals the key.
    pub target: T,
}

extern "C" {
    /// The chunk call, on bytes. Every length counts bytes.
    pub fn polskrea_convert(
        src: *const u8,
        src_len: usize,
        dst: *mut u8,
        dst_len: usize,
        keys: *const u8,
        keys_len: usize,
        targets: *const u8,
        targets_len: usize,
        from: u8,
        to: u8,
        rounding: u8,
        range: u8,
        answer: *mut Answer,
    ) -> u8;

    /// The preview of the chunk call: its number and its answer, and how many bytes of the destination it would change.
    pub fn polskrea_preview(
        src: *const u8,
        src_len: usize,
        dst: *const u8,
        dst_len: usize,
        keys: *const u8,
        keys_len: usize,
        targets: *const u8,
        targets_len: usize,
        from: u8,
        to: u8,
        rounding: u8,
        range: u8,
        answer: *mut Answer,
        changed: *mut u64,
    ) -> u8;

    /// The version of the interface.
    pub fn polskrea_version() -> u32;
}

macro_rules! typed {
    ($name:ident, $source:ty, $target:ty) => {
        extern "C" {
            /// A typed call. Every length counts elements.
            pub fn $name(
                src: *const $source,
                src_len: usize,
                dst: *mut $target,
                dst_len: usize,
                entries: *const Entry<$source, $target>,
                entries_len: usize,
                rounding: u8,
                range: u8,
                answer: *mut Answer,
            ) -> u8;
        }
    };
}

typed!(polskrea_convert_f64_to_u8, f64, u8);
typed!(polskrea_convert_f64_to_i32, f64, i32);
typed!(polskrea_convert_f32_to_u8, f32, u8);
typed!(polskrea_convert_f64_to_f32, f64, f32);
typed!(polskrea_convert_i64_to_f32, i64, f32);
