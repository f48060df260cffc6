//! Stands where the original has its vector kernels: each answers that it has converted nothing, so that the scalar route is taken.
use crate::{CastError, RoundingMode};

pub fn try_f64_to_u8_clamp(_src: &[f64], _dst: &mut [u8], _rounding: RoundingMode) -> Result<bool, CastError> {
    Ok(false)
}

pub fn try_f64_to_i32_clamp(_src: &[f64], _dst: &mut [i32], _rounding: RoundingMode) -> Result<bool, CastError> {
    Ok(false)
}

pub fn try_f32_to_u8_clamp(_src: &[f32], _dst: &mut [u8], _rounding: RoundingMode) -> Result<bool, CastError> {
    Ok(false)
}

pub fn try_f64_to_f32_nearest(_src: &[f64], _dst: &mut [f32], _error_on_overflow: bool) -> Result<bool, CastError> {
    Ok(false)
}

pub fn try_f64_to_i32_check(_src: &[f64], _dst: &mut [i32], _rounding: RoundingMode) -> Result<bool, CastError> {
    Ok(false)
}
