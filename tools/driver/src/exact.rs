//! What each element comes to, by integer arithmetic alone: its bits in the target kind, a NaN's too, or its refusal. It calls neither the library
//! nor the original, and no floating-point operation. The pairs with f16 are held to it, for the half-precision conversion behind the original
//! rounds otherwise in places.
use crate::account::{bits, past, Class, Kind, Number};
use crate::{width, Answer, Reference, Settings};

/// Fills `out` and the elements' classes, for permitted settings, whole elements and a whole map. What is refused holds 0.
pub fn reference(s: Settings, src: &[u8], keys: &[u8], targets: &[u8], out: &mut Reference, classes: &mut Vec<Class>) {
    macro_rules! from {
        ($($from:literal)*) => {
            match s.from {
                $($from => to!($from, 0 1 2 3 4 5 6 7 8 9 10),)*
                _ => unreachable!("a listed kind"),
            }
        };
    }
    macro_rules! to {
        ($from:literal, $($to:literal)*) => {
            match s.to {
                $($to => each::<$from, $to>(s, src, keys, targets, out, classes),)*
                _ => unreachable!("a listed kind"),
            }
        };
    }
    from!(0 1 2 3 4 5 6 7 8 9 10)
}

fn each<const FROM: u8, const TO: u8>(s: Settings, src: &[u8], keys: &[u8], targets: &[u8], out: &mut Reference, classes: &mut Vec<Class>) {
    let (from, to, past) = (Kind::of(FROM), Kind::of(TO), past(s.range));
    let read = |row: &[u8], w| row.chunks_exact(w).map(bits).collect::<Vec<u64>>();
    let (keys, targets) = (read(keys, width(FROM)), read(targets, width(TO)));
    out.stored.clear();
    out.stored.resize(src.len() / width(FROM) * width(TO), 0);
    out.refused.clear();
    classes.clear();
    let places = out.stored.chunks_exact_mut(width(TO));
    for (i, (element, place)) in src.chunks_exact(width(FROM)).zip(places).enumerate() {
        let x = bits(element);
        let (class, y) = match keys.iter().position(|k| from.matches(*k, x)) {
            Some(entry) => (Class::Mapped, targets[entry]),
            None => converted(from, to, s.rounding, past, x),
        };
        classes.push(class);
        if class == Class::Refused {
            out.refused.push(refusal(from, to, i, x));
        } else {
            place.copy_from_slice(&y.to_le_bytes()[..width(TO)]);
        }
    }
}

/// The class and the bits of an element that no key matches; 0 where it is refused.
#[inline(always)]
fn converted(from: Kind, to: Kind, rounding: u8, past: Class, x: u64) -> (Class, u64) {
    let Some(number) = from.number(x) else {
        return match carried(from, to, x) {
            Some(y) => (Class::Exact, y),
            None => (Class::Refused, 0),
        };
    };
    let (pick, exact) = number.rounded(rounding, to.unit(number));
    if to.is_past(pick) {
        let y = match past {
            Class::Clamped => end(to, pick.negative),
            Class::Wrapped => pattern(to, pick),
            _ => 0,
        };
        return (past, y);
    }
    (if exact { Class::Exact } else { Class::Rounded }, pattern(to, pick))
}

/// A NaN or an infinity in another kind; none in an integer kind.
#[inline(always)]
fn carried(from: Kind, to: Kind, x: u64) -> Option<u64> {
    let (Kind::Float { fraction: f, field: e }, Kind::Float { fraction, field }) = (from, to) else {
        return None;
    };
    let (sign, digits) = (x >> (f + e), x & ((1 << f) - 1));
    let top = if f <= fraction {
        digits << (fraction - f)
    } else {
        digits >> (f - fraction)
    };
    let quiet = u64::from(digits != 0 && f != fraction) << (fraction - 1);
    Some(sign << (fraction + field) | infinity(fraction, field) | top | quiet)
}

#[inline(always)]
fn infinity(fraction: u32, field: u32) -> u64 {
    ((1 << field) - 1) << fraction
}

/// The bits of a number that the kind holds; of a whole number that an integer kind does not hold, the lowest bits.
#[inline(always)]
pub(crate) fn pattern(kind: Kind, x: Number) -> u64 {
    match kind {
        Kind::Integer { bits, .. } => {
            let whole = x.magnitude.checked_shl(x.exponent as u32).unwrap_or(0);
            (if x.negative { whole.wrapping_neg() } else { whole }) & u64::MAX >> (64 - bits)
        }
        Kind::Float { fraction, field } => {
            let sign = u64::from(x.negative) << (fraction + field);
            if x.magnitude == 0 {
                return sign;
            }
            let (unit, least) = (kind.unit(x), kind.least());
            let digits = if unit <= x.exponent {
                x.magnitude << (x.exponent - unit)
            } else {
                x.magnitude >> (unit - x.exponent)
            };
            // the leading digit of a normal number counts one in the exponent's field
            sign | (((unit - least) as u64) << fraction) + digits
        }
    }
}

/// What a number past the range is clamped to.
#[inline(always)]
fn end(kind: Kind, negative: bool) -> u64 {
    match kind {
        Kind::Float { fraction, field } => u64::from(negative) << (fraction + field) | infinity(fraction, field),
        Kind::Integer { bits, .. } => {
            let (lowest, highest) = ends(kind);
            (if negative { lowest } else { highest }) & u64::MAX >> (64 - bits)
        }
    }
}

/// The ends that a refusal names: of an integer kind as 64 bits, of a float kind as f64.
fn ends(kind: Kind) -> (u64, u64) {
    match kind {
        Kind::Integer { signed: true, bits } => ((-1i64 << (bits - 1)) as u64, (1 << (bits - 1)) - 1),
        Kind::Integer { signed: false, bits } => (0, u64::MAX >> (64 - bits)),
        Kind::Float { fraction, field } => {
            let largest = |negative| Number {
                negative,
                magnitude: (2 << fraction) - 1,
                exponent: (1 << (field - 1)) - 1 - fraction as i32,
            };
            let double = |x| pattern(Kind::of(9), x);
            (double(largest(true)), double(largest(false)))
        }
    }
}

/// The refusal of the element at a position.
fn refusal(from: Kind, to: Kind, position: usize, x: u64) -> Answer {
    let double = Kind::of(9);
    let (number, value) = match from.number(x) {
        None => (5, carried(from, double, x).expect("only a float is not finite")),
        Some(n) => {
            let (pick, _) = n.rounded(0, double.unit(n));
            (if matches!(to, Kind::Float { .. }) { 7 } else { 6 }, pattern(double, pick))
        }
    };
    let (lowest, highest) = if number == 5 { (0, 0) } else { ends(to) };
    Answer {
        number,
        position: position as u64,
        value,
        lowest,
        highest,
        ..Answer::default()
    }
}

/// An f64 in f16 by a rounding, overruns as infinities.
pub fn f64_to_f16(rounding: u8, x: u64) -> u64 {
    converted(Kind::of(9), Kind::of(10), rounding, Class::Clamped, x).1
}

/// The f64 halfway between a finite f16 and the next one away from zero.
pub fn halfway(half: u64) -> u64 {
    let x = Kind::of(10).number(half).expect("a finite f16");
    let middle = Number {
        magnitude: 2 * x.magnitude + 1,
        exponent: x.exponent - 1,
        ..x
    };
    pattern(Kind::of(9), middle)
}
