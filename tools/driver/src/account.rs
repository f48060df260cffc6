//! An account of the counts of its own: the class of each element, from its bits, the keys and the settings, by integer arithmetic alone. It calls
//! neither the library nor the original, and no floating-point operation.
use crate::{width, Settings};
use polskrea::Counts;

/// How an element fares.
#[derive(Clone, Copy, Debug, PartialEq, Eq)]
#[repr(u8)]
pub enum Class {
    Mapped,
    Exact,
    Rounded,
    Clamped,
    Wrapped,
    /// It is not converted, and counts nowhere.
    Refused,
}

/// The counts of converted elements.
pub fn counts(classes: &[Class]) -> Counts {
    Counts {
        mapped: count(classes, Class::Mapped),
        exact: count(classes, Class::Exact),
        rounded: count(classes, Class::Rounded),
        clamped: count(classes, Class::Clamped),
        wrapped: count(classes, Class::Wrapped),
    }
}

/// How many are of a class. A run of 255 is counted in a byte, for speed.
fn count(classes: &[Class], class: Class) -> u64 {
    let run = |run: &[Class]| run.iter().map(|c| u8::from(*c == class)).sum::<u8>();
    classes.chunks(255).map(|r| u64::from(run(r))).sum()
}

/// The class of each element, for permitted settings, whole elements and whole keys; behind a refused element too. Each pair of kinds has a loop of
/// its own, with the kinds as constants and everything inlined, for speed.
pub fn classes(s: Settings, src: &[u8], keys: &[u8], out: &mut Vec<Class>) {
    macro_rules! from {
        ($($from:literal)*) => {
            match s.from {
                $($from => to!($from, 0 1 2 3 4 5 6 7 8 9 10),)*
                _ => unreachable!("a listed kind"),
            }
        };
    }
    macro_rules! to {
        ($from:literal, $($to:literal)*) => {
            match s.to {
                $($to => each::<$from, $to>(s, src, keys, out),)*
                _ => unreachable!("a listed kind"),
            }
        };
    }
    from!(0 1 2 3 4 5 6 7 8 9 10)
}

fn each<const FROM: u8, const TO: u8>(s: Settings, src: &[u8], keys: &[u8], out: &mut Vec<Class>) {
    let keys: Vec<u64> = keys.chunks_exact(width(FROM)).map(bits).collect();
    let past = past(s.range);
    out.clear();
    out.extend(src.chunks_exact(width(FROM)).map(|element| {
        let (from, to) = (Kind::of(FROM), Kind::of(TO));
        let x = bits(element);
        if keys.iter().any(|k| from.matches(*k, x)) {
            Class::Mapped
        } else {
            unmatched(from, to, s.rounding, past, x)
        }
    }));
}

/// The class of an element past the range.
pub(crate) fn past(range: u8) -> Class {
    match range {
        1 => Class::Clamped,
        2 => Class::Wrapped,
        _ => Class::Refused,
    }
}

/// An element's bits, lowest byte first.
#[inline(always)]
pub(crate) fn bits(element: &[u8]) -> u64 {
    match *element {
        [a] => u64::from(a),
        [a, b] => u64::from(u16::from_le_bytes([a, b])),
        [a, b, c, d] => u64::from(u32::from_le_bytes([a, b, c, d])),
        [a, b, c, d, e, f, g, h] => u64::from_le_bytes([a, b, c, d, e, f, g, h]),
        _ => unreachable!("an element of a listed kind"),
    }
}

/// The class of an element that no key matches.
#[inline(always)]
fn unmatched(from: Kind, to: Kind, rounding: u8, past: Class, x: u64) -> Class {
    let Some(x) = from.number(x) else {
        return match to {
            Kind::Float { .. } => Class::Exact,
            Kind::Integer { .. } => Class::Refused,
        };
    };
    let (pick, exact) = x.rounded(rounding, to.unit(x));
    if to.is_past(pick) {
        past
    } else if exact {
        Class::Exact
    } else {
        Class::Rounded
    }
}

/// A finite number: its magnitude times 2^exponent, with its sign.
#[derive(Clone, Copy)]
pub(crate) struct Number {
    pub(crate) negative: bool,
    pub(crate) magnitude: u64,
    pub(crate) exponent: i32,
}

impl Number {
    /// The multiple of 2^unit that the rounding takes, and whether it is the number itself.
    #[inline(always)]
    pub(crate) fn rounded(self, rounding: u8, unit: i32) -> (Number, bool) {
        if unit <= self.exponent {
            return (self, true);
        }
        // only a float drops more than 63 bits, and its 53 bits lie below half of 2^63 too
        let drop = (unit - self.exponent).min(63);
        let (kept, rest, half) = (self.magnitude >> drop, self.magnitude & ((1 << drop) - 1), 1 << (drop - 1));
        let away = match rounding {
            0 => half < rest || half == rest && kept % 2 == 1,
            1 => false,
            2 => 0 < rest && !self.negative,
            3 => 0 < rest && self.negative,
            _ => half <= rest,
        };
        let pick = Number {
            magnitude: kept + u64::from(away),
            exponent: unit,
            ..self
        };
        (pick, rest == 0)
    }

    /// The least n such that the number lies below 2^n; for 0, its exponent.
    #[inline(always)]
    fn top(self) -> i32 {
        self.exponent + 64 - self.magnitude.leading_zeros() as i32
    }
}

/// A kind by what its numbers are.
#[derive(Clone, Copy)]
pub(crate) enum Kind {
    Integer { signed: bool, bits: u32 },
    Float { fraction: u32, field: u32 },
}

impl Kind {
    #[inline(always)]
    pub(crate) fn of(code: u8) -> Kind {
        match code {
            8 => Kind::Float { fraction: 23, field: 8 },
            9 => Kind::Float { fraction: 52, field: 11 },
            10 => Kind::Float { fraction: 10, field: 5 },
            _ => Kind::Integer {
                signed: code < 4,
                bits: 8 << (code % 4),
            },
        }
    }

    /// Whether a key matches an element: as numbers, and any NaN any NaN.
    #[inline(always)]
    pub(crate) fn matches(self, key: u64, x: u64) -> bool {
        let Kind::Float { fraction, field } = self else {
            return key == x;
        };
        let unsigned = (1u64 << (fraction + field)) - 1;
        let infinity = unsigned >> fraction << fraction;
        let (a, b) = (key & unsigned, x & unsigned);
        key == x || a == 0 && b == 0 || infinity < a && infinity < b
    }

    /// The number that bits stand for; none for a NaN or an infinity.
    #[inline(always)]
    pub(crate) fn number(self, x: u64) -> Option<Number> {
        match self {
            Kind::Integer { signed, bits } => {
                let negative = signed && x >> (bits - 1) == 1;
                // the two's complement of the kind's bits
                let magnitude = if negative {
                    x.wrapping_neg() << (64 - bits) >> (64 - bits)
                } else {
                    x
                };
                Some(Number {
                    negative,
                    magnitude,
                    exponent: 0,
                })
            }
            Kind::Float { fraction, field } => {
                let top = (1 << field) - 1;
                let exponent = x >> fraction & top;
                let digits = x & ((1 << fraction) - 1);
                (exponent != top).then(|| Number {
                    negative: x >> (fraction + field) == 1,
                    magnitude: if exponent == 0 { digits } else { digits | 1 << fraction },
                    exponent: self.least() + exponent.max(1) as i32 - 1,
                })
            }
        }
    }

    /// The exponent of the smallest spacing.
    #[inline(always)]
    pub(crate) fn least(self) -> i32 {
        match self {
            Kind::Integer { .. } => 0,
            Kind::Float { fraction, field } => 2 - (1 << (field - 1)) - fraction as i32,
        }
    }

    /// The exponent of the grid's spacing at a number.
    #[inline(always)]
    pub(crate) fn unit(self, x: Number) -> i32 {
        match self {
            Kind::Integer { .. } => 0,
            Kind::Float { fraction, .. } => self.least().max(x.top() - fraction as i32 - 1),
        }
    }

    /// Whether a grid number lies past the finite range.
    #[inline(always)]
    pub(crate) fn is_past(self, x: Number) -> bool {
        match self {
            Kind::Integer { signed, bits } => {
                let end = match (signed, x.negative) {
                    (false, true) => 0,
                    (false, false) => u64::MAX >> (64 - bits),
                    (true, true) => 1 << (bits - 1),
                    (true, false) => (1 << (bits - 1)) - 1,
                };
                // a whole magnitude times 2^exponent is above the end where it is above end / 2^exponent, cut off
                end.checked_shr(x.exponent as u32).unwrap_or(0) < x.magnitude
            }
            // at 2^16 or above, at 2^128 or above, at 2^1024 or above
            Kind::Float { field, .. } => 1 << (field - 1) < x.top(),
        }
    }
}
