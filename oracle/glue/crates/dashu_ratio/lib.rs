// GLUE of the oracle, and no part of the original: it stands in for the crate `dashu_ratio` of a
// registry. Its fractions are always reduced, with the sign above the line, as that crate's are;
// their parts have 128 bits, and where these are not enough, the arithmetic panics.

use dashu_int::ops::UnsignedAbs;
use dashu_int::{IBig, UBig};
use num_traits::Signed;
use std::cmp::Ordering;
use std::ops::{Add, Div, Mul, Neg, Sub};

/// A fraction. The parts have no divisor in common, and the lower one is above 0, so two are equal
/// exactly if their parts are.
#[derive(Clone, Debug, PartialEq, Eq, Hash)]
pub struct RBig {
    numerator: IBig,
    denominator: UBig,
}

/// The fraction of whole parts, the lower one above 0.
#[inline]
fn reduced(numerator: IBig, denominator: UBig) -> RBig {
    if denominator == UBig::ONE {
        return RBig {
            numerator,
            denominator,
        };
    }
    let (mut a, mut b) = (numerator.unsigned_abs(), denominator);
    while !b.is_zero() {
        let rest = a - a / b * b;
        (a, b) = (b, rest);
    }
    RBig {
        numerator: numerator / IBig::from(a),
        denominator: denominator / a,
    }
}

impl RBig {
    pub const ZERO: RBig = RBig {
        numerator: IBig::ZERO,
        denominator: UBig::ONE,
    };
    pub const ONE: RBig = RBig {
        numerator: IBig::ONE,
        denominator: UBig::ONE,
    };

    /// The quotient of two whole numbers. The lower one may not be 0.
    #[inline]
    pub fn from_parts_signed(numerator: IBig, denominator: IBig) -> RBig {
        assert!(
            !denominator.is_zero(),
            "glue of the oracle: a fraction over 0"
        );
        let numerator = if denominator.is_negative() {
            -numerator
        } else {
            numerator
        };
        reduced(numerator, denominator.unsigned_abs())
    }

    #[inline]
    pub fn numerator(&self) -> &IBig {
        &self.numerator
    }

    #[inline]
    pub fn denominator(&self) -> &UBig {
        &self.denominator
    }
}

impl From<IBig> for RBig {
    #[inline]
    fn from(value: IBig) -> RBig {
        reduced(value, UBig::ONE)
    }
}

/// The number is NaN or infinite.
#[derive(Debug)]
pub struct NotFinite;

impl TryFrom<f64> for RBig {
    type Error = NotFinite;

    /// The exact value of a finite float.
    #[inline]
    fn try_from(value: f64) -> Result<RBig, NotFinite> {
        if !value.is_finite() {
            return Err(NotFinite);
        }
        let bits = value.to_bits();
        let biased = ((bits >> 52) & 0x7ff) as i32;
        let fraction = (bits & ((1 << 52) - 1)) as u128;
        let (mut magnitude, mut exponent) = match biased {
            0 => (fraction, -1074),
            _ => (fraction | 1 << 52, biased - 1075),
        };
        // The odd part keeps both parts of the fraction as small as can be.
        if magnitude != 0 {
            let zeros = magnitude.trailing_zeros();
            magnitude >>= zeros;
            exponent += zeros as i32;
        } else {
            exponent = 0;
        }
        let above = &UBig::from(magnitude) << exponent.max(0) as usize;
        let below = &UBig::ONE << (-exponent).max(0) as usize;
        let above = IBig::from(above);
        Ok(RBig {
            numerator: if value < 0.0 { -above } else { above },
            denominator: below,
        })
    }
}

impl Ord for RBig {
    #[inline]
    fn cmp(&self, other: &RBig) -> Ordering {
        if self.denominator == other.denominator {
            return self.numerator.cmp(&other.numerator);
        }
        (&self.numerator * &other.denominator).cmp(&(&other.numerator * &self.denominator))
    }
}

impl PartialOrd for RBig {
    #[inline]
    fn partial_cmp(&self, other: &RBig) -> Option<Ordering> {
        Some(self.cmp(other))
    }
}

impl Neg for &RBig {
    type Output = RBig;
    #[inline]
    fn neg(self) -> RBig {
        RBig {
            numerator: -self.numerator,
            denominator: self.denominator,
        }
    }
}

impl Add for &RBig {
    type Output = RBig;
    #[inline]
    fn add(self, other: &RBig) -> RBig {
        if self.denominator == other.denominator {
            return reduced(self.numerator + other.numerator, self.denominator);
        }
        reduced(
            &self.numerator * &other.denominator + &other.numerator * &self.denominator,
            self.denominator * other.denominator,
        )
    }
}

impl Sub for &RBig {
    type Output = RBig;
    #[inline]
    fn sub(self, other: &RBig) -> RBig {
        self + &-other
    }
}

impl Mul for &RBig {
    type Output = RBig;
    #[inline]
    fn mul(self, other: &RBig) -> RBig {
        reduced(
            self.numerator * other.numerator,
            self.denominator * other.denominator,
        )
    }
}

impl Div for &RBig {
    type Output = RBig;
    #[inline]
    fn div(self, other: &RBig) -> RBig {
        RBig::from_parts_signed(
            &self.numerator * &other.denominator,
            &other.numerator * &self.denominator,
        )
    }
}

/// The operator for values.
macro_rules! by_value {
    ($trait:ident, $function:ident) => {
        impl $trait for RBig {
            type Output = RBig;
            #[inline]
            fn $function(self, other: RBig) -> RBig {
                $trait::$function(&self, &other)
            }
        }
    };
}

by_value!(Add, add);
by_value!(Sub, sub);
by_value!(Div, div);
