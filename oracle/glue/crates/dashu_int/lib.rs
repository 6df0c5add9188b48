// GLUE of the oracle, and no part of the original: it stands in for the crate `dashu_int` of a
// registry, whose whole numbers have no bound. These have 128 bits. Whole coordinates within 8192
// keep every number of the original below 2^64, so they are enough; where they are not, the
// arithmetic panics, and no wrong number goes on.

use num_traits::{One, Signed, ToPrimitive, Zero};
use std::ops::{Add, AddAssign, Div, Mul, Neg, Shl, Sub};

/// A signed whole number of 128 bits.
#[derive(Clone, Copy, Debug, PartialEq, Eq, PartialOrd, Ord, Hash)]
pub struct IBig(i128);

/// An unsigned whole number of 128 bits.
#[derive(Clone, Copy, Debug, PartialEq, Eq, PartialOrd, Ord, Hash)]
pub struct UBig(u128);

#[cold]
#[inline(never)]
fn stop(operation: &str) -> ! {
    panic!("glue of the oracle: {operation} does not fit in 128 bits")
}

/// The operator for values and for references.
macro_rules! operator {
    ($trait:ident, $function:ident, $checked:ident, $left:ident, $right:ident) => {
        impl $trait<$right> for $left {
            type Output = $left;
            #[inline]
            fn $function(self, other: $right) -> $left {
                match self.0.$checked(other.0) {
                    Some(value) => $left(value),
                    None => stop(stringify!($function)),
                }
            }
        }
        impl $trait<&$right> for $left {
            type Output = $left;
            #[inline]
            fn $function(self, other: &$right) -> $left {
                $trait::$function(self, *other)
            }
        }
        impl $trait<$right> for &$left {
            type Output = $left;
            #[inline]
            fn $function(self, other: $right) -> $left {
                $trait::$function(*self, other)
            }
        }
        impl $trait<&$right> for &$left {
            type Output = $left;
            #[inline]
            fn $function(self, other: &$right) -> $left {
                $trait::$function(*self, *other)
            }
        }
    };
}

operator!(Add, add, checked_add, IBig, IBig);
operator!(Sub, sub, checked_sub, IBig, IBig);
operator!(Mul, mul, checked_mul, IBig, IBig);
operator!(Div, div, checked_div, IBig, IBig);
operator!(Sub, sub, checked_sub, UBig, UBig);
operator!(Mul, mul, checked_mul, UBig, UBig);
operator!(Div, div, checked_div, UBig, UBig);

impl Mul<&UBig> for &IBig {
    type Output = IBig;
    #[inline]
    fn mul(self, other: &UBig) -> IBig {
        self * IBig::from(*other)
    }
}

impl Neg for IBig {
    type Output = IBig;
    #[inline]
    fn neg(self) -> IBig {
        match self.0.checked_neg() {
            Some(value) => IBig(value),
            None => stop("neg"),
        }
    }
}

impl AddAssign<u32> for UBig {
    #[inline]
    fn add_assign(&mut self, other: u32) {
        match self.0.checked_add(other.into()) {
            Some(value) => self.0 = value,
            None => stop("add_assign"),
        }
    }
}

impl Shl<usize> for &UBig {
    type Output = UBig;
    /// A shift may not lose a bit.
    #[inline]
    fn shl(self, places: usize) -> UBig {
        if self.0 != 0 && places > self.0.leading_zeros() as usize {
            stop("shl");
        }
        UBig(if self.0 == 0 { 0 } else { self.0 << places })
    }
}

impl IBig {
    pub const ZERO: IBig = IBig(0);
    pub const ONE: IBig = IBig(1);

    #[inline]
    pub fn is_zero(&self) -> bool {
        self.0 == 0
    }

    /// The sign is not read. The words are always two, so equal numbers have equal words.
    pub fn as_sign_words(&self) -> ((), [u64; 2]) {
        ((), ops::UnsignedAbs::unsigned_abs(self).as_words())
    }
}

impl UBig {
    pub const ONE: UBig = UBig(1);

    #[inline]
    pub fn is_zero(&self) -> bool {
        self.0 == 0
    }

    /// The words are always two, so equal numbers have equal words.
    pub fn as_words(&self) -> [u64; 2] {
        [self.0 as u64, (self.0 >> 64) as u64]
    }
}

impl From<u128> for UBig {
    #[inline]
    fn from(value: u128) -> UBig {
        UBig(value)
    }
}

impl From<UBig> for IBig {
    #[inline]
    fn from(value: UBig) -> IBig {
        match i128::try_from(value.0) {
            Ok(value) => IBig(value),
            Err(_) => stop("from"),
        }
    }
}

impl Zero for IBig {}
impl Zero for UBig {}
impl One for IBig {}
impl One for UBig {}

impl Signed for IBig {
    #[inline]
    fn is_positive(&self) -> bool {
        self.0 > 0
    }
    #[inline]
    fn is_negative(&self) -> bool {
        self.0 < 0
    }
}

macro_rules! to_primitive {
    ($($number:ty),*) => {
        $(impl ToPrimitive for $number {
            #[inline]
            fn to_i64(&self) -> Option<i64> {
                self.0.try_into().ok()
            }
            #[inline]
            fn to_u64(&self) -> Option<u64> {
                self.0.try_into().ok()
            }
        })*
    };
}
to_primitive!(IBig, UBig);

pub mod ops {
    use super::{IBig, UBig};

    pub trait UnsignedAbs {
        type Output;
        fn unsigned_abs(self) -> Self::Output;
    }

    impl UnsignedAbs for &IBig {
        type Output = UBig;
        #[inline]
        fn unsigned_abs(self) -> UBig {
            UBig(self.0.unsigned_abs())
        }
    }

    pub trait BitTest {
        /// How many bits the number has: 0 for zero.
        fn bit_len(&self) -> usize;
        /// The bit at this place, counted from the least.
        fn bit(&self, place: usize) -> bool;
    }

    impl BitTest for UBig {
        #[inline]
        fn bit_len(&self) -> usize {
            (u128::BITS - self.0.leading_zeros()) as usize
        }
        #[inline]
        fn bit(&self, place: usize) -> bool {
            place < u128::BITS as usize && (self.0 >> place) & 1 == 1
        }
    }
}
