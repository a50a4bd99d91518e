//! Stands in for the crate az: the one trait that the layout uses, between the two kinds of number that it uses it for.

/// A number that can be had from another, the nearest one where it is out of range.
pub trait Nearest<From> {
    fn nearest(from: From) -> Self;
}

impl Nearest<u32> for i32 {
    #[inline]
    fn nearest(from: u32) -> i32 {
        i32::try_from(from).unwrap_or(i32::MAX)
    }
}

impl Nearest<i32> for u32 {
    #[inline]
    fn nearest(from: i32) -> u32 {
        u32::try_from(from).unwrap_or(0)
    }
}

/// Conversion to the nearest number.
pub trait SaturatingAs: Sized {
    #[inline]
    fn saturating_as<To: Nearest<Self>>(self) -> To {
        To::nearest(self)
    }
}

impl SaturatingAs for u32 {}
impl SaturatingAs for i32 {}
