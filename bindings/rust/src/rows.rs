//! Rows of numbers in a slice, and what each row stands for.

use core::fmt;
use core::iter::FusedIterator;
use core::marker::PhantomData;

/// What a row of numbers stands for.
pub trait Row: Sized {
    /// How many numbers a row has.
    const NUMBERS: usize;

    /// What the numbers stand for; nothing if there are too many, too few or unknown ones.
    fn from_row(row: &[u32]) -> Option<Self>;
}

/// Takes the first row of so many numbers from a slice.
pub(crate) fn first_row<'a>(rows: &mut &'a [u32], numbers: usize) -> Option<&'a [u32]> {
    let row = rows.get(..numbers)?;
    *rows = rows.get(numbers..)?;
    Some(row)
}

/// Takes the last one.
pub(crate) fn last_row<'a>(rows: &mut &'a [u32], numbers: usize) -> Option<&'a [u32]> {
    let before = rows.len().checked_sub(numbers)?;
    let row = rows.get(before..)?;
    *rows = rows.get(..before)?;
    Some(row)
}

/// Leaves out so many rows at the front.
pub(crate) fn skip_rows(rows: &mut &[u32], count: usize, numbers: usize) {
    *rows = rows.get(count.saturating_mul(numbers)..).unwrap_or(&[]);
}

/// An iterator over the rows that a call has written, each as what it stands for.
pub struct Rows<'a, T> {
    rows: &'a [u32],
    kind: PhantomData<T>,
}

impl<'a, T: Row> Rows<'a, T> {
    /// The first rows of a slice.
    pub(crate) fn first(numbers: &'a [u32], count: usize) -> Self {
        Rows { rows: numbers.get(..count.saturating_mul(T::NUMBERS)).unwrap_or(&[]), kind: PhantomData }
    }
}

impl<T> Clone for Rows<'_, T> {
    fn clone(&self) -> Self {
        Rows { rows: self.rows, kind: PhantomData }
    }
}

impl<T: Row + fmt::Debug> fmt::Debug for Rows<'_, T> {
    fn fmt(&self, f: &mut fmt::Formatter<'_>) -> fmt::Result {
        f.debug_list().entries(self.clone()).finish()
    }
}

impl<T: Row> Iterator for Rows<'_, T> {
    type Item = T;

    fn next(&mut self) -> Option<T> {
        T::from_row(first_row(&mut self.rows, T::NUMBERS)?)
    }

    fn size_hint(&self) -> (usize, Option<usize>) {
        let left = self.rows.len().checked_div(T::NUMBERS).unwrap_or(0);
        (left, Some(left))
    }

    fn nth(&mut self, n: usize) -> Option<T> {
        skip_rows(&mut self.rows, n, T::NUMBERS);
        self.next()
    }
}

impl<T: Row> DoubleEndedIterator for Rows<'_, T> {
    fn next_back(&mut self) -> Option<T> {
        T::from_row(last_row(&mut self.rows, T::NUMBERS)?)
    }
}

impl<T: Row> ExactSizeIterator for Rows<'_, T> {}

impl<T: Row> FusedIterator for Rows<'_, T> {}
