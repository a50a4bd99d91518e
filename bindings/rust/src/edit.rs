//! An edit of a text, and what laying it again answers.

use core::ops::Range;

/// The old text's bytes from `a` up to `b` are replaced by `inserted` new ones.
#[derive(Clone, Copy, Debug, PartialEq, Eq, Hash)]
pub struct Edit {
    /// Where the bytes begin that are replaced.
    pub a: u32,
    /// The offset after the last of them.
    pub b: u32,
    /// How many bytes come in their place.
    pub inserted: u32,
}

/// An offset as the calls take it. One that is too large stays so, and is refused.
fn narrow(offset: usize) -> u32 {
    u32::try_from(offset).unwrap_or(u32::MAX)
}

impl Edit {
    /// The bytes of a range are replaced by another text.
    ///
    /// ```
    /// use bisquemop::Edit;
    ///
    /// assert_eq!(Edit::replace(10..12, "é"), Edit { a: 10, b: 12, inserted: 2 });
    /// ```
    pub fn replace(range: Range<usize>, by: &str) -> Edit {
        Edit { a: narrow(range.start), b: narrow(range.end), inserted: narrow(by.len()) }
    }

    /// A text is inserted.
    pub fn insert(at: usize, text: &str) -> Edit {
        Edit::replace(at..at, text)
    }

    /// The bytes of a range are taken out.
    pub fn remove(range: Range<usize>) -> Edit {
        Edit::replace(range, "")
    }
}

/// What laying again answers.
#[derive(Clone, Copy, Debug, PartialEq, Eq, Hash)]
pub struct Again {
    /// The first line that was laid. None before it has changed.
    pub first: usize,
    /// How many were laid. Those after them are lines of before, moved.
    pub laid: usize,
    /// How many lines there are now.
    pub lines: usize,
}
