//! Pages: cuts of a layout, of so many lines each.

use crate::room::{count, offset, wide, PAGE_NUMBERS};
use crate::rows::{Row, Rows};
use crate::{sys, Layout, Refusal, Settings};
use core::ops::Range;

/// A page of a laid text.
#[derive(Clone, Copy, Debug, PartialEq, Eq, Hash)]
pub struct Page {
    /// Its first line.
    pub line: u32,
    /// The offset where that line starts.
    pub start: u32,
    /// The offset where the next page starts; of the last page the text's length.
    pub end: u32,
}

impl Page {
    /// Its bytes.
    pub fn range(&self) -> Range<usize> {
        offset(self.start)..offset(self.end)
    }
}

impl Row for Page {
    const NUMBERS: usize = PAGE_NUMBERS;

    fn from_row(row: &[u32]) -> Option<Page> {
        let [line, start, end]: [u32; PAGE_NUMBERS] = row.try_into().ok()?;
        Some(Page { line, start, end })
    }
}

/// An iterator over pages.
pub type PageRows<'a> = Rows<'a, Page>;

/// The pages of a laid text, in a slice of the caller's. They follow one another and cover the text.
///
/// ```
/// use bisquemop::{pages_room, table_room, Layout, Settings};
///
/// # fn main() -> Result<(), bisquemop::Refusal> {
/// let settings = Settings::builder(6, 8).width(30).build()?;
/// let (mut table, mut list) = ([0; table_room(9)], [0; pages_room(9)]);
/// let text = "ab cde fg";
/// let (layout, pages) = Layout::lay_pages(settings, text, 2, &mut table, &mut list)?;
/// let parts: Vec<&str> = pages.iter().filter_map(|page| text.get(page.range())).collect();
/// assert_eq!((layout.line_count(), parts), (3, vec!["ab cde ", "fg"]));
/// # Ok(())
/// # }
/// ```
#[derive(Debug)]
pub struct Pages<'p> {
    list: &'p mut [u32],
    pages: usize,
    lines: u32,
}

impl<'a> Layout<'a> {
    /// Lays a text, and lists its pages of `h` lines each. One page for each line is surely enough room.
    pub fn lay_pages<'p>(
        settings: Settings,
        text: impl AsRef<[u8]>,
        h: u32,
        table: &'a mut [u32],
        list: &'p mut [u32],
    ) -> Result<(Layout<'a>, Pages<'p>), Refusal> {
        let (lines, pages) = sys::pages(settings.numbers(), text.as_ref(), h, table, list)?;
        Ok((Layout::of(settings, table, lines), Pages { list, pages: count(pages), lines: h }))
    }

    /// The pages of `h` lines each of a text that is laid.
    pub fn pages<'p>(&self, h: u32, list: &'p mut [u32]) -> Result<Pages<'p>, Refusal> {
        let pages = sys::pages_again(self.table(), wide(self.line_count()), h, 0, list)?;
        Ok(Pages { list, pages: count(pages), lines: h })
    }
}

impl Pages<'_> {
    /// How many there are.
    pub const fn page_count(&self) -> usize {
        self.pages
    }

    /// One after the other.
    pub fn iter(&self) -> PageRows<'_> {
        Rows::first(self.list, self.pages)
    }

    /// Brings the list up to date after an edit: `layout` is as laying again left it, `first` is its first affected line.
    pub fn again(&mut self, layout: &Layout<'_>, first: usize) -> Result<(), Refusal> {
        let lines = wide(layout.line_count());
        self.pages = count(sys::pages_again(layout.table(), lines, self.lines, wide(first), self.list)?);
        Ok(())
    }
}

impl<'r> IntoIterator for &'r Pages<'_> {
    type Item = Page;
    type IntoIter = PageRows<'r>;

    fn into_iter(self) -> PageRows<'r> {
        self.iter()
    }
}
