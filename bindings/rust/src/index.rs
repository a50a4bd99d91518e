//! The y of every line, kept beside a table, and the line under a y.

use crate::room::{count, wide};
use crate::{sys, Layout, Refusal};

/// The y of every line of a layout, in a slice of the caller's.
///
/// ```
/// use bisquemop::{table_room, Layout, Settings};
///
/// # fn main() -> Result<(), bisquemop::Refusal> {
/// let settings = Settings::builder(6, 8).build()?;
/// let (mut table, mut ys) = ([0; table_room(3)], [0; 3]);
/// let layout = Layout::lay(settings, "a\nb\nc", &mut table)?;
/// let index = layout.index(&mut ys)?;
/// assert_eq!(index.ys(), [0, 8, 16]);
/// assert_eq!(index.line_under(&layout, 15)?, Some(1));
/// assert_eq!(index.line_under(&layout, -1)?, None);
/// # Ok(())
/// # }
/// ```
#[derive(Debug)]
pub struct Index<'i> {
    ys: &'i mut [i32],
    lines: usize,
}

impl Layout<'_> {
    /// The y of every line, written to a lent slice of one number for each line at least.
    pub fn index<'i>(&self, ys: &'i mut [i32]) -> Result<Index<'i>, Refusal> {
        let lines = sys::index(self.settings().numbers(), self.table(), wide(self.line_count()), ys)?;
        Ok(Index { ys, lines: count(lines) })
    }
}

impl Index<'_> {
    /// The ys, line 0's first. None is smaller than the one before it.
    pub fn ys(&self) -> &[i32] {
        self.ys.get(..self.lines).unwrap_or(self.ys)
    }

    /// Brings the index up to date after an edit: `layout` is as laying again left it, `first` is its first affected line.
    pub fn again(&mut self, layout: &Layout<'_>, first: usize) -> Result<(), Refusal> {
        let (numbers, lines) = (layout.settings().numbers(), wide(layout.line_count()));
        let lines = sys::index_again(numbers, layout.table(), lines, wide(first), self.ys)?;
        self.lines = count(lines);
        Ok(())
    }

    /// The line under a y, as a tap has one: the last whose y is at most that. Nothing if all lines are below it.
    pub fn line_under(&self, layout: &Layout<'_>, y: i32) -> Result<Option<usize>, Refusal> {
        let found = sys::find_line(layout.table(), wide(layout.line_count()), self.ys(), y)?;
        Ok(found.map(count))
    }
}
