//! A line of a table, and the lines of a table one after the other.

use crate::room::{offset, LINE_NUMBERS};
use crate::rows::{first_row, last_row, skip_rows};
use core::iter::FusedIterator;
use core::ops::Range;

/// How a line ends.
#[derive(Clone, Copy, Debug, PartialEq, Eq, Hash)]
pub enum LineEnd {
    /// By U+000A.
    NewLine = 0,
    /// By U+000D.
    CarriageReturn = 1,
    /// By the end of the text, as the last line does and no other.
    EndOfText = 2,
    /// The line is full.
    LineBreak = 3,
}

impl LineEnd {
    const fn of(number: u32) -> Option<LineEnd> {
        match number {
            0 => Some(LineEnd::NewLine),
            1 => Some(LineEnd::CarriageReturn),
            2 => Some(LineEnd::EndOfText),
            3 => Some(LineEnd::LineBreak),
            _ => None,
        }
    }
}

/// What is left of a run of spaces that the line before has cut. The line starts with it.
#[derive(Clone, Copy, Debug, PartialEq, Eq, Hash)]
pub struct Rest {
    /// The offset where it ends.
    pub end: u32,
    /// How many spaces it counts as.
    pub count: u32,
}

/// A line of a laid text.
#[derive(Clone, Copy, Debug, PartialEq, Eq, Hash)]
pub struct Line {
    /// The offset where the line starts.
    pub start: u32,
    /// The offset where the next line starts; of the last line the text's length.
    pub next: u32,
    /// What it starts with of a run of spaces that the line before has cut.
    pub rest: Option<Rest>,
    /// How it ends.
    pub end: LineEnd,
    /// How far from the box's left side it is drawn.
    pub left: u32,
    /// The width of a space.
    pub space: u32,
    /// So many of its first spaces are one pixel wider, each.
    pub extra: u32,
    /// The width measured, with plain spaces: never above the box's.
    pub width: u32,
    /// How many characters belong to a word dropped here, which no line draws: the line's last characters.
    pub dropped: u32,
    /// The offset after the furthest character that the line depends on, and the text's length plus 1 if it depends on
    /// where the text ends.
    pub reach: u32,
    /// How many characters the text has before the line's start.
    pub chars: u32,
}

impl Line {
    /// The line of a table's row, before a line that starts at `next`.
    pub(crate) fn of(row: &[u32], next: u32) -> Option<Line> {
        let row: [u32; LINE_NUMBERS] = row.try_into().ok()?;
        let [start, rest_end, rest_count, end, left, space, extra, width, dropped, reach, chars] = row;
        let rest =
            if (rest_end, rest_count) == (0, 0) { None } else { Some(Rest { end: rest_end, count: rest_count }) };
        let end = LineEnd::of(end)?;
        Some(Line { start, next, rest, end, left, space, extra, width, dropped, reach, chars })
    }

    /// The line's eleven numbers, as a table has them.
    pub const fn numbers(&self) -> [u32; LINE_NUMBERS] {
        let (rest_end, rest_count) = match self.rest {
            Some(rest) => (rest.end, rest.count),
            None => (0, 0),
        };
        let Line { start, left, space, extra, width, dropped, reach, chars, .. } = *self;
        [start, rest_end, rest_count, self.end as u32, left, space, extra, width, dropped, reach, chars]
    }

    /// The bytes from its start up to the next line's.
    pub fn range(&self) -> Range<usize> {
        offset(self.start)..offset(self.next)
    }

    /// The line's part of its text, and nothing of another text that has no such part.
    pub fn text<'t>(&self, text: &'t str) -> &'t str {
        text.get(self.range()).unwrap_or("")
    }

    /// The characters that it dropped, of its text.
    ///
    /// ```
    /// use bisquemop::{Layout, Settings, Wrap};
    ///
    /// # fn main() -> Result<(), bisquemop::Refusal> {
    /// let settings = Settings::builder(6, 8).width(12).wrap(Wrap::Drop).build()?;
    /// let mut table = [0; bisquemop::table_room(6)];
    /// let layout = Layout::lay(settings, "  ab c", &mut table)?;
    /// let first = layout.line(0).expect("there always is a line");
    /// assert_eq!((first.dropped, first.dropped_text("  ab c")), (2, "ab"));
    /// # Ok(())
    /// # }
    /// ```
    pub fn dropped_text<'t>(&self, text: &'t str) -> &'t str {
        let line = self.text(text);
        let from = line.char_indices().rev().take(offset(self.dropped)).last().map_or(line.len(), |(at, _)| at);
        line.get(from..).unwrap_or("")
    }
}

/// An iterator over the lines of a table.
#[derive(Clone, Debug)]
pub struct Lines<'a> {
    rows: &'a [u32],
    /// Where the last of those that are left ends.
    end: u32,
}

impl<'a> Lines<'a> {
    /// Of a table that has been checked, its lines and no other numbers.
    pub(crate) fn of(rows: &'a [u32]) -> Lines<'a> {
        // the last line's reach is the text's length plus 1
        let reach = rows.iter().nth_back(1).copied().unwrap_or(0);
        Lines { rows, end: reach.saturating_sub(1) }
    }
}

impl Iterator for Lines<'_> {
    type Item = Line;

    fn next(&mut self) -> Option<Line> {
        let row = first_row(&mut self.rows, LINE_NUMBERS)?;
        Line::of(row, self.rows.first().copied().unwrap_or(self.end))
    }

    fn size_hint(&self) -> (usize, Option<usize>) {
        let left = self.rows.len() / LINE_NUMBERS;
        (left, Some(left))
    }

    fn nth(&mut self, n: usize) -> Option<Line> {
        skip_rows(&mut self.rows, n, LINE_NUMBERS);
        self.next()
    }
}

impl DoubleEndedIterator for Lines<'_> {
    fn next_back(&mut self) -> Option<Line> {
        let line = Line::of(last_row(&mut self.rows, LINE_NUMBERS)?, self.end)?;
        self.end = line.start;
        Some(line)
    }
}

impl ExactSizeIterator for Lines<'_> {}

impl FusedIterator for Lines<'_> {}
