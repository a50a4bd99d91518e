//! Where the lines of a text stand.

use crate::{Line, LineEnd, Lines, Settings};
use core::iter::FusedIterator;

/// Where a line stands, and whether it shows.
#[derive(Clone, Copy, Debug, PartialEq, Eq, Hash)]
pub struct Place {
    /// Its y.
    pub y: i32,
    /// It neither stands above the box, nor below it, nor juts out of it.
    pub shows: bool,
}

impl Place {
    /// Of a line at a y.
    pub(crate) fn at(settings: &Settings, y: i32) -> Place {
        let numbers = settings.numbers();
        let (y64, top) = (i64::from(y), i64::from(numbers.top));
        let (base, height) = (i64::from(numbers.base), i64::from(numbers.height));
        Place { y, shows: y64 >= top && y64.saturating_add(base) <= top.saturating_add(height) }
    }
}

/// An iterator over the lines of a layout, each with its place.
#[derive(Clone, Debug)]
pub struct Places<'a> {
    lines: Lines<'a>,
    settings: Settings,
    y: i32,
}

impl<'a> Places<'a> {
    /// Of lines the first of which stands at a y.
    pub(crate) fn from(lines: Lines<'a>, settings: Settings, y: i32) -> Places<'a> {
        Places { lines, settings, y }
    }

    /// How far below a line the next one stands.
    fn step(&self, line: &Line) -> i32 {
        let numbers = self.settings.numbers();
        let below = match line.end {
            LineEnd::NewLine => numbers.spacing.saturating_add(numbers.paragraph),
            LineEnd::LineBreak => numbers.spacing,
            LineEnd::CarriageReturn | LineEnd::EndOfText => 0,
        };
        i32::try_from(below).unwrap_or(i32::MAX)
    }
}

impl Iterator for Places<'_> {
    type Item = (Line, Place);

    fn next(&mut self) -> Option<(Line, Place)> {
        let line = self.lines.next()?;
        let place = Place::at(&self.settings, self.y);
        self.y = self.y.saturating_add(self.step(&line));
        Some((line, place))
    }

    fn size_hint(&self) -> (usize, Option<usize>) {
        self.lines.size_hint()
    }
}

impl ExactSizeIterator for Places<'_> {}

impl FusedIterator for Places<'_> {}
