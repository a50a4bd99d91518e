//! A laid text: a table of its lines in a slice of the caller's.

use crate::room::{count, wide, LINE_NUMBERS};
use crate::{sys, Again, Edit, Events, Line, Lines, Place, Places, Refusal, Rows, Settings};

/// A laid text: the settings by which it was laid, and a table of its lines in a slice of the caller's.
///
/// ```
/// use bisquemop::{table_room, Edit, Layout, Settings};
///
/// # fn main() -> Result<(), bisquemop::Refusal> {
/// let settings = Settings::builder(6, 8).width(72).build()?;
/// let mut text = String::from("Who lied?\n not the baker, not his wife.");
/// let mut table = [0; table_room(20)];
/// let mut layout = Layout::lay(settings, &text, &mut table)?;
/// let lines: Vec<&str> = layout.lines().map(|line| line.text(&text)).collect();
/// assert_eq!(lines, ["Who lied?\n", " not the ", "baker, not ", "his wife."]);
///
/// text.replace_range(15..18, "an old");
/// let again = layout.lay_again(Edit::replace(15..18, "an old"), &text)?;
/// assert_eq!((again.first, layout.line_count()), (1, 4));
/// # Ok(())
/// # }
/// ```
#[derive(Debug)]
pub struct Layout<'a> {
    settings: Settings,
    table: &'a mut [u32],
    lines: usize,
}

impl<'a> Layout<'a> {
    /// Of a table that a call has written or checked.
    pub(crate) fn of(settings: Settings, table: &'a mut [u32], lines: u64) -> Layout<'a> {
        Layout { settings, table, lines: count(lines) }
    }

    /// Lays a text. [`table_room`](crate::table_room) of its bytes plus 1 is surely enough; what is needed goes with
    /// [`Refusal::TooSmall`].
    pub fn lay(settings: Settings, text: impl AsRef<[u8]>, table: &'a mut [u32]) -> Result<Layout<'a>, Refusal> {
        let lines = sys::layout(settings.numbers(), text.as_ref(), table)?;
        Ok(Layout::of(settings, table, lines))
    }

    /// The same, and what is drawn. [`events_room`](crate::events_room) of its bytes is surely enough.
    ///
    /// ```
    /// use bisquemop::{events_room, table_room, Layout, Settings};
    ///
    /// # fn main() -> Result<(), bisquemop::Refusal> {
    /// let settings = Settings::builder(6, 8).width(30).build()?;
    /// let (mut table, mut events) = ([0; table_room(9)], [0; events_room(8)]);
    /// let (layout, events) = Layout::lay_events(settings, "ab cde", &mut table, &mut events)?;
    /// let shown: Vec<(u32, &str)> = events.map(|event| (event.x, event.shown("ab cde"))).collect();
    /// assert_eq!((layout.line_count(), shown), (2, vec![(0, "ab"), (12, ""), (0, "cde")]));
    /// # Ok(())
    /// # }
    /// ```
    pub fn lay_events<'e>(
        settings: Settings,
        text: impl AsRef<[u8]>,
        table: &'a mut [u32],
        events: &'e mut [u32],
    ) -> Result<(Layout<'a>, Events<'e>), Refusal> {
        let (lines, drawn) = sys::layout_events(settings.numbers(), text.as_ref(), table, events)?;
        Ok((Layout::of(settings, table, lines), Rows::first(events, count(drawn))))
    }

    /// Takes up a table that was kept as numbers, if its first lines are well formed.
    pub fn from_table(settings: Settings, table: &'a mut [u32], lines: usize) -> Result<Layout<'a>, Refusal> {
        sys::first_affected(table, wide(lines), Edit { a: 0, b: 0, inserted: 0 })?;
        Ok(Layout { settings, table, lines })
    }

    /// The settings by which it was laid.
    pub const fn settings(&self) -> &Settings {
        &self.settings
    }

    /// Takes over the spacings, heights, top and vertical alignment of other settings: no line changes by them. The rest
    /// stays as it is.
    pub fn stand_by(&mut self, settings: &Settings) -> Result<(), Refusal> {
        let mut numbers = *self.settings.numbers();
        let other = settings.numbers();
        (numbers.spacing, numbers.paragraph, numbers.base) = (other.spacing, other.paragraph, other.base);
        (numbers.height, numbers.top, numbers.vertical) = (other.height, other.top, other.vertical);
        self.settings = Settings::from_numbers(numbers)?;
        Ok(())
    }

    /// How many lines there are: at least one.
    pub const fn line_count(&self) -> usize {
        self.lines
    }

    /// The lines' numbers.
    pub fn table(&self) -> &[u32] {
        self.table.get(..self.lines.saturating_mul(LINE_NUMBERS)).unwrap_or(&[])
    }

    /// Its lines.
    pub fn lines(&self) -> Lines<'_> {
        Lines::of(self.table())
    }

    /// A line, counted from 0.
    pub fn line(&self, line: usize) -> Option<Line> {
        self.lines().nth(line)
    }

    /// How many characters its lines have dropped together: 0 if the whole text shows.
    pub fn dropped(&self) -> u64 {
        self.lines().fold(0, |sum, line| sum.saturating_add(u64::from(line.dropped)))
    }

    /// The line that holds a character, both counted from 0.
    pub fn line_of_char(&self, character: u32) -> usize {
        let starts = |line: &Line| line.chars <= character;
        self.lines().take_while(starts).count().saturating_sub(1)
    }

    /// The first line that an edit can change.
    pub fn first_affected(&self, edit: Edit) -> Result<usize, Refusal> {
        sys::first_affected(self.table, wide(self.lines), edit).map(count)
    }

    /// Lays again after an edit, of which this is the whole new text. The table is then what a fresh layout would be: that
    /// is proved.
    pub fn lay_again(&mut self, edit: Edit, text: impl AsRef<[u8]>) -> Result<Again, Refusal> {
        let first = self.first_affected(edit)?;
        let start = self.line(first).map_or(0, |line| line.range().start);
        let part = text.as_ref().get(start..).ok_or(Refusal::BadEdit)?;
        self.lay_again_part(edit, part)
    }

    /// The same with no more than a part of the new text: all from the start of the first affected line on.
    pub fn lay_again_part(&mut self, edit: Edit, part: impl AsRef<[u8]>) -> Result<Again, Refusal> {
        let first = self.first_affected(edit)?;
        let numbers = self.settings.numbers();
        let (lines, laid) = sys::lay_again(numbers, part.as_ref(), self.table, wide(self.lines), edit)?;
        self.lines = count(lines);
        Ok(Again { first, laid: count(laid), lines: self.lines })
    }

    /// The height of the text in pixels, which may be more than the box's.
    pub fn height(&self) -> Result<u64, Refusal> {
        sys::height(self.settings.numbers(), self.table, wide(self.lines))
    }

    /// Where a line stands; nothing if there is no such line.
    pub fn place(&self, line: usize) -> Result<Option<Place>, Refusal> {
        sys::line_y(self.settings.numbers(), self.table, wide(self.lines), wide(line))
    }

    /// Its lines, each with its place.
    ///
    /// ```
    /// use bisquemop::{table_room, Layout, Settings};
    ///
    /// # fn main() -> Result<(), bisquemop::Refusal> {
    /// let settings = Settings::builder(6, 8).height(16).paragraph(3).build()?;
    /// let mut table = [0; table_room(3)];
    /// let layout = Layout::lay(settings, "a\nb\nc", &mut table)?;
    /// let places: Vec<(i32, bool)> = layout.places()?.map(|(_, place)| (place.y, place.shows)).collect();
    /// assert_eq!(places, [(0, true), (11, false), (22, false)]);
    /// # Ok(())
    /// # }
    /// ```
    pub fn places(&self) -> Result<Places<'_>, Refusal> {
        let first = self.place(0)?.map_or(0, |place| place.y);
        Ok(Places::from(self.lines(), self.settings, first))
    }
}
