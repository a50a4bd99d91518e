//! A text box, in the shape of embedded-text's.

use super::{HorizontalAlignment, LineHeight, TabSize, TextBoxStyle, VerticalAlignment};
use crate::{Event, Events, Layout, Line, Place, Refusal, Settings};

/// What draws. It is all that a screen needs to have.
pub trait DrawRun {
    /// Draws a run of characters, none of them a space, from the left at `x` and from above at `y`.
    fn draw(&mut self, text: &str, x: i32, y: i32);
}

impl<F: FnMut(&str, i32, i32)> DrawRun for F {
    fn draw(&mut self, text: &str, x: i32, y: i32) {
        self(text, x, y);
    }
}

/// The size of every character, in pixels.
#[derive(Clone, Copy, Debug, PartialEq, Eq, Hash)]
pub struct Font {
    /// How wide: 1 to 64.
    pub width: u32,
    /// How high: 1 to 64.
    pub height: u32,
}

impl Font {
    /// A font of this size.
    pub const fn new(width: u32, height: u32) -> Font {
        Font { width, height }
    }
}

/// Where a box stands on the screen.
#[derive(Clone, Copy, Debug, PartialEq, Eq, Hash)]
pub struct Rectangle {
    /// Its left side.
    pub x: i32,
    /// Its upper side: -4,096 to 4,096.
    pub y: i32,
    /// How wide it is: up to 4,096.
    pub width: u32,
    /// How high it is: up to 4,096.
    pub height: u32,
}

impl Rectangle {
    /// From its left upper corner and its size.
    pub const fn new(x: i32, y: i32, width: u32, height: u32) -> Rectangle {
        Rectangle { x, y, width, height }
    }
}

/// What drawing a box answers.
#[derive(Clone, Copy, Debug, PartialEq, Eq)]
pub struct Done<'t> {
    /// The text from the first line on that is below the box. It can flow into another box.
    pub residual: &'t str,
    /// How many characters of the lines before it belong to words that had no room, and that no line draws. The crate does
    /// not tell.
    pub dropped: u64,
}

/// A text, and the box in which it is drawn.
#[derive(Clone, Copy, Debug, PartialEq, Eq)]
#[must_use]
pub struct TextBox<'t> {
    /// The text.
    pub text: &'t str,
    /// Where the box stands.
    pub bounds: Rectangle,
    /// The size of every character, in place of a character style.
    pub font: Font,
    /// How the text is laid.
    pub style: TextBoxStyle,
    /// How far down the text is moved inside the box, just before it is drawn.
    pub vertical_offset: i32,
}

impl<'t> TextBox<'t> {
    /// A box with the style that is the default.
    pub fn new(text: &'t str, bounds: Rectangle, font: Font) -> TextBox<'t> {
        TextBox::with_textbox_style(text, bounds, font, TextBoxStyle::default())
    }

    /// A box with a style.
    pub const fn with_textbox_style(text: &'t str, bounds: Rectangle, font: Font, style: TextBoxStyle) -> TextBox<'t> {
        TextBox { text, bounds, font, style, vertical_offset: 0 }
    }

    /// A box with an alignment.
    pub const fn with_alignment(
        text: &'t str,
        bounds: Rectangle,
        font: Font,
        alignment: HorizontalAlignment,
    ) -> TextBox<'t> {
        TextBox::with_textbox_style(text, bounds, font, TextBoxStyle::with_alignment(alignment))
    }

    /// A box with a vertical alignment.
    pub const fn with_vertical_alignment(
        text: &'t str,
        bounds: Rectangle,
        font: Font,
        alignment: VerticalAlignment,
    ) -> TextBox<'t> {
        TextBox::with_textbox_style(text, bounds, font, TextBoxStyle::with_vertical_alignment(alignment))
    }

    /// A box with a line height.
    pub const fn with_line_height(text: &'t str, bounds: Rectangle, font: Font, height: LineHeight) -> TextBox<'t> {
        TextBox::with_textbox_style(text, bounds, font, TextBoxStyle::with_line_height(height))
    }

    /// A box with a paragraph spacing.
    pub const fn with_paragraph_spacing(text: &'t str, bounds: Rectangle, font: Font, spacing: u32) -> TextBox<'t> {
        TextBox::with_textbox_style(text, bounds, font, TextBoxStyle::with_paragraph_spacing(spacing))
    }

    /// A box with a tab size.
    pub const fn with_tab_size(text: &'t str, bounds: Rectangle, font: Font, tab_size: TabSize) -> TextBox<'t> {
        TextBox::with_textbox_style(text, bounds, font, TextBoxStyle::with_tab_size(tab_size))
    }

    /// Moves the text inside the box, as a program does that scrolls. A positive number moves it down.
    pub fn set_vertical_offset(&mut self, offset: i32) -> &mut Self {
        self.vertical_offset = offset;
        self
    }

    /// The settings by which its text is laid.
    pub fn settings(&self) -> Result<Settings, Refusal> {
        Settings::builder(self.font.width, self.font.height)
            .width(self.bounds.width)
            .height(self.bounds.height)
            .top(self.bounds.y)
            .tab(self.style.tab_size.pixels(self.font.width))
            .spacing(self.style.line_height.pixels(self.font.height))
            .paragraph(self.style.paragraph_spacing)
            .alignment(self.style.alignment.alignment())
            .vertical(self.style.vertical_alignment.vertical())
            .leading(self.style.leading_spaces)
            .wrap(self.style.wrap)
            .build()
    }

    /// How high its text is, whatever the height of the box: what the crate's height modes ask. The box can be given that
    /// height, up to 4,096.
    pub fn text_height(&self, table: &mut [u32]) -> Result<u64, Refusal> {
        Layout::lay(self.settings()?, self.text, table)?.height()
    }

    /// Draws the lines that are wholly inside the box. The two slices are for the layout: there is surely enough room in
    /// [`table_room`](crate::table_room) of the text's bytes plus 1, and in [`events_room`](crate::events_room) of its
    /// bytes.
    pub fn draw(&self, target: &mut impl DrawRun, table: &mut [u32], events: &mut [u32]) -> Result<Done<'t>, Refusal> {
        let settings = self.settings()?;
        let (layout, mut events) = Layout::lay_events(settings, self.text, table, events)?;
        let mut dropped: u64 = 0;
        for (line, place) in layout.places()? {
            let place = Place::at(&settings, place.y.saturating_add(self.vertical_offset));
            if !place.shows && place.y >= self.bounds.y {
                return Ok(Done { residual: self.text.get(line.range().start..).unwrap_or(""), dropped });
            }
            self.draw_line(target, &line, place, &mut events);
            dropped = dropped.saturating_add(u64::from(line.dropped));
        }
        Ok(Done { residual: "", dropped })
    }

    /// Takes the events of a line, and draws them if it shows. One with no bytes may stand where the next line starts, and
    /// shows nothing.
    fn draw_line(&self, target: &mut impl DrawRun, line: &Line, place: Place, events: &mut Events<'_>) {
        let of_line = |event: &Event| event.start < line.next;
        while let Some(event) = events.clone().next().filter(of_line) {
            events.next();
            let run = event.shown(self.text);
            if place.shows && !run.is_empty() {
                let x = i32::try_from(event.x).unwrap_or(i32::MAX);
                target.draw(run, self.bounds.x.saturating_add(x), place.y);
            }
        }
    }
}
