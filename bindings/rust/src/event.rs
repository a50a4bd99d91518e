//! What is drawn in a line.

use crate::room::{offset, EVENT_NUMBERS};
use crate::rows::{Row, Rows};
use core::ops::Range;

/// What an event is. Only printed ones show, but others move the pen too.
#[derive(Clone, Copy, Debug, PartialEq, Eq, Hash)]
pub enum Drawn {
    /// Spaces, one gluing character of a word, a tab, or the character that ends the line.
    Space = 0,
    /// The characters of its bytes; "-" if these are a soft hyphen's; nothing if it has none.
    Printed = 1,
    /// A tab that does not fit, as wide as the room up to the box's right side, or one at a line's end.
    Move = 2,
}

/// Something that is drawn. An event is of the last line that starts at or before it.
#[derive(Clone, Copy, Debug, PartialEq, Eq, Hash)]
pub struct Event {
    /// What it is.
    pub kind: Drawn,
    /// The offset of the first byte that it stands for.
    pub start: u32,
    /// The offset after the last of them.
    pub end: u32,
    /// Of a space the spaces that it counts as, else 0.
    pub count: u32,
    /// How far it moves the pen.
    pub width: u32,
    /// Where the pen stands before it, from the box's left side.
    pub x: u32,
}

impl Event {
    /// The bytes that it stands for.
    pub fn range(&self) -> Range<usize> {
        offset(self.start)..offset(self.end)
    }

    /// What a printed event shows of its text: "-" for a soft hyphen. Nothing of other events.
    pub fn shown<'t>(&self, text: &'t str) -> &'t str {
        match (self.kind, text.get(self.range())) {
            (Drawn::Printed, Some("\u{ad}")) => "-",
            (Drawn::Printed, Some(shown)) => shown,
            _ => "",
        }
    }
}

impl Row for Event {
    const NUMBERS: usize = EVENT_NUMBERS;

    fn from_row(row: &[u32]) -> Option<Event> {
        let [kind, start, end, count, width, x]: [u32; EVENT_NUMBERS] = row.try_into().ok()?;
        let kind = match kind {
            0 => Drawn::Space,
            1 => Drawn::Printed,
            2 => Drawn::Move,
            _ => return None,
        };
        Some(Event { kind, start, end, count, width, x })
    }
}

/// An iterator over events, line after line and from left to right.
pub type Events<'a> = Rows<'a, Event>;
