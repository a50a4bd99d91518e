//! What a layout is made of, as every side of the comparison gives it: the crate, the model and the library.
//!
//! Offsets are bytes into the text, counts are characters, and widths and places are pixels.

/// The thirteen settings as numbers, and what a line is laid from, as the library's package for Rust has them; and how many numbers
/// a line has in a table, and a page in a list. The crate has the wrap setting 0 alone.
pub use bisquemop::{Numbers as Settings, Stand, LINE_NUMBERS, PAGE_NUMBERS};

/// The kinds of token.
pub const NEW_LINE: u32 = 0;
pub const CARRIAGE_RETURN: u32 = 1;
pub const TAB: u32 = 2;
pub const WHITESPACE: u32 = 3;
pub const WORD: u32 = 4;
pub const BREAK: u32 = 5;

/// A token: its kind, its bytes, and the count of a Whitespace (0 for every other kind).
#[derive(Clone, Copy, Debug, PartialEq, Eq)]
pub struct Token {
    pub kind: u32,
    pub start: u32,
    pub end: u32,
    pub count: u32,
}

/// How a line ends.
pub const BY_NEW_LINE: u32 = 0;
pub const BY_CARRIAGE_RETURN: u32 = 1;
pub const BY_END_OF_TEXT: u32 = 2;
pub const BY_LINE_BREAK: u32 = 3;

/// The eight of a line's eleven numbers that the crate has too.
#[derive(Clone, Copy, Debug, PartialEq, Eq)]
pub struct Line {
    pub start: u32,
    /// Where the rest of a cut space run ends, and its count; 0 and 0 where the line resumes none.
    pub rest_end: u32,
    pub rest_count: u32,
    pub end: u32,
    pub left: i32,
    pub space: u32,
    pub extra: u32,
    pub width: u32,
}

/// A line's other three numbers, which the crate does not have.
#[derive(Clone, Copy, Debug, PartialEq, Eq)]
pub struct Extent {
    pub dropped: u32,
    pub reach: u32,
    /// The characters before the line's start.
    pub chars: u32,
}

/// The kinds of event.
pub const SPACE: u32 = 0;
pub const PRINTED: u32 = 1;
pub const MOVE: u32 = 2;

/// Something drawn, and the pen before it from the box's left.
#[derive(Clone, Copy, Debug, PartialEq, Eq)]
pub struct Event {
    pub kind: u32,
    pub start: u32,
    pub end: u32,
    pub count: u32,
    pub width: u32,
    pub x: i32,
}

/// A laid text.
#[derive(Clone, Debug, Default, PartialEq, Eq)]
pub struct Laid {
    pub lines: Vec<Line>,
    /// As many as there are lines, or none at all where a side does not have them.
    pub extents: Vec<Extent>,
    pub events: Vec<Event>,
    /// For each line, how many events there are up to its end.
    pub upto: Vec<u32>,
}

impl Laid {
    /// The numbers of each line as a table has them, where the side has them all.
    pub fn entries(&self) -> impl Iterator<Item = [u32; LINE_NUMBERS]> + '_ {
        self.lines.iter().zip(&self.extents).map(|(l, e)| {
            [l.start, l.rest_end, l.rest_count, l.end, l.left as u32, l.space, l.extra, l.width, e.dropped, e.reach, e.chars]
        })
    }

    pub fn clear(&mut self) {
        self.lines.clear();
        self.extents.clear();
        self.events.clear();
        self.upto.clear();
    }
}

/// What stood in the way while the crate laid a text. All false: the text is in the domain of the comparison.
#[derive(Clone, Copy, Debug, Default, PartialEq, Eq)]
pub struct Outside {
    /// A line's measured width is above the box's, so a subtraction in the crate goes below 0.
    pub overflow: bool,
    /// A space run that holds U+200B was cut, while measuring or while drawing.
    pub cut_zero_width: bool,
    /// There are more lines than characters allow: the crate would not end.
    pub endless: bool,
}

/// Something that the crate's whole text box drew.
#[derive(Clone, Copy, Debug, PartialEq, Eq)]
pub struct Drawn {
    /// SPACE or PRINTED.
    pub kind: u32,
    /// The address and the length of the string that was printed.
    pub address: usize,
    pub len: usize,
    /// The width of a space.
    pub width: u32,
    pub x: i32,
    pub y: i32,
}
