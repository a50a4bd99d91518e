//! Lines laid one by one, for a program that shows a line while the next is laid.

use crate::room::LINE_NUMBERS;
use crate::{sys, Line, LineEnd, Refusal, Settings};
use core::iter::FusedIterator;

/// What a line is laid from: its start, and the rest of a cut run of spaces that it starts with; 0 and 0 where there is
/// none.
#[derive(Clone, Copy, Debug, Default, PartialEq, Eq, Hash)]
pub struct Stand {
    /// The offset where the line starts.
    pub start: u32,
    /// The offset where the rest ends.
    pub rest_end: u32,
    /// How many spaces the rest counts as.
    pub rest_count: u32,
}

/// Lays one line of a text. Answers it, and what the next one is laid from.
pub fn one_line(settings: &Settings, text: impl AsRef<[u8]>, from: Stand) -> Result<(Line, Stand), Refusal> {
    let mut entry = [0; LINE_NUMBERS];
    let next = sys::one_line(settings.numbers(), text.as_ref(), from, &mut entry)?;
    match Line::of(&entry, next.start) {
        Some(line) => Ok((line, next)),
        None => Err(Refusal::Other { number: 0, value: 0 }),
    }
}

/// An iterator that lays a text line by line. What it yields are the lines of the layout, the first as soon as it is laid,
/// and who stops after k of them has the first k.
///
/// ```
/// use bisquemop::{OneLine, Settings};
///
/// # fn main() -> Result<(), bisquemop::Refusal> {
/// let settings = Settings::builder(6, 8).width(30).build()?;
/// let text = "ab cde fg";
/// let mut lines = OneLine::open(settings, text)?;
/// assert_eq!(lines.next().map(|line| line.text(text)), Some("ab "));
/// let later = OneLine::resume(settings, text, lines.stand().expect("a line is left"))?;
/// assert_eq!(later.map(|line| line.text(text)).collect::<Vec<_>>(), ["cde ", "fg"]);
/// # Ok(())
/// # }
/// ```
#[derive(Clone, Debug)]
pub struct OneLine<'t> {
    settings: Settings,
    text: &'t [u8],
    next: Option<Stand>,
}

impl<'t> OneLine<'t> {
    /// Before the first line. Settings and text are checked here.
    pub fn open<T: AsRef<[u8]> + ?Sized>(settings: Settings, text: &'t T) -> Result<OneLine<'t>, Refusal> {
        let text = text.as_ref();
        sys::open(settings.numbers(), text)?;
        Ok(OneLine { settings, text, next: Some(Stand::default()) })
    }

    /// Before the line that is laid from there. That this is a place of the text is checked here.
    pub fn resume<T: AsRef<[u8]> + ?Sized>(
        settings: Settings,
        text: &'t T,
        from: Stand,
    ) -> Result<OneLine<'t>, Refusal> {
        let text = text.as_ref();
        one_line(&settings, text, from)?;
        Ok(OneLine { settings, text, next: Some(from) })
    }

    /// What the next line is laid from; nothing after the last. A program that goes on later keeps it.
    pub const fn stand(&self) -> Option<Stand> {
        self.next
    }
}

impl Iterator for OneLine<'_> {
    type Item = Line;

    fn next(&mut self) -> Option<Line> {
        let (line, after) = one_line(&self.settings, self.text, self.next.take()?).ok()?;
        if line.end != LineEnd::EndOfText {
            self.next = Some(after);
        }
        Some(line)
    }
}

impl FusedIterator for OneLine<'_> {}
