//! A long text if it has at most so many lines, else as much of a short one.

use crate::room::count;
use crate::{sys, Refusal, Settings};

/// Which of two texts was chosen.
#[derive(Clone, Copy, Debug, PartialEq, Eq, Hash)]
pub enum Which {
    /// The long one, all of it.
    Long = 0,
    /// The short one, or its beginning.
    Short = 1,
}

/// What was chosen.
#[derive(Clone, Copy, Debug, PartialEq, Eq, Hash)]
pub struct Choice {
    /// The text that it comes from.
    pub which: Which,
    /// How many bytes of it, from its front.
    pub bytes: usize,
    /// How many characters come after these: 0 of the long text.
    pub left_out: u64,
}

impl Choice {
    /// The part that was chosen, of the texts that it was chosen from.
    pub fn part<'t>(&self, long: &'t str, short: &'t str) -> &'t str {
        let text = match self.which {
            Which::Long => long,
            Which::Short => short,
        };
        text.get(..self.bytes).unwrap_or("")
    }
}

/// Chooses between a long text and a short one for a place that has `h` lines.
///
/// ```
/// use bisquemop::{choose, Settings};
///
/// # fn main() -> Result<(), bisquemop::Refusal> {
/// let settings = Settings::builder(6, 8).width(60).build()?;
/// let (long, short) = ("It was not the baker, nor his wife.", "Not the baker.");
/// assert_eq!(choose(&settings, long, short, 4)?.part(long, short), long);
/// let choice = choose(&settings, long, short, 1)?;
/// assert_eq!((choice.part(long, short), choice.left_out), ("Not the ", 6));
/// # Ok(())
/// # }
/// ```
pub fn choose(settings: &Settings, long: impl AsRef<[u8]>, short: impl AsRef<[u8]>, h: u32) -> Result<Choice, Refusal> {
    let (which, bytes, left_out) = sys::choose(settings.numbers(), long.as_ref(), short.as_ref(), h)?;
    Ok(Choice { which, bytes: count(bytes), left_out })
}
