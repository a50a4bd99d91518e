//! Columns: does a text fit so many lines, and how narrow can its column be.

use crate::{sys, Refusal, Settings};

/// Has a text at most `h` lines, and drops none of them a character. No table is needed.
///
/// ```
/// use bisquemop::{columns_fit, columns_plan, Settings};
///
/// # fn main() -> Result<(), bisquemop::Refusal> {
/// let settings = Settings::builder(6, 8).width(30).build()?;
/// assert!(columns_fit(&settings, "ab cde", 2)?);
/// assert!(!columns_fit(&settings, "ab cde", 1)?);
/// assert_eq!(columns_plan(&settings, "ab cde", 1)?, Some(36));
/// # Ok(())
/// # }
/// ```
pub fn columns_fit(settings: &Settings, text: impl AsRef<[u8]>, h: u32) -> Result<bool, Refusal> {
    sys::columns_fit(settings.numbers(), text.as_ref(), h)
}

/// The smallest box width by which [`columns_fit`] says yes; nothing if there is none. A wider box may have more lines
/// than a narrower one.
pub fn columns_plan(settings: &Settings, text: impl AsRef<[u8]>, h: u32) -> Result<Option<u32>, Refusal> {
    sys::columns_plan(settings.numbers(), text.as_ref(), h)
}
