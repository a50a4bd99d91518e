//! How many numbers the slices need that are lent to the calls, and the limits.

/// The most bytes that a text may have.
pub const TEXT_MAX: usize = 65_535;
/// How many numbers a line has in a table.
pub const LINE_NUMBERS: usize = 11;
/// How many numbers an event has.
pub const EVENT_NUMBERS: usize = 6;
/// How many numbers a token has.
pub const TOKEN_NUMBERS: usize = 4;
/// How many numbers a page has.
pub const PAGE_NUMBERS: usize = 3;
/// How many settings there are.
pub const SETTINGS_NUMBERS: usize = 13;

/// The numbers of a table of so many lines. No text has more lines than bytes plus 1.
pub const fn table_room(lines: usize) -> usize {
    lines.saturating_mul(LINE_NUMBERS)
}

/// The numbers of so many events. No text has more events than bytes.
pub const fn events_room(events: usize) -> usize {
    events.saturating_mul(EVENT_NUMBERS)
}

/// The numbers of so many tokens. No text has more tokens than bytes.
pub const fn tokens_room(tokens: usize) -> usize {
    tokens.saturating_mul(TOKEN_NUMBERS)
}

/// The numbers of so many pages.
pub const fn pages_room(pages: usize) -> usize {
    pages.saturating_mul(PAGE_NUMBERS)
}

/// The bytes of a layout file of so many lines.
pub const fn file_room(lines: usize) -> usize {
    lines.saturating_mul(3 + 4 * LINE_NUMBERS).saturating_add(65)
}

/// A count of the library's, which is never as large as a `usize` can be.
pub(crate) fn count(value: u64) -> usize {
    usize::try_from(value).unwrap_or(usize::MAX)
}

/// An offset of the library's.
pub(crate) fn offset(value: u32) -> usize {
    count(u64::from(value))
}

/// A count as the calls take it. No `usize` is larger.
pub(crate) fn wide(value: usize) -> u64 {
    value as u64
}
