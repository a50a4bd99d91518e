//! Every call of include/bisquemop.h under its own name, over slices and numbers, with its answer as a `Result`. These are
//! for programs that keep their tables as numbers, and check nothing that the library checks itself; all else of the
//! package stands on them. What each call does, and refuses, is in the header. This file alone has `unsafe` in it.
//!
//! ```
//! use bisquemop::{sys, Numbers, Refusal};
//!
//! let settings = Numbers { glyph: 6, width: 30, base: 8, ..Numbers::default() };
//! let mut table = [0; 22];
//! assert_eq!(sys::layout(&settings, b"ab cde", &mut table), Ok(2));
//! assert_eq!(table[11], 3);
//! assert_eq!(sys::layout(&settings, b"ab cde", &mut table[..21]), Err(Refusal::TooSmall(2)));
//! ```

#![allow(unsafe_code)]

use crate::room::wide;
use crate::{Edit, Numbers, Place, Refusal, Stand, Which};

/// What the calls rest on besides the machine's own way to pass numbers and pointers: that numbers stand at multiples of
/// their size, and that a pointer has 32 or 64 bits. On a machine where that is not so this does not compile.
const _: () = assert!(core::mem::align_of::<u64>() == 8 && core::mem::align_of::<u32>() == 4);
const _: () = assert!(core::mem::size_of::<usize>() == 4 || core::mem::size_of::<usize>() == 8);

/// The calls as the header declares them. The thirteen settings come first, where a call has them.
mod c {
    macro_rules! with_settings {
        ($($name:ident($($more:tt)*);)*) => {
            extern "C" {
                $(pub fn $name(
                    glyph: u32, width: u32, tab: u32, spacing: u32, paragraph: u32, base: u32, height: u32, top: i32,
                    alignment: u32, vertical: u32, leading: u32, trailing: u32, wrap: u32, $($more)*
                ) -> u32;)*
            }
        };
    }

    with_settings! {
        bisquemop_check_settings(value: *mut u64);
        bisquemop_layout(text: *const u8, len: u64, table: *mut u32, table_len: u64, value: *mut u64);
        bisquemop_layout_events(
            text: *const u8, len: u64, table: *mut u32, table_len: u64, events: *mut u32, events_len: u64,
            value: *mut u64, event_count: *mut u64
        );
        bisquemop_open(text: *const u8, len: u64, value: *mut u64);
        bisquemop_one_line(
            text: *const u8, len: u64, start: u32, rest_end: u32, rest_count: u32, entry: *mut u32, entry_len: u64,
            value: *mut u64, next_rest_end: *mut u32, next_rest_count: *mut u32
        );
        bisquemop_lay_again(
            part: *const u8, part_len: u64, table: *mut u32, table_len: u64, lines: u64, a: u32, b: u32, inserted: u32,
            value: *mut u64, laid: *mut u64
        );
        bisquemop_height(table: *const u32, table_len: u64, lines: u64, value: *mut u64);
        bisquemop_line_y(table: *const u32, table_len: u64, lines: u64, line: u64, value: *mut u64, y: *mut i32);
        bisquemop_index(
            table: *const u32, table_len: u64, lines: u64, index: *mut i32, index_len: u64, value: *mut u64
        );
        bisquemop_index_again(
            table: *const u32, table_len: u64, lines: u64, first: u64, index: *mut i32, index_len: u64, value: *mut u64
        );
        bisquemop_write_file(
            table: *const u32, table_len: u64, lines: u64, file: *mut u8, file_len: u64, value: *mut u64
        );
        bisquemop_choose(
            long_text: *const u8, long_len: u64, short_text: *const u8, short_len: u64, h: u32, value: *mut u64,
            which: *mut u32, left_out: *mut u64
        );
        bisquemop_pages(
            text: *const u8, len: u64, h: u32, table: *mut u32, table_len: u64, pages: *mut u32, pages_len: u64,
            value: *mut u64, page_count: *mut u64
        );
        bisquemop_columns_fit(text: *const u8, len: u64, h: u32, value: *mut u64);
        bisquemop_columns_plan(text: *const u8, len: u64, h: u32, value: *mut u64);
    }

    #[rustfmt::skip]
    extern "C" {
        pub fn bisquemop_check_text(text: *const u8, len: u64, value: *mut u64) -> u32;
        pub fn bisquemop_tokens(text: *const u8, len: u64, tokens: *mut u32, tokens_len: u64, value: *mut u64) -> u32;
        pub fn bisquemop_read_file(
            file: *const u8, file_len: u64, settings: *mut u32, settings_len: u64, table: *mut u32, table_len: u64,
            value: *mut u64, text_len: *mut u64,
        ) -> u32;
        pub fn bisquemop_first_affected(
            table: *const u32, table_len: u64, lines: u64, a: u32, b: u32, inserted: u32, value: *mut u64,
        ) -> u32;
        pub fn bisquemop_find_line(
            table: *const u32, table_len: u64, lines: u64, index: *const i32, index_len: u64, y: i32, value: *mut u64,
        ) -> u32;
        pub fn bisquemop_pages_again(
            table: *const u32, table_len: u64, lines: u64, h: u32, first: u64, pages: *mut u32, pages_len: u64,
            value: *mut u64,
        ) -> u32;
    }
}

/// A call, with what it is lent before the value and after it. It answers the number and the value.
macro_rules! call {
    ($name:ident($($before:expr),*; $($after:expr),*)) => {{
        let mut value = 0;
        // SAFETY: each pointer comes with the length of the slice that it is of, or is that of a number of ours. What the
        // call writes is borrowed by `&mut`, and so overlaps nothing else. The call keeps no pointer.
        let number = unsafe { c::$name($($before,)* &mut value $(, $after)*) };
        (number, value)
    }};
}

/// A call that has the thirteen settings.
macro_rules! settled {
    ($name:ident($s:expr $(, $before:expr)*; $($after:expr),*)) => {
        call!($name(
            $s.glyph, $s.width, $s.tab, $s.spacing, $s.paragraph, $s.base, $s.height, $s.top, $s.alignment, $s.vertical,
            $s.leading, $s.trailing, $s.wrap $(, $before)*; $($after),*
        ))
    };
}

/// The value that a call is done with, or its refusal.
fn answer((number, value): (u32, u64)) -> Result<u64, Refusal> {
    match number {
        0 => Ok(value),
        _ => Err(Refusal::of(number, value)),
    }
}

/// The same for a call that writes a second number when it is done, and then only.
fn with<T: PartialEq>((number, value): (u32, u64), second: T, unwritten: T) -> Result<(u64, T), Refusal> {
    if (number == 0) == (second == unwritten) {
        return Err(Refusal::Other { number, value });
    }
    answer((number, value)).map(|value| (value, second))
}

/// What a second number holds before a call. No call writes these.
const UNWRITTEN: u64 = u64::MAX;
const NO_NUMBER: u32 = u32::MAX;
const NO_PLACE: i32 = i32::MIN;

/// What a call answers where it looked for something and there is none.
const NONE: u64 = u64::MAX;

/// The number of elements of a lent slice.
fn len<T>(lent: &[T]) -> u64 {
    wide(lent.len())
}

/// Are these settings good.
pub fn check_settings(settings: &Numbers) -> Result<(), Refusal> {
    answer(settled!(bisquemop_check_settings(settings;))).map(|_| ())
}

/// Is this a text: UTF-8 of at most 65,535 bytes.
pub fn check_text(text: &[u8]) -> Result<(), Refusal> {
    answer(call!(bisquemop_check_text(text.as_ptr(), len(text);))).map(|_| ())
}

/// How many tokens were written, four numbers each.
pub fn tokens(text: &[u8], tokens: &mut [u32]) -> Result<u64, Refusal> {
    answer(call!(bisquemop_tokens(text.as_ptr(), len(text), tokens.as_mut_ptr(), len(tokens);)))
}

/// How many lines were written, eleven numbers each.
pub fn layout(settings: &Numbers, text: &[u8], table: &mut [u32]) -> Result<u64, Refusal> {
    answer(settled!(bisquemop_layout(settings, text.as_ptr(), len(text), table.as_mut_ptr(), len(table);)))
}

/// How many lines were written, eleven numbers each, and how many events, six numbers each.
pub fn layout_events(
    settings: &Numbers,
    text: &[u8],
    table: &mut [u32],
    events: &mut [u32],
) -> Result<(u64, u64), Refusal> {
    let mut drawn = UNWRITTEN;
    let (lines, room) = (table.as_mut_ptr(), len(table));
    let answered = settled!(bisquemop_layout_events(
        settings, text.as_ptr(), len(text), lines, room, events.as_mut_ptr(), len(events); &mut drawn
    ));
    with(answered, drawn, UNWRITTEN)
}

/// Where the first line of a text starts, which is 0.
pub fn open(settings: &Numbers, text: &[u8]) -> Result<u64, Refusal> {
    answer(settled!(bisquemop_open(settings, text.as_ptr(), len(text);)))
}

/// Lays one line and writes its eleven numbers to the front of `entry`. Answers what the next line is laid from.
pub fn one_line(settings: &Numbers, text: &[u8], from: Stand, entry: &mut [u32]) -> Result<Stand, Refusal> {
    let (mut rest_end, mut rest_count) = (NO_NUMBER, NO_NUMBER);
    let (line, room) = (entry.as_mut_ptr(), len(entry));
    let answered = settled!(bisquemop_one_line(
        settings, text.as_ptr(), len(text), from.start, from.rest_end, from.rest_count, line, room;
        &mut rest_end, &mut rest_count
    ));
    let (_, rest_count) = with(answered, rest_count, NO_NUMBER)?;
    let (start, rest_end) = with(answered, rest_end, NO_NUMBER)?;
    Ok(Stand { start: small(start)?, rest_end, rest_count })
}

/// An offset that was answered. None has more than 32 bits.
fn small(value: u64) -> Result<u32, Refusal> {
    u32::try_from(value).map_err(|_| Refusal::Other { number: 0, value })
}

/// The first line that an edit affects.
pub fn first_affected(table: &[u32], lines: u64, edit: Edit) -> Result<u64, Refusal> {
    let Edit { a, b, inserted } = edit;
    answer(call!(bisquemop_first_affected(table.as_ptr(), len(table), lines, a, b, inserted;)))
}

/// Lays again after an edit, lent the new text from the first affected line's start on. Answers how many lines there are
/// now, and how many were laid.
pub fn lay_again(
    settings: &Numbers,
    part: &[u8],
    table: &mut [u32],
    lines: u64,
    edit: Edit,
) -> Result<(u64, u64), Refusal> {
    let mut laid = UNWRITTEN;
    let Edit { a, b, inserted } = edit;
    let (rows, room) = (table.as_mut_ptr(), len(table));
    let answered = settled!(bisquemop_lay_again(
        settings, part.as_ptr(), len(part), rows, room, lines, a, b, inserted; &mut laid
    ));
    with(answered, laid, UNWRITTEN)
}

/// The height of a laid text.
pub fn height(settings: &Numbers, table: &[u32], lines: u64) -> Result<u64, Refusal> {
    answer(settled!(bisquemop_height(settings, table.as_ptr(), len(table), lines;)))
}

/// Where a line of a laid text stands; nothing if there is no such line.
pub fn line_y(settings: &Numbers, table: &[u32], lines: u64, line: u64) -> Result<Option<Place>, Refusal> {
    let mut y = NO_PLACE;
    let answered = settled!(bisquemop_line_y(settings, table.as_ptr(), len(table), lines, line; &mut y));
    match (answer(answered)?, y == NO_PLACE) {
        (2, true) => Ok(None),
        (shows @ (0 | 1), false) => Ok(Some(Place { y, shows: shows == 1 })),
        (value, _) => Err(Refusal::Other { number: 0, value }),
    }
}

/// How many ys were written, one a line.
pub fn index(settings: &Numbers, table: &[u32], lines: u64, index: &mut [i32]) -> Result<u64, Refusal> {
    let (ys, room) = (index.as_mut_ptr(), len(index));
    answer(settled!(bisquemop_index(settings, table.as_ptr(), len(table), lines, ys, room;)))
}

/// The same after an edit, of which this is the first affected line.
pub fn index_again(
    settings: &Numbers,
    table: &[u32],
    lines: u64,
    first: u64,
    index: &mut [i32],
) -> Result<u64, Refusal> {
    let (ys, room) = (index.as_mut_ptr(), len(index));
    answer(settled!(bisquemop_index_again(settings, table.as_ptr(), len(table), lines, first, ys, room;)))
}

/// The line under a y; nothing if all lines are below it.
pub fn find_line(table: &[u32], lines: u64, index: &[i32], y: i32) -> Result<Option<u64>, Refusal> {
    let (ys, count) = (index.as_ptr(), len(index));
    let found = answer(call!(bisquemop_find_line(table.as_ptr(), len(table), lines, ys, count, y;)))?;
    Ok(if found == NONE { None } else { Some(found) })
}

/// How many bytes of a layout file were written.
pub fn write_file(settings: &Numbers, table: &[u32], lines: u64, file: &mut [u8]) -> Result<u64, Refusal> {
    let (bytes, room) = (file.as_mut_ptr(), len(file));
    answer(settled!(bisquemop_write_file(settings, table.as_ptr(), len(table), lines, bytes, room;)))
}

/// How many lines were read from a layout file, and the length of their text. The settings are thirteen numbers.
pub fn read_file(file: &[u8], settings: &mut [u32], table: &mut [u32]) -> Result<(u64, u64), Refusal> {
    let mut text_len = UNWRITTEN;
    let (numbers, many) = (settings.as_mut_ptr(), len(settings));
    let (rows, room) = (table.as_mut_ptr(), len(table));
    let answered = call!(bisquemop_read_file(file.as_ptr(), len(file), numbers, many, rows, room; &mut text_len));
    with(answered, text_len, UNWRITTEN)
}

/// Which of two texts was chosen for so many lines, how many bytes of it, and how many characters come after them.
pub fn choose(settings: &Numbers, long: &[u8], short: &[u8], h: u32) -> Result<(Which, u64, u64), Refusal> {
    let (mut which, mut left_out) = (NO_NUMBER, UNWRITTEN);
    let answered = settled!(bisquemop_choose(
        settings, long.as_ptr(), len(long), short.as_ptr(), len(short), h; &mut which, &mut left_out
    ));
    let (bytes, left_out) = with(answered, left_out, UNWRITTEN)?;
    match with(answered, which, NO_NUMBER)? {
        (_, 0) => Ok((Which::Long, bytes, left_out)),
        (_, 1) => Ok((Which::Short, bytes, left_out)),
        (value, _) => Err(Refusal::Other { number: 0, value }),
    }
}

/// How many lines were written, and how many pages of `h` lines each, three numbers a page.
pub fn pages(
    settings: &Numbers,
    text: &[u8],
    h: u32,
    table: &mut [u32],
    pages: &mut [u32],
) -> Result<(u64, u64), Refusal> {
    let mut listed = UNWRITTEN;
    let (lines, room) = (table.as_mut_ptr(), len(table));
    let answered = settled!(bisquemop_pages(
        settings, text.as_ptr(), len(text), h, lines, room, pages.as_mut_ptr(), len(pages); &mut listed
    ));
    with(answered, listed, UNWRITTEN)
}

/// How many pages there are after an edit, of which this is the first affected line.
pub fn pages_again(table: &[u32], lines: u64, h: u32, first: u64, pages: &mut [u32]) -> Result<u64, Refusal> {
    let (rows, room) = (pages.as_mut_ptr(), len(pages));
    answer(call!(bisquemop_pages_again(table.as_ptr(), len(table), lines, h, first, rows, room;)))
}

/// Has a text at most `h` lines, and drops none of them a character.
pub fn columns_fit(settings: &Numbers, text: &[u8], h: u32) -> Result<bool, Refusal> {
    match answer(settled!(bisquemop_columns_fit(settings, text.as_ptr(), len(text), h;)))? {
        0 => Ok(false),
        1 => Ok(true),
        value => Err(Refusal::Other { number: 0, value }),
    }
}

/// The smallest box width by which that is so; nothing if there is none.
pub fn columns_plan(settings: &Numbers, text: &[u8], h: u32) -> Result<Option<u32>, Refusal> {
    match answer(settled!(bisquemop_columns_plan(settings, text.as_ptr(), len(text), h;)))? {
        NONE => Ok(None),
        width => small(width).map(Some),
    }
}
