//! Why a call refused what it was given.

use core::fmt;

/// Why a call refused what it was given, with the value that goes with it. A call that refuses has written to no slice,
/// but for the settings that go with [`Refusal::RetiredSetting`].
///
/// ```
/// use bisquemop::{Refusal, Settings};
///
/// let refused = Settings::builder(6, 8).width(5000).build();
/// assert_eq!(refused, Err(Refusal::SettingOutOfRange));
/// assert_eq!(Refusal::SettingOutOfRange.number(), 1);
/// assert_eq!(Refusal::NotUtf8(2).to_string(), "the text is UTF-8 only up to byte 2");
/// ```
#[derive(Clone, Copy, Debug, PartialEq, Eq, Hash)]
#[non_exhaustive]
pub enum Refusal {
    /// 1: a setting is out of its range, or a limit of no lines was given.
    SettingOutOfRange,
    /// 2: an alignment is none of its kind. The number that was given.
    UnknownAlignment(u64),
    /// 3: the text, or the edited text, has more than 65,535 bytes. Its length.
    TextTooLong(u64),
    /// 4: the text is not UTF-8. The length in bytes of its longest prefix that is.
    NotUtf8(u64),
    /// 5: a line of the table is bad, or one line's start or rest is none of the text. The first bad line; 0 for a start
    /// or a rest.
    BadLine(u64),
    /// 6: an edit is turned round, ends past the text, cuts a character, or is not what the new text says.
    BadEdit,
    /// 8: a slice is too small. How many lines, tokens, events, ys, settings, bytes or pages it must have room for.
    TooSmall(u64),
    /// 9: a field of a layout file is bad. Its offset.
    BadField(u64),
    /// 10: an index is not of this table. Its length if that is not the count of lines; else the first line whose y is
    /// smaller than that of the line before it.
    BadIndex(u64),
    /// 11: a layout file has a line with too few numbers, as lines had once. Its offset.
    OldEntry(u64),
    /// 12: a layout file has trailing spaces on, which are retired. The other settings are handed out.
    RetiredSetting,
    /// An answer that this package does not know: the library that was linked is another than its own.
    Other {
        /// The number that the call returned.
        number: u32,
        /// The value that went with it.
        value: u64,
    },
}

impl Refusal {
    /// The refusal of a number that is not 0.
    pub(crate) const fn of(number: u32, value: u64) -> Refusal {
        match number {
            1 if value == 0 => Refusal::SettingOutOfRange,
            2 => Refusal::UnknownAlignment(value),
            3 => Refusal::TextTooLong(value),
            4 => Refusal::NotUtf8(value),
            5 => Refusal::BadLine(value),
            6 if value == 0 => Refusal::BadEdit,
            8 => Refusal::TooSmall(value),
            9 => Refusal::BadField(value),
            10 => Refusal::BadIndex(value),
            11 => Refusal::OldEntry(value),
            12 if value == 0 => Refusal::RetiredSetting,
            _ => Refusal::Other { number, value },
        }
    }

    /// The number by which a call from C refuses.
    pub const fn number(self) -> u32 {
        match self {
            Refusal::SettingOutOfRange => 1,
            Refusal::UnknownAlignment(_) => 2,
            Refusal::TextTooLong(_) => 3,
            Refusal::NotUtf8(_) => 4,
            Refusal::BadLine(_) => 5,
            Refusal::BadEdit => 6,
            Refusal::TooSmall(_) => 8,
            Refusal::BadField(_) => 9,
            Refusal::BadIndex(_) => 10,
            Refusal::OldEntry(_) => 11,
            Refusal::RetiredSetting => 12,
            Refusal::Other { number, .. } => number,
        }
    }

    /// The value that goes with it, 0 where none does.
    pub const fn value(self) -> u64 {
        match self {
            Refusal::SettingOutOfRange | Refusal::BadEdit | Refusal::RetiredSetting => 0,
            Refusal::UnknownAlignment(value)
            | Refusal::TextTooLong(value)
            | Refusal::NotUtf8(value)
            | Refusal::BadLine(value)
            | Refusal::TooSmall(value)
            | Refusal::BadField(value)
            | Refusal::BadIndex(value)
            | Refusal::OldEntry(value)
            | Refusal::Other { value, .. } => value,
        }
    }
}

impl fmt::Display for Refusal {
    fn fmt(&self, f: &mut fmt::Formatter<'_>) -> fmt::Result {
        match self {
            Refusal::SettingOutOfRange => f.write_str("a setting is out of its range"),
            Refusal::UnknownAlignment(number) => write!(f, "{number} is no alignment"),
            Refusal::TextTooLong(bytes) => write!(f, "the text has {bytes} bytes, and 65535 are the most"),
            Refusal::NotUtf8(valid) => write!(f, "the text is UTF-8 only up to byte {valid}"),
            Refusal::BadLine(line) => write!(f, "line {line} is none of the text's layout"),
            Refusal::BadEdit => f.write_str("the edit does not fit the text"),
            Refusal::TooSmall(needed) => write!(f, "a buffer is too small: it must have room for {needed}"),
            Refusal::BadField(offset) => write!(f, "the layout file has a bad field at byte {offset}"),
            Refusal::BadIndex(value) => write!(f, "the index is not of this table: {value}"),
            Refusal::OldEntry(offset) => write!(f, "the layout file has a line of the old form at byte {offset}"),
            Refusal::RetiredSetting => f.write_str("the layout file has trailing spaces on, which are retired"),
            Refusal::Other { number, value } => {
                write!(f, "the library answered {number} and {value}, which is unknown")
            }
        }
    }
}

#[cfg(feature = "std")]
impl std::error::Error for Refusal {}
