//! A layout as the bytes of a layout file, which another machine can read.

use crate::room::{count, wide, SETTINGS_NUMBERS};
use crate::{sys, Layout, Numbers, Refusal, Settings};
use core::fmt;

/// Why a layout file was not read.
#[derive(Clone, Copy, Debug, PartialEq, Eq, Hash)]
pub struct BadFile {
    /// The reason.
    pub refusal: Refusal,
    /// With [`Refusal::RetiredSetting`] the file's settings, less the one that is retired: the text can be laid again by
    /// them.
    pub settings: Option<Settings>,
}

impl From<Refusal> for BadFile {
    fn from(refusal: Refusal) -> BadFile {
        BadFile { refusal, settings: None }
    }
}

impl fmt::Display for BadFile {
    fn fmt(&self, f: &mut fmt::Formatter<'_>) -> fmt::Result {
        self.refusal.fmt(f)
    }
}

#[cfg(feature = "std")]
impl std::error::Error for BadFile {}

impl<'a> Layout<'a> {
    /// Writes settings and table as a layout file, and answers how many bytes it has:
    /// [`file_room`](crate::file_room) of the lines.
    ///
    /// ```
    /// use bisquemop::{file_room, table_room, Layout, Settings};
    ///
    /// # fn main() -> Result<(), bisquemop::BadFile> {
    /// let settings = Settings::builder(6, 8).width(30).build()?;
    /// let (mut here, mut there, mut file) = ([0; table_room(2)], [0; table_room(2)], [0; file_room(2)]);
    /// let layout = Layout::lay(settings, "ab cde", &mut here)?;
    /// assert_eq!(layout.write_file(&mut file)?, file_room(2));
    /// let (read, text_len) = Layout::read_file(&file, &mut there)?;
    /// assert_eq!((read.table(), read.settings(), text_len), (layout.table(), &settings, 6));
    /// # Ok(())
    /// # }
    /// ```
    pub fn write_file(&self, file: &mut [u8]) -> Result<usize, Refusal> {
        sys::write_file(self.settings().numbers(), self.table(), wide(self.line_count()), file).map(count)
    }

    /// Reads a layout file. Answers the layout and the length of its text.
    pub fn read_file(file: &[u8], table: &'a mut [u32]) -> Result<(Layout<'a>, usize), BadFile> {
        let mut numbers = [0; SETTINGS_NUMBERS];
        let answer = sys::read_file(file, &mut numbers, table);
        let settings = || Settings::from_numbers(Numbers::from_array(numbers));
        match answer {
            Ok((lines, text_len)) => Ok((Layout::of(settings()?, table, lines), count(text_len))),
            Err(Refusal::RetiredSetting) => {
                Err(BadFile { refusal: Refusal::RetiredSetting, settings: settings().ok() })
            }
            Err(refusal) => Err(refusal.into()),
        }
    }
}
