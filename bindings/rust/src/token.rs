//! The words, spaces and breaks of a text.

use crate::room::{count, offset, TOKEN_NUMBERS};
use crate::rows::{Row, Rows};
use crate::{sys, Refusal};
use core::ops::Range;

/// What a token is.
#[derive(Clone, Copy, Debug, PartialEq, Eq, Hash)]
pub enum Kind {
    /// U+000A.
    NewLine = 0,
    /// U+000D.
    CarriageReturn = 1,
    /// U+0009.
    Tab = 2,
    /// Other white space as long as it goes on, but what glues.
    Whitespace = 3,
    /// Other characters as long as they go on, with U+00A0, U+2007 and U+202F, which glue.
    Word = 4,
    /// U+00AD, where a word may be broken.
    Break = 5,
}

/// A token of a text.
#[derive(Clone, Copy, Debug, PartialEq, Eq, Hash)]
pub struct Token {
    /// What it is.
    pub kind: Kind,
    /// The offset of its first byte.
    pub start: u32,
    /// The offset after its last byte, where the next token starts.
    pub end: u32,
    /// Of white space the spaces that it counts as, else 0.
    pub count: u32,
}

impl Token {
    /// Its bytes.
    pub fn range(&self) -> Range<usize> {
        offset(self.start)..offset(self.end)
    }
}

impl Row for Token {
    const NUMBERS: usize = TOKEN_NUMBERS;

    fn from_row(row: &[u32]) -> Option<Token> {
        let [kind, start, end, count]: [u32; TOKEN_NUMBERS] = row.try_into().ok()?;
        let kind = match kind {
            0 => Kind::NewLine,
            1 => Kind::CarriageReturn,
            2 => Kind::Tab,
            3 => Kind::Whitespace,
            4 => Kind::Word,
            5 => Kind::Break,
            _ => return None,
        };
        Some(Token { kind, start, end, count })
    }
}

/// An iterator over the tokens of a text, which follow one another and cover it.
pub type Tokens<'a> = Rows<'a, Token>;

/// Is this a text: UTF-8 of at most 65,535 bytes.
pub fn check_text(text: impl AsRef<[u8]>) -> Result<(), Refusal> {
    sys::check_text(text.as_ref())
}

/// Splits a text into tokens, written to a lent slice.
///
/// ```
/// use bisquemop::{tokens, tokens_room, Kind};
///
/// # fn main() -> Result<(), bisquemop::Refusal> {
/// let mut room = [0; tokens_room(6)];
/// let kinds: Vec<Kind> = tokens("ab cde", &mut room)?.map(|token| token.kind).collect();
/// assert_eq!(kinds, [Kind::Word, Kind::Whitespace, Kind::Word]);
/// # Ok(())
/// # }
/// ```
pub fn tokens(text: impl AsRef<[u8]>, room: &mut [u32]) -> Result<Tokens<'_>, Refusal> {
    let many = sys::tokens(text.as_ref(), room)?;
    Ok(Rows::first(room, count(many)))
}
