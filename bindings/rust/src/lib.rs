//! Lays text in a box where every character has the same width, and says for each line where it starts, where it is
//! drawn, and how many characters it had to drop. It is a safe face of the library Bisquemop, whose calls are proved.
//!
//! | Wanted | Here |
//! |---|---|
//! | how a text is laid | [`Settings`], by [`Settings::builder`] |
//! | the lines of a text | [`Layout::lay`], [`Layout::lines`] |
//! | what is drawn, and where | [`Layout::lay_events`], [`Events`], [`Layout::places`] |
//! | the table after an edit | [`Layout::lay_again`] |
//! | a line at a time | [`OneLine`] |
//! | the line under a finger | [`Layout::index`], [`Index`] |
//! | a layout that travels | [`Layout::write_file`], [`Layout::read_file`] |
//! | pages, and a text that fits | [`Layout::lay_pages`], [`choose`](fn@choose), [`columns_fit`], [`columns_plan`] |
//! | words, spaces and breaks | [`tokens`] |
//! | the names of embedded-text | [`embedded_text`] |
//! | each call as C has it | [`sys`] |
//!
//! Nothing is allocated: a call writes to slices that its caller lends, and what reads them borrows them. Nothing
//! panics: what is bad is refused, by a [`Refusal`].
//!
//! ```
//! use bisquemop::{Layout, Settings, Wrap};
//!
//! # fn main() -> Result<(), bisquemop::Refusal> {
//! let settings = Settings::builder(6, 8).width(72).wrap(Wrap::Drop).build()?;
//! let clue = "Who lied?\n            not the baker, not his wife.";
//! let mut table = [0; bisquemop::table_room(10)];
//! let layout = Layout::lay(settings, clue, &mut table)?;
//! let dropped = layout.lines().find(|line| line.dropped > 0);
//! assert_eq!(dropped.map(|line| line.dropped_text(clue)), Some("not"));
//! # Ok(())
//! # }
//! ```
//!
//! Offsets are in bytes from the text's start, widths and heights in pixels, counts in characters.

#![no_std]
#![deny(missing_docs, unsafe_code)]
#![deny(clippy::indexing_slicing, clippy::unwrap_used, clippy::expect_used, clippy::panic, clippy::unreachable)]
#![deny(clippy::arithmetic_side_effects)]

#[cfg(feature = "std")]
extern crate std;

mod choose;
mod columns;
mod edit;
pub mod embedded_text;
mod event;
mod file;
mod index;
mod layout;
mod line;
mod one_line;
mod page;
mod place;
mod refusal;
mod room;
mod rows;
mod settings;
pub mod sys;
mod token;

pub use choose::{choose, Choice, Which};
pub use columns::{columns_fit, columns_plan};
pub use edit::{Again, Edit};
pub use event::{Drawn, Event, Events};
pub use file::BadFile;
pub use index::Index;
pub use layout::Layout;
pub use line::{Line, LineEnd, Lines, Rest};
pub use one_line::{one_line, OneLine, Stand};
pub use page::{Page, PageRows, Pages};
pub use place::{Place, Places};
pub use refusal::Refusal;
pub use room::*;
pub use rows::Rows;
pub use settings::{Alignment, Numbers, Settings, SettingsBuilder, Vertical, Wrap};
pub use token::{check_text, tokens, Kind, Token, Tokens};

/// The version of this package and of the library that it is made for.
pub const VERSION: &str = env!("CARGO_PKG_VERSION");

/// The examples of README.md are tested with those of the documentation.
#[cfg(doctest)]
#[doc = include_str!("../README.md")]
struct Readme;

/// Those of the page for users of embedded-text too.
#[cfg(doctest)]
#[doc = include_str!("../../../docs/FROM-EMBEDDED-TEXT.md")]
struct FromEmbeddedText;
