//! The names of the crate embedded-text 0.7.3, over this library: its alignments, tab sizes, line heights, style builder
//! and text box. docs/FROM-EMBEDDED-TEXT.md has programs of both side by side, and what the crate has and this has not.
//!
//! In place of a draw target there is [`DrawRun`], a trait with one method: draw a run of characters at x and y. In place
//! of a character style there is a [`Font`], the width and the height of every character.
//!
//! ```
//! use bisquemop::embedded_text::{Font, HorizontalAlignment, Rectangle, TextBox, TextBoxStyleBuilder};
//! use bisquemop::{events_room, table_room};
//!
//! # fn main() -> Result<(), bisquemop::Refusal> {
//! let style = TextBoxStyleBuilder::new().alignment(HorizontalAlignment::Right).paragraph_spacing(6).build();
//! let bounds = Rectangle::new(10, 20, 60, 40);
//! let text_box = TextBox::with_textbox_style("not the baker", bounds, Font::new(6, 10), style);
//!
//! let (mut table, mut events) = ([0; table_room(20)], [0; events_room(20)]);
//! let mut drawn = Vec::new();
//! let mut screen = |run: &str, x: i32, y: i32| drawn.push((run.to_owned(), x, y));
//! let done = text_box.draw(&mut screen, &mut table, &mut events)?;
//! assert_eq!((done.residual, done.dropped), ("", 0));
//! assert_eq!(drawn, [("not".into(), 28, 20), ("the".into(), 52, 20), ("baker".into(), 40, 30)]);
//! # Ok(())
//! # }
//! ```

mod style;
mod text_box;

pub use style::{HorizontalAlignment, LineHeight, TabSize, TextBoxStyle, TextBoxStyleBuilder, VerticalAlignment};
pub use text_box::{Done, DrawRun, Font, Rectangle, TextBox};
