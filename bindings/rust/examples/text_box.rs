//! A text box in the shape of embedded-text's, drawn on a grid of characters.

use bisquemop::embedded_text::{DrawRun, Font, Rectangle, TextBox, TextBoxStyle, TextBoxStyleBuilder};
use bisquemop::{events_room, table_room, Refusal, Wrap};

const CLUE: &str = "Who lied?\n            not the baker, not his wife.";
const FONT: Font = Font::new(6, 8);

/// A screen of six rows of twelve characters.
struct Screen([[char; 12]; 6]);

impl DrawRun for Screen {
    fn draw(&mut self, text: &str, x: i32, y: i32) {
        let (row, column) = (y / 8, usize::try_from(x / 6).unwrap_or(usize::MAX));
        let row = usize::try_from(row).ok().and_then(|row| self.0.get_mut(row));
        for (cell, shown) in row.into_iter().flatten().skip(column).zip(text.chars()) {
            *cell = shown;
        }
    }
}

fn show(title: &str, style: TextBoxStyle) -> Result<(), Refusal> {
    let (mut table, mut events) = ([0; table_room(60)], [0; events_room(60)]);
    let mut screen = Screen([[' '; 12]; 6]);
    let text_box = TextBox::with_textbox_style(CLUE, Rectangle::new(0, 0, 72, 48), FONT, style);
    let done = text_box.draw(&mut screen, &mut table, &mut events)?;
    println!("{title}: {} characters dropped, {} bytes left for another box", done.dropped, done.residual.len());
    for row in screen.0 {
        println!("  |{}|", row.iter().collect::<String>());
    }
    Ok(())
}

fn main() -> Result<(), Refusal> {
    show("as the crate draws it", TextBoxStyleBuilder::new().wrap(Wrap::Drop).build())?;
    show("words wait", TextBoxStyle::default())
}
