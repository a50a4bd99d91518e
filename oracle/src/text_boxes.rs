//! The text box in the names of embedded-text that the package for Rust has, where the library is linked: it draws what the crate's own
//! text box draws of the lines that are wholly inside it, the same strings at the same places.

use crate::compare::Sides;
use crate::model;
use crate::tally::Tally;
use bisquemop::embedded_text::*;
use bisquemop::Wrap;
use shape::{Drawn, Settings, PRINTED};

/// What is drawn, and where.
type Run = (String, i32, i32);

/// The box of the settings, by the crate's names.
fn box_of<'t>(settings: &Settings, text: &'t str) -> TextBox<'t> {
    let alignment = match settings.alignment {
        0 => HorizontalAlignment::Left,
        1 => HorizontalAlignment::Center,
        2 => HorizontalAlignment::Right,
        _ => HorizontalAlignment::Justified,
    };
    let vertical = match settings.vertical {
        0 => VerticalAlignment::Top,
        1 => VerticalAlignment::Middle,
        _ => VerticalAlignment::Bottom,
    };
    let style = TextBoxStyleBuilder::new()
        .alignment(alignment)
        .vertical_alignment(vertical)
        .line_height(LineHeight::Pixels(settings.spacing))
        .paragraph_spacing(settings.paragraph)
        .tab_size(TabSize::Pixels(settings.tab as u16))
        .leading_spaces(settings.leading == 1)
        .wrap(Wrap::Drop)
        .build();
    let bounds = Rectangle::new(0, settings.top, settings.width, settings.height);
    TextBox::with_textbox_style(text, bounds, Font::new(settings.glyph, settings.base), style)
}

/// A string that the crate drew: a part of the text, or its own "-".
fn run_of(text: &str, drawn: &Drawn) -> Run {
    let part = drawn.address.checked_sub(text.as_ptr() as usize).and_then(|start| text.get(start..start + drawn.len));
    (part.unwrap_or("-").into(), drawn.x, drawn.y)
}

impl Sides {
    /// The package's text box against the crate's, just drawn whole, in the domain. Where the crate takes the text for higher or lower
    /// than it is, which is told elsewhere, all of it stands elsewhere unless it is at the top.
    pub fn text_box(&mut self, settings: &Settings, text: &str, tally: &mut Tally) {
        let rule = model::height(settings, text.len() as u32, &self.model.lines);
        if settings.vertical != 0 && self.drawn_height != rule {
            return;
        }
        tally.text_boxes += 1;
        let shown = |drawn: &&Drawn| drawn.kind == PRINTED && drawn.len > 0 && model::shows(settings, drawn.y);
        let theirs: Vec<Run> = self.drawn.iter().filter(shown).map(|drawn| run_of(text, drawn)).collect();
        let mut ours: Vec<Run> = Vec::new();
        let mut screen = |run: &str, x: i32, y: i32| ours.push((run.into(), x, y));
        let (mut table, mut events) =
            (vec![0; bisquemop::table_room(text.len() + 1)], vec![0; bisquemop::events_room(text.len())]);
        let done = box_of(settings, text).draw(&mut screen, &mut table, &mut events).map(|done| done.dropped);
        if done.is_err() || ours != theirs {
            let details = || format!("  crate {theirs:?}\n  package {done:?} {ours:?}\n");
            Tally::note(&mut tally.unexplained, "the package's text box draws otherwise".into(), settings, text, details);
        }
    }
}
