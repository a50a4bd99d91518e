//! What the rules keep inside the box, now that a tab goes no further than its edge (#102). The crate is asked nothing.

use crate::compare::Sides;
use crate::tally::Tally;
use crate::{model, show};
use shape::*;

/// The events of each line.
fn by_line(laid: &Laid) -> impl Iterator<Item = &[Event]> {
    let from = std::iter::once(0).chain(laid.upto.iter().copied());
    from.zip(&laid.upto).map(|(from, &upto)| &laid.events[from as usize..upto as usize])
}

impl Sides {
    /// No line is measured wider than the box; and no event ends past the box's right edge, but in a justified line with a character
    /// that glues.
    pub fn inside(&self, settings: &Settings, text: &str, laid: &Laid, tally: &mut Tally) {
        tally.held_inside += laid.lines.len() as u64;
        if laid.lines.iter().any(|line| line.width > settings.width) {
            let key = "a line by the rules is measured wider than the box".into();
            Tally::note(&mut tally.unexplained, key, settings, text, || show::laid(laid));
        }
        let past = |event: &&Event| event.x + event.width as i32 > settings.width as i32;
        let glues = |event: &Event| text[event.start as usize..event.end as usize].contains(model::glues);
        for events in by_line(laid) {
            let Some(first) = events.iter().find(past) else { continue };
            if settings.alignment == 3 && events.iter().any(glues) {
                let key = format!("a {} of a justified line that glues", ["space", "print", "move"][first.kind as usize]);
                Tally::note(&mut tally.past_edge, key, settings, text, || show::laid(laid));
            } else {
                let key = "an event by the rules ends outside the box".into();
                Tally::note(&mut tally.unexplained, key, settings, text, || show::laid(laid));
            }
        }
    }
}
