//! U+2007 and U+202F (#103). They hold words together here and are spaces in the crate, which is asked nothing of a text that has
//! one: the library is held to the rules, and the rules to what the request promises of them.

use crate::compare::{difference, Sides};
use crate::tally::Tally;
use crate::{model, show};
use shape::*;

/// The two, by which the crate splits a text.
fn splits_at(c: char) -> bool {
    matches!(c, '\u{2007}' | '\u{202f}')
}

pub fn splits(text: &str) -> bool {
    text.contains(splits_at)
}

/// Where each offset of a text lies in one of as many characters. What is looked at may end one past the text.
fn places(from: &str, to: &str) -> Vec<u32> {
    let mut places = vec![0; from.len() + 2];
    for ((at, _), (place, _)) in from.char_indices().zip(to.char_indices()) {
        places[at] = place as u32;
    }
    places[from.len()] = to.len() as u32;
    places[from.len() + 1] = to.len() as u32 + 1;
    places
}

/// A layout, moved from one text to another of as many characters.
fn carry(laid: &mut Laid, places: &[u32]) {
    let carried = |at: u32| places[at as usize];
    for line in &mut laid.lines {
        line.start = carried(line.start);
        line.rest_end = carried(line.rest_end);
    }
    for extent in &mut laid.extents {
        extent.reach = carried(extent.reach);
    }
    for event in &mut laid.events {
        event.start = carried(event.start);
        event.end = carried(event.end);
    }
}

impl Sides {
    /// The case that was just laid by the rules, with U+00A0 in place of the two: it is the same, but for the bytes of each.
    pub fn like_no_break(&mut self, settings: &Settings, text: &str, deep: bool, tally: &mut Tally) {
        tally.glued += 1;
        Tally::note(&mut tally.outside, "U+2007 or U+202F".into(), settings, text, String::new);
        let other: String = text.chars().map(|c| if splits_at(c) { '\u{a0}' } else { c }).collect();
        let mut apart = model::Text::default();
        apart.take_apart(&other);
        model::lay(settings, model::Ways::default(), &apart, &mut self.measure, &mut self.other);
        carry(&mut self.other, &places(&other, text));
        if let Some(field) = difference(&self.model, &self.other) {
            let key = format!("U+2007 and U+202F are not laid as U+00A0 is, first in {field}");
            let details = || format!(" U+00A0:\n{} rules:\n{}", show::laid(&self.other), show::laid(&self.model));
            Tally::note(&mut tally.unexplained, key, settings, text, details);
        }
        #[cfg(library)]
        self.library_layout(settings, text, deep, tally);
        #[cfg(not(library))]
        let _ = deep;
    }
}
