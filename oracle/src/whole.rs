//! The crate's whole text box, held to the line by line run, and its height, held to rule 11.

use crate::compare::Sides;
use crate::model;
use crate::tally::{Tally, ALIGNMENTS};
use shape::*;

use embedded_text_checked::plugin::probe as checked;

impl Sides {
    /// The crate's whole text box must draw what the line by line run gave, and its height is held to rule 11.
    pub fn whole(&mut self, settings: &Settings, text: &str, tally: &mut Tally) {
        (self.drawn, self.drawn_height) = checked::draw(settings, text);
        let (drawn, height) = (&self.drawn, self.drawn_height);
        tally.drawn += 1;
        let ys = model::places(settings, height, &self.krate.lines);
        let mut expected = Vec::new();
        let mut from = 0;
        for (y, upto) in ys.into_iter().zip(&self.krate.upto) {
            for event in &self.krate.events[from..*upto as usize] {
                match event.kind {
                    SPACE if event.width > 0 => {
                        expected.push(Drawn { kind: SPACE, address: 0, len: 0, width: event.width, x: event.x, y });
                    }
                    PRINTED => {
                        let (start, end) = (event.start as usize, event.end as usize);
                        let (address, len) = (text.as_ptr() as usize + start, end - start);
                        let hyphen = &text[start..end] == "\u{ad}";
                        let (address, len) = if hyphen { (0, 1) } else { (address, len) };
                        expected.push(Drawn { kind: PRINTED, address, len, width: 0, x: event.x, y });
                    }
                    _ => {}
                }
            }
            from = *upto as usize;
        }
        let within = text.as_ptr() as usize..=text.as_ptr() as usize + text.len();
        let same = drawn.len() == expected.len()
            && drawn.iter().zip(&expected).all(|(d, e)| {
                // the crate's own "-" stands anywhere but in the text
                let own = e.kind == PRINTED && e.address == 0 && !within.contains(&d.address);
                *d == if own { Drawn { address: d.address, ..*e } } else { *e }
            });
        if !same {
            let details = || format!("  drawn {drawn:?}\n  line by line {expected:?}\n");
            Tally::note(&mut tally.unexplained, "the whole text box draws otherwise".into(), settings, text, details);
        }

        tally.heights += 1;
        let rule = model::height(settings, text.len() as u32, &self.model.lines);
        let by_measures = model::height_by_measures(settings, &self.text, &mut self.measure);
        let details = || format!("  height crate {height}, rules {rule}\n{}", self.both());
        if height != by_measures {
            Tally::note(
                &mut tally.unexplained,
                format!("text height, where {by_measures} was expected"),
                settings,
                text,
                details,
            );
        } else if height != rule {
            let reason = if height == model::height_by_widths(settings, &self.krate.lines) {
                "a LineBreak before an empty line adds nothing"
            } else {
                "the crate's lines of the height are not those that it draws"
            };
            let more = if height > rule { "above" } else { "below" };
            let key =
                format!("text height (rule 11), {reason}: the crate's is {more}, {}", ALIGNMENTS[settings.alignment as usize]);
            Tally::note(&mut tally.explained, key, settings, text, details);
        }
    }
}
