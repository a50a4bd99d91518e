//! Words that wait (#101). The crate knows no such setting and is asked nothing: the library is held to the rules, and the rules to
//! what the request promises of them.

use crate::compare::{difference, Sides};
use crate::tally::Tally;
use crate::{model, show};
use shape::*;

fn drops(laid: &Laid) -> bool {
    laid.extents.iter().any(|extent| extent.dropped > 0)
}

impl Sides {
    /// The case that was just laid by the old rule, where words wait. Where the old rule drops nothing both are the same; left
    /// aligned and in a box at least a glyph wide nothing is dropped.
    pub fn waits(&mut self, settings: &Settings, text: &str, deep: bool, tally: &mut Tally) {
        let settings = &Settings { wrap: 1, ..*settings };
        model::lay(settings, model::Ways::default(), &self.text, &mut self.measure, &mut self.waiting);
        tally.waiting += 1;
        self.inside(settings, text, &self.waiting, tally);
        self.counts(settings, text, &self.waiting, tally);
        let other = difference(&self.model, &self.waiting);
        let details = || format!(" old rule:\n{} words wait:\n{}", show::laid(&self.model), show::laid(&self.waiting));
        if drops(&self.model) {
            tally.waiting_other += u64::from(other.is_some());
        } else if let Some(field) = other {
            let key = format!("where words wait and the old rule drops nothing, first in {field}");
            Tally::note(&mut tally.unexplained, key, settings, text, details);
        } else {
            tally.waiting_same += 1;
        }
        if settings.alignment == 0 && settings.glyph <= settings.width {
            tally.kept_whole += u64::from(drops(&self.model));
            if drops(&self.waiting) {
                let key = "dropped where words wait, left aligned, with room for a glyph".into();
                Tally::note(&mut tally.unexplained, key, settings, text, details);
            }
        }
        #[cfg(library)]
        self.library_layout(settings, text, deep, tally);
        #[cfg(not(library))]
        let _ = deep;
    }
}
