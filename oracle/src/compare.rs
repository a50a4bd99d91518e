//! One case on every side.

#[cfg(library)]
use crate::library;
use crate::tally::{Tally, ALIGNMENTS};
use crate::{glue, model, show};
use shape::*;
use std::panic::{catch_unwind, AssertUnwindSafe};

use embedded_text_checked::plugin::probe as checked;
use embedded_text_wrapping::plugin::probe as wrapping;

/// What two layouts differ in first, in words; nothing if they are the same. Dropped characters, reach, the characters before a
/// line and which line an event belongs to are compared where both sides have them.
pub fn difference(one: &Laid, other: &Laid) -> Option<&'static str> {
    for (a, b) in one.lines.iter().zip(&other.lines) {
        if a != b {
            let fields = [
                (a.start == b.start, "start"),
                (a.rest_end == b.rest_end, "rest end"),
                (a.rest_count == b.rest_count, "rest count"),
                (a.width == b.width, "width"),
                (a.left == b.left, "left"),
                (a.space == b.space, "space width"),
                (a.extra == b.extra, "extra"),
                (a.end == b.end, "end type"),
            ];
            return fields.iter().find(|(same, _)| !same).map(|(_, name)| *name);
        }
    }
    for (a, b) in one.extents.iter().zip(&other.extents) {
        if a.dropped != b.dropped {
            return Some("dropped");
        }
        if a.reach != b.reach {
            return Some("reach");
        }
        if a.chars != b.chars {
            return Some("characters before it");
        }
    }
    if one.lines.len() != other.lines.len() {
        Some("number of lines")
    } else if one.events != other.events {
        Some("events")
    } else if one.upto != other.upto && !one.upto.is_empty() && !other.upto.is_empty() {
        Some("events of a line")
    } else {
        None
    }
}

/// The sides' layouts of one case.
#[derive(Default)]
pub struct Sides {
    pub text: model::Text,
    pub krate: Laid,
    pub model: Laid,
    /// By the rules where words wait, which the crate does not know.
    pub waiting: Laid,
    pub other: Laid,
    pub measure: Vec<Event>,
    crate_tokens: Vec<Token>,
    pub model_tokens: Vec<Token>,
    /// What the crate's whole text box drew last, and the height that it took the text for.
    pub drawn: Vec<Drawn>,
    pub drawn_height: u32,
    #[cfg(library)]
    pub library: library::Library,
}

const RULES: model::Ways = model::Ways { room_below_zero: false, tab_stays: false };

/// The old rule of a tab that does not fit, which is the crate's (#102).
const OLD_TAB: model::Ways = model::Ways { tab_stays: true, ..RULES };

/// The crate's way with such a tab that the rules did away with before: the remaining room is below 0 (rule 6).
const BELOW_ZERO: model::Ways = model::Ways { room_below_zero: true, ..OLD_TAB };

impl Sides {
    /// Takes a text apart, and compares its tokens.
    pub fn tokens(&mut self, text: &str, tally: &mut Tally) {
        self.text.take_apart(text);
        self.text.tokens(&mut self.model_tokens);
        if !glue::splits(text) {
            self.crate_tokens(text, tally);
        }
        #[cfg(library)]
        self.library_tokens(text, tally);
    }

    fn crate_tokens(&mut self, text: &str, tally: &mut Tally) {
        checked::tokens(text, &mut self.crate_tokens);
        tally.token_texts += 1;
        tally.tokens += self.crate_tokens.len() as u64;
        if self.crate_tokens != self.model_tokens {
            let details = || format!("  crate {:?}\n  rules {:?}\n", self.crate_tokens, self.model_tokens);
            Tally::note(&mut tally.unexplained, "tokens".into(), &crate::EXAMPLE, text, details);
        }
    }

    /// Lays a text, whose tokens were compared before, on every side, and compares; and then lays it where words wait. A deep look
    /// takes longer: the crate is also lent the case without a guard and draws the whole text box, and heights and y are compared.
    pub fn layout(&mut self, settings: &Settings, text: &str, deep: bool, tally: &mut Tally) {
        assert_eq!(settings.wrap, 0, "the crate knows the old rule alone");
        tally.cases += 1;
        let beyond = model::lay(settings, RULES, &self.text, &mut self.measure, &mut self.model);
        self.inside(settings, text, &self.model, tally);
        self.counts(settings, text, &self.model, tally);
        if glue::splits(text) {
            self.like_no_break(settings, text, deep, tally);
        } else {
            self.like_crate(settings, text, deep, beyond, tally);
        }
        self.waits(settings, text, deep, tally);
    }

    /// The case that was just laid by the rules, by the crate. Beyond: a tab does not fit.
    fn like_crate(&mut self, settings: &Settings, text: &str, deep: bool, beyond: bool, tally: &mut Tally) {
        let outside = checked::lay(settings, text, true, &mut self.krate);

        #[cfg(library)]
        if self.library_layout(settings, text, deep, tally) && outside == Outside::default() && !beyond {
            self.library_to_crate(settings, text, tally);
        }

        if deep {
            tally.unguarded += 1;
            let stopped = catch_unwind(AssertUnwindSafe(|| checked::lay(settings, text, false, &mut self.other))).is_err();
            if stopped != outside.overflow {
                let key =
                    format!("the crate {} where its measured width says otherwise", if stopped { "stops" } else { "goes on" });
                Tally::note(&mut tally.unexplained, key, settings, text, String::new);
            }
        }

        if outside.endless {
            Tally::note(&mut tally.unexplained, "the crate does not end".into(), settings, text, String::new);
        } else if beyond {
            self.old_tab(settings, text, deep, outside, tally);
        } else {
            self.hold_crate(settings, text, deep, outside, tally);
        }
    }

    /// Every tab fits: the crate's layout is the rules', without a way of its own.
    fn hold_crate(&mut self, settings: &Settings, text: &str, deep: bool, outside: Outside, tally: &mut Tally) {
        if outside.overflow {
            let key = "the crate stops on an overflow where every tab fits".into();
            Tally::note(&mut tally.unexplained, key, settings, text, String::new);
            return;
        }
        let differs = difference(&self.krate, &self.model);
        if outside.cut_zero_width {
            tally.cut += 1;
            Tally::note(&mut tally.outside, "U+200B in a cut run".into(), settings, text, String::new);
            tally.cut_same += u64::from(differs.is_none());
        } else {
            tally.compared += 1;
            self.count(settings, tally);
        }
        if let Some(field) = differs {
            let besides = if outside.cut_zero_width { ", U+200B in a cut" } else { "" };
            self.unexplained(settings, text, field, besides, tally);
        }
        if deep {
            self.whole(settings, text, tally);
            #[cfg(library)]
            self.text_box(settings, text, tally);
        }
    }

    /// A tab does not fit, which leaves the domain: the crate is held to the old rule, by which it goes.
    fn old_tab(&mut self, settings: &Settings, text: &str, deep: bool, outside: Outside, tally: &mut Tally) {
        tally.tabs += 1;
        Tally::note(&mut tally.outside, "a tab that does not fit".into(), settings, text, || self.both());
        let mut ours = std::mem::take(&mut self.model);
        tally.tabs_same += u64::from(!outside.overflow && difference(&self.krate, &ours).is_none());
        model::lay(settings, OLD_TAB, &self.text, &mut self.measure, &mut self.model);
        if outside.overflow {
            tally.overflow += 1;
            self.beyond(settings, text, tally);
        } else {
            if let Some(field) = difference(&self.krate, &self.model) {
                let cut = if outside.cut_zero_width { " and U+200B in a cut" } else { "" };
                self.unexplained(settings, text, field, &format!(", by the old rule of such a tab{cut}"), tally);
            }
            if deep {
                self.whole(settings, text, tally);
            }
        }
        std::mem::swap(&mut self.model, &mut ours);
    }

    fn count(&mut self, settings: &Settings, tally: &mut Tally) {
        tally.lines += self.krate.lines.len() as u64;
        tally.events += self.krate.events.len() as u64;
        for line in &self.krate.lines {
            tally.ends[settings.alignment as usize][line.end as usize] += 1;
            tally.rests += u64::from(line.rest_end > 0);
        }
        for event in &self.krate.events {
            tally.kinds[event.kind as usize] += 1;
        }
        tally.dropped += self.model.extents.iter().filter(|extent| extent.dropped > 0).count() as u64;
    }

    /// A line is measured wider than the box, and the crate goes on: the rules' layout with room below 0 is the crate's.
    fn explain(&mut self, settings: &Settings, text: &str, field: &str, besides: &str, tally: &mut Tally) {
        let laid = catch_unwind(AssertUnwindSafe(|| {
            model::lay(settings, BELOW_ZERO, &self.text, &mut self.measure, &mut self.other);
        }));
        let key = if laid.is_err() {
            format!("justified spaces of less than a pixel, which wrap around{besides}")
        } else if difference(&self.krate, &self.other).is_none() {
            let alignment = ALIGNMENTS[settings.alignment as usize];
            format!("the remaining room is below 0 (rule 6){besides}: first in {field}, {alignment}")
        } else {
            self.unexplained(settings, text, field, besides, tally);
            return;
        };
        Tally::note(&mut tally.explained, key, settings, text, || self.both());
    }

    fn unexplained(&self, settings: &Settings, text: &str, field: &str, besides: &str, tally: &mut Tally) {
        let key = format!("first in {field}, {}{besides}", ALIGNMENTS[settings.alignment as usize]);
        Tally::note(&mut tally.unexplained, key, settings, text, || self.both());
    }

    pub fn both(&self) -> String {
        format!(" crate:\n{} rules:\n{}", show::laid(&self.krate), show::laid(&self.model))
    }

    /// Outside the domain by such a tab and an overflow: the crate compiled to wrap around goes on.
    fn beyond(&mut self, settings: &Settings, text: &str, tally: &mut Tally) {
        let went_on = catch_unwind(AssertUnwindSafe(|| wrapping::lay(settings, text, false, &mut self.krate)));
        let Ok(outside) = went_on else {
            let key = "outside the domain, overflow: stops even with wrapping arithmetic".into();
            Tally::note(&mut tally.explained, key, settings, text, || format!(" rules:\n{}", show::laid(&self.model)));
            return;
        };
        match difference(&self.krate, &self.model) {
            None => tally.overflow_same += 1,
            Some(field) => {
                let cut = if outside.cut_zero_width { " and U+200B in a cut" } else { "" };
                self.explain(settings, text, field, &format!(", by the old rule of such a tab, overflow{cut}"), tally);
            }
        }
    }
}
