//! What was compared over many cases, and what was found.

use crate::show;
use shape::*;
use std::collections::BTreeMap;

pub const ALIGNMENTS: [&str; 4] = ["left", "centre", "right", "justified"];

/// How often something was found, and the smallest case of it.
pub struct Found {
    pub count: u64,
    chars: usize,
    settings: Settings,
    text: String,
    details: String,
}

impl Found {
    /// Text and settings. Of a large text only the start is told: the seed gives the whole.
    fn name(&self, all: bool) -> String {
        let start: String = self.text.chars().take(500).collect();
        let more = if start.len() < self.text.len() { format!(".. ({} characters)", self.chars) } else { String::new() };
        format!("{}{more} at {}", show::text(&start), show::settings(&self.settings, all))
    }
}

/// What was compared, and what was found.
#[derive(Default)]
pub struct Tally {
    /// Layouts that were looked at, those of them in the domain and compared, and what they are made of.
    pub cases: u64,
    pub compared: u64,
    pub lines: u64,
    pub events: u64,
    /// Texts whose tokens were compared, and the tokens.
    pub token_texts: u64,
    pub tokens: u64,
    /// Layouts that the crate's whole text box drew too.
    pub drawn: u64,
    pub heights: u64,
    /// Layouts outside the domain, and those of them that come out the same all the same.
    /// A tab that does not fit; of those, where the crate stops on an overflow.
    pub tabs: u64,
    pub tabs_same: u64,
    pub overflow: u64,
    pub overflow_same: u64,
    pub cut: u64,
    pub cut_same: u64,
    /// Layouts of texts with U+2007 or U+202F, which are not lent to the crate, and not counted among its token lists.
    pub glued: u64,
    /// Layouts where words wait; those of them that drop nothing by the old rule, and are the same; those that are others than by the
    /// old rule; and those that drop something by the old rule and, left aligned and with room for a glyph, must not.
    pub waiting: u64,
    pub waiting_same: u64,
    pub waiting_other: u64,
    pub kept_whole: u64,
    /// Layouts of the library that were held to the rules, all eleven numbers of a line and all events, by wrap; and those that were
    /// also held to the crate, in the domain.
    pub library: [u64; 2],
    pub library_crate: u64,
    /// Layouts of the library whose height and y were held to the rules.
    pub library_places: u64,
    /// Text boxes in the names of embedded-text that were held to the crate's.
    pub text_boxes: u64,
    /// Layouts that were lent to the crate without the guard, to see that it stops where it is said to.
    pub unguarded: u64,
    /// By alignment and end type, lines; by kind of event, events. All in the domain.
    pub ends: [[u64; 4]; 4],
    pub kinds: [u64; 3],
    pub rests: u64,
    pub dropped: u64,
    /// Lines by the rules, whose widths and events were held to the box; and the layouts that end past its right edge all the same.
    pub held_inside: u64,
    pub past_edge: BTreeMap<String, Found>,
    /// The smallest layouts outside the domain, by their reason.
    pub outside: BTreeMap<String, Found>,
    /// Differences that are explained, by their reason, and the others.
    pub explained: BTreeMap<String, Found>,
    pub unexplained: BTreeMap<String, Found>,
}

impl Tally {
    pub fn note(
        list: &mut BTreeMap<String, Found>,
        key: String,
        settings: &Settings,
        text: &str,
        details: impl FnOnce() -> String,
    ) {
        let chars = text.chars().count();
        // Of two cases of as many characters, the first found stays.
        match list.get_mut(&key) {
            Some(found) if found.chars <= chars => found.count += 1,
            before => {
                let count = before.map_or(0, |found| found.count) + 1;
                list.insert(key, Found { count, chars, settings: *settings, text: text.into(), details: details() });
            }
        }
    }

    /// Everything that was found, for people. True if nothing is unexplained.
    pub fn report(&self) -> bool {
        println!("layouts looked at            {}", self.cases);
        println!("  in the domain, compared    {}  ({} lines, {} events)", self.compared, self.lines, self.events);
        println!(
            "  outside: a tab too wide    {}  (the same all the same: {}; by the old rule, an overflow: {}, and then the same: {})",
            self.tabs, self.tabs_same, self.overflow, self.overflow_same
        );
        println!("  outside: U+200B in a cut   {}  (by rule 9 as stand-in the same all the same: {})", self.cut, self.cut_same);
        println!("  outside: U+2007 or U+202F  {}  (held to the rules with U+00A0 in their place)", self.glued);
        println!("token lists compared         {}  ({} tokens)", self.token_texts, self.tokens);
        println!("drawn by the whole text box  {}  (heights compared: {})", self.drawn, self.heights);
        println!("lent without the guard       {}", self.unguarded);
        println!(
            "where words wait             {}  (old rule drops nothing, the same: {}; other layouts: {})",
            self.waiting, self.waiting_same, self.waiting_other
        );
        println!("  left, room for a glyph     {} that drop by the old rule, and nothing where words wait", self.kept_whole);
        if cfg!(library) {
            let [dropping, waiting] = self.library;
            println!(
                "the library's layouts        {dropping} held to the rules, {} of them to the crate too; {waiting} where words wait",
                self.library_crate
            );
            println!("  with height and y          {}", self.library_places);
            println!("the package's text boxes     {} held to the crate's", self.text_boxes);
        } else {
            println!("the library is not linked: the crate was held to the rules alone");
        }
        if self.lines > 0 {
            for (name, ends) in ALIGNMENTS.iter().zip(&self.ends) {
                println!(
                    "lines {name:<9}  NewLine {} CarriageReturn {} EndOfText {} LineBreak {}",
                    ends[0], ends[1], ends[2], ends[3]
                );
            }
            println!("events  space {} printed {} move {}", self.kinds[0], self.kinds[1], self.kinds[2]);
            println!("lines with a rest {}, with dropped characters {}", self.rests, self.dropped);
        }
        println!("lines held inside the box    {}", self.held_inside);
        for (reason, found) in &self.past_edge {
            println!("past the right edge: {reason}: {} times, smallest {}", found.count, found.name(false));
            found.details.lines().for_each(|line| println!("{line}"));
        }
        for (reason, found) in &self.outside {
            println!("outside the domain: {reason}: {} times, smallest {}", found.count, found.name(false));
        }
        self.report_differences()
    }

    /// The differences alone. True if none is unexplained.
    pub fn report_differences(&self) -> bool {
        for (title, list) in [("explained", &self.explained), ("UNEXPLAINED", &self.unexplained)] {
            println!("differences, {title}: {}", list.values().map(|found| found.count).sum::<u64>());
            for (key, found) in list {
                println!("- {key}: {} times, smallest {}", found.count, found.name(key.contains("height")));
                // What is unexplained is told whole, however long it is.
                let most = if title == "explained" { 40 } else { usize::MAX };
                found.details.lines().take(most).for_each(|line| println!("{line}"));
            }
        }
        self.unexplained.is_empty()
    }
}
