//! A width for so many lines, where the library is linked: whether a text fits is held to the rules' lines, and the width that is
//! proposed to the rules' layouts by every width up to it.

use crate::runs::Progress;
use crate::tally::Tally;
use crate::{model, random, show};
use bisquemop::sys;
use shape::*;

/// What was found over many texts.
#[derive(Default)]
struct Found {
    texts: u64,
    fits: u64,
    planned: u64,
    none: u64,
}

/// A text taken apart, and what it takes to lay it.
#[derive(Default)]
struct Sheet {
    text: String,
    apart: model::Text,
    measure: Vec<Event>,
    rules: Laid,
}

impl Sheet {
    /// Whether the text has at most so many lines by these settings, and none that drops anything.
    fn fits(&mut self, settings: &Settings, h: u32) -> bool {
        model::lay(settings, model::Ways::default(), &self.apart, &mut self.measure, &mut self.rules);
        self.rules.lines.len() <= h as usize && self.rules.extents.iter().all(|extent| extent.dropped == 0)
    }

    fn smallest_width(&mut self, settings: &Settings, h: u32) -> Option<u32> {
        (0..=4096).find(|&width| self.fits(&Settings { width, ..*settings }, h))
    }
}

/// One text in this many has a width proposed.
const SELDOM: u64 = 8;

fn hold(settings: &Settings, sheet: &mut Sheet, h: u32, found: &mut Found) -> Result<(), String> {
    let expected = sheet.fits(settings, h);
    let answer = sys::columns_fit(settings, sheet.text.as_bytes(), h);
    if answer != Ok(expected) {
        return Err(format!("whether it fits {h} lines is {answer:?}, and not {expected}"));
    }
    found.fits += u64::from(expected);
    if found.texts % SELDOM == 0 {
        let width = sheet.smallest_width(settings, h);
        let answer = sys::columns_plan(settings, sheet.text.as_bytes(), h);
        if answer != Ok(width) {
            return Err(format!("the width for {h} lines is {answer:?}, and not {width:?}"));
        }
        found.planned += u64::from(width.is_some());
        found.none += u64::from(width.is_none());
    }
    Ok(())
}

/// Texts, settings and limits by chance. True if all answers are the rules'.
pub fn run(count: u64, seed: u64) -> bool {
    println!("{count} texts by chance in so many lines, and a width for one in {SELDOM}, seed {seed}");
    let mut chance = random::Chance(seed);
    let (mut found, mut tally, mut progress) = (Found::default(), Tally::default(), Progress::new());
    let mut sheet = Sheet::default();
    while found.texts < count && tally.unexplained.is_empty() {
        let settings = random::settings_of_both(&mut chance);
        random::text(&mut chance, &mut sheet.text);
        sheet.apart.take_apart(&sheet.text);
        let h = if chance.below(8) == 0 { u32::MAX } else { 1 + chance.below(4) };
        if let Err(words) = hold(&settings, &mut sheet, h, &mut found) {
            let details = || format!("  {words}\n rules:\n{}", show::laid(&sheet.rules));
            Tally::note(&mut tally.unexplained, "columns".into(), &settings, &sheet.text, details);
        }
        found.texts += 1;
        tally.cases += 1;
        progress.tell(found.texts, count, &tally);
    }
    println!("texts in so many lines       {}  ({} fit and lose nothing)", found.texts, found.fits);
    println!("widths proposed              {}, and none {}", found.planned, found.none);
    tally.report_differences()
}
