//! Pages, and the choice between a long text and a short one, where the library is linked: both are those that the rules' lines give.

use crate::runs::Progress;
use crate::tally::Tally;
use crate::{model, random, show};
use bisquemop::{sys, Refusal, Which};
use shape::*;

/// What a buffer holds before a call.
const UNTOUCHED: u32 = 0xA5A5_A5A5;

/// What was found over many texts.
#[derive(Default)]
struct Found {
    texts: u64,
    pages: u64,
    kept: u64,
    long: u64,
    short: u64,
    parts: u64,
}

/// A text and its lines by the rules.
#[derive(Default)]
struct Page {
    text: String,
    rules: Laid,
}

impl Page {
    fn draw(&mut self, chance: &mut random::Chance, settings: &Settings) {
        random::text(chance, &mut self.text);
        let mut apart = model::Text::default();
        apart.take_apart(&self.text);
        model::lay(settings, model::Ways::default(), &apart, &mut Vec::new(), &mut self.rules);
    }

    fn starts(&self) -> Vec<u32> {
        self.rules.lines.iter().map(|line| line.start).collect()
    }
}

/// A limit of some lines for a text that has so many.
fn limit(chance: &mut random::Chance, lines: usize) -> u32 {
    match chance.below(6) {
        0 => lines as u32,
        1 => lines as u32 + 1,
        2 => chance.pick(&[1, u32::MAX, 65_536]),
        _ => 1 + chance.below(lines as u32),
    }
}

/// Holds the table and the pages of a text to the rules; that nothing is written where a page has no room; and pages listed again from
/// some line on, where those before that line's page hold something else.
fn hold_pages(settings: &Settings, page: &Page, h: u32, first: u64, found: &mut Found) -> Result<(), String> {
    let lines: Vec<u32> = page.rules.entries().flatten().collect();
    let list = model::pages(&page.starts(), page.text.len() as u32, h);
    let (count, expected) = (list.len() as u64, list.concat());
    let (mut table, mut pages) = (vec![UNTOUCHED; lines.len()], vec![UNTOUCHED; expected.len()]);
    let room = pages.len() - 1;
    let answer = sys::pages(settings, page.text.as_bytes(), h, &mut table, &mut pages[..room]);
    if answer != Err(Refusal::TooSmall(count)) || table.iter().chain(&pages).any(|&number| number != UNTOUCHED) {
        return Err(format!("by {h} lines and in too little room the answer is {answer:?}, {pages:?}"));
    }
    let answer = sys::pages(settings, page.text.as_bytes(), h, &mut table, &mut pages);
    if answer != Ok((page.rules.lines.len() as u64, count)) || table != lines || pages != expected {
        return Err(format!("by {h} lines the pages are {answer:?} {pages:?}, and not {expected:?}"));
    }
    let line_count = page.rules.lines.len() as u64;
    let kept = if first < line_count { first / u64::from(h) } else { count } as usize;
    pages.fill(UNTOUCHED);
    let answer = sys::pages_again(&table, line_count, h, first, &mut pages);
    let (before, written) = pages.split_at(PAGE_NUMBERS * kept);
    if answer != Ok(count) || before.iter().any(|&number| number != UNTOUCHED) || written != &expected[before.len()..] {
        return Err(format!("by {h} lines and from line {first} on the pages are {answer:?} {pages:?}, and not {expected:?}"));
    }
    found.pages += count;
    found.kept += kept as u64;
    Ok(())
}

/// Holds the choice between two texts to the rules.
fn hold_choice(settings: &Settings, long: &Page, short: &Page, h: u32, found: &mut Found) -> Result<(), String> {
    let fits = long.rules.lines.len() <= h as usize;
    let part = model::taken(&short.starts(), &short.text, h);
    let expected = if fits {
        (Which::Long, long.text.len() as u64, 0)
    } else {
        (Which::Short, part.len() as u64, short.text[part.len()..].chars().count() as u64)
    };
    let answer = sys::choose(settings, long.text.as_bytes(), short.text.as_bytes(), h);
    if answer != Ok(expected) {
        return Err(format!(
            "for {h} lines, or else of {}, the choice is {answer:?}, and not {expected:?}",
            show::text(&short.text)
        ));
    }
    found.long += u64::from(fits);
    found.short += u64::from(!fits && part.len() == short.text.len());
    found.parts += u64::from(!fits && part.len() < short.text.len());
    Ok(())
}

/// Texts, settings and limits by chance. True if all pages and all choices are the rules'.
pub fn run(count: u64, seed: u64) -> bool {
    println!("{count} texts by chance, their pages, and the choice of each or another, seed {seed}");
    let mut chance = random::Chance(seed);
    let (mut found, mut tally, mut progress) = (Found::default(), Tally::default(), Progress::new());
    let (mut long, mut short) = (Page::default(), Page::default());
    while found.texts < count && tally.unexplained.is_empty() {
        let settings = random::settings_of_both(&mut chance);
        long.draw(&mut chance, &settings);
        short.draw(&mut chance, &settings);
        let lines = long.rules.lines.len();
        let first = u64::from(chance.below(lines as u32 + 2));
        let held = hold_pages(&settings, &long, limit(&mut chance, lines), first, &mut found)
            .and_then(|()| hold_choice(&settings, &long, &short, limit(&mut chance, lines), &mut found));
        if let Err(words) = held {
            let details = || format!("  {words}\n rules:\n{}", show::laid(&long.rules));
            Tally::note(&mut tally.unexplained, "pages".into(), &settings, &long.text, details);
        }
        found.texts += 1;
        tally.cases += 1;
        progress.tell(found.texts, count, &tally);
    }
    println!(
        "texts paged                  {}  ({} pages, of which {} were kept when listed again)",
        found.texts, found.pages, found.kept
    );
    println!("choices                      long {}, short {}, a part of the short one {}", found.long, found.short, found.parts);
    tally.report_differences()
}
