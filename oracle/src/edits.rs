//! Edits by chance, where the library is linked: laying again is held to the layout of the new text, entry by entry.

use crate::runs::Progress;
use crate::tally::Tally;
use crate::{model, random, show};
use bisquemop::{sys, Edit, Refusal};
use shape::*;

/// A line of a table.
type Entry = [u32; LINE_NUMBERS];

const START: usize = 0;
const REST_END: usize = 1;
const REST_COUNT: usize = 2;
const REACH: usize = 9;

/// What stands in a table past its lines.
const UNTOUCHED: u32 = 0xA5A5_A5A5;

/// A laid text. Its table has room for all lines that the text can have, and a few more.
struct Page {
    settings: Settings,
    text: String,
    table: Vec<u32>,
    lines: u64,
}

fn numbers(text: &str) -> usize {
    LINE_NUMBERS * (text.len() + 3)
}

impl Page {
    fn lay(settings: Settings, text: String) -> Self {
        let mut table = vec![UNTOUCHED; numbers(&text)];
        let lines = sys::layout(&settings, text.as_bytes(), &mut table).expect("a good text, good settings and room");
        Page { settings, text, table, lines }
    }

    fn entries(&self) -> Vec<Entry> {
        let rows = self.table.chunks_exact(LINE_NUMBERS).take(self.lines as usize);
        rows.map(|row| row.try_into().expect("as many numbers")).collect()
    }

    /// The ys of its lines, by a vertical alignment.
    fn index(&self, vertical: u32) -> Vec<i32> {
        let mut ys = vec![0; self.lines as usize];
        let settings = Settings { vertical, ..self.settings };
        sys::index(&settings, &self.table, self.lines, &mut ys).expect("a good table and room");
        ys
    }
}

/// An edit of a text, and what it puts in.
struct Change {
    edit: Edit,
    new: String,
}

/// Any place between two characters, ends included.
fn boundary(chance: &mut random::Chance, text: &str) -> usize {
    let mut at = chance.below(text.len() as u32 + 1) as usize;
    while !text.is_char_boundary(at) {
        at -= 1;
    }
    at
}

/// A change by chance: mostly a character or two typed or deleted, sometimes a stretch replaced.
fn change(chance: &mut random::Chance, old: &str) -> Change {
    let from = boundary(chance, old);
    let few = |chance: &mut random::Chance| old[from..].chars().take(chance.below(3) as usize).map(char::len_utf8).sum::<usize>();
    let to = match chance.below(4) {
        0 => from,
        1 | 2 => from + few(chance),
        _ => boundary(chance, old).max(from),
    };
    let mut inserted = String::new();
    match chance.below(4) {
        0 => {}
        1 | 2 => random::text_upto(chance, 4, &mut inserted),
        _ => random::text(chance, &mut inserted),
    }
    let new = [&old[..from], &inserted, &old[to..]].concat();
    Change { edit: Edit { a: from as u32, b: to as u32, inserted: inserted.len() as u32 }, new }
}

/// "Laying again": how many lines are laid until the start and the rest of the next one are those of an old line with start >= b,
/// all moved; or to the end.
fn laid_until(old: &[Entry], new: &[Entry], first: usize, edit: Edit) -> u64 {
    let moved = |offset: u32| offset - edit.b + edit.a + edit.inserted;
    let meets = |line: &Entry| {
        old.iter().filter(|entry| entry[START] >= edit.b).any(|entry| {
            let rest_end = if entry[REST_END] == 0 { 0 } else { moved(entry[REST_END]) };
            (line[START], line[REST_END], line[REST_COUNT]) == (moved(entry[START]), rest_end, entry[REST_COUNT])
        })
    };
    new[first..].iter().position(meets).unwrap_or(new.len() - first) as u64
}

/// What was found over many edits.
#[derive(Default)]
struct Found {
    edits: u64,
    lines: u64,
    laid: u64,
    kept: u64,
    moved: u64,
    refused: u64,
}

/// How a part of a wrong length is refused: it is no UTF-8; or the first affected line's rest does not stand in it, or counts more than
/// the characters there; or else for its length.
fn refused(part: &[u8], first: u64, entry: &Entry) -> Refusal {
    let text = match std::str::from_utf8(part) {
        Ok(text) => text,
        Err(error) => return Refusal::NotUtf8(error.valid_up_to() as u64),
    };
    let rest = entry[REST_END].saturating_sub(entry[START]) as usize;
    let stands = || text.is_char_boundary(rest) && entry[REST_COUNT] as usize <= text[..rest].chars().count();
    if (entry[REST_END], entry[REST_COUNT]) == (0, 0) || stands() {
        Refusal::BadEdit
    } else {
        Refusal::BadLine(first)
    }
}

/// Holds the index that is made again to the one of the new text, by a vertical alignment. At the top no y before the first affected
/// line is written.
fn hold_index(page: &Page, fresh: &Page, first: u64, vertical: u32, mut ys: Vec<i32>) -> Result<(), String> {
    let settings = Settings { vertical, ..page.settings };
    let mut expected = fresh.index(vertical);
    ys.resize(expected.len(), 0);
    if vertical == 0 && first > 0 {
        let last = first as usize - 1;
        (ys[last], expected[last]) = (i32::MIN, i32::MIN);
    }
    let answer = sys::index_again(&settings, &page.table, fresh.lines, first, &mut ys);
    if answer != Ok(fresh.lines) || ys != expected {
        return Err(format!("at vertical alignment {vertical} the index is {answer:?} {ys:?}, and not {expected:?}"));
    }
    Ok(())
}

/// Holds the pages that are listed again to those of the new text, by so many lines. No page before the first affected line's is
/// written.
fn hold_pages(page: &Page, fresh: &Page, old: &[Entry], first: usize, h: u32) -> Result<(), String> {
    let list = |entries: &[Entry], text: &str| {
        let starts: Vec<u32> = entries.iter().map(|entry| entry[START]).collect();
        model::pages(&starts, text.len() as u32, h).concat()
    };
    let (mut pages, mut expected) = (list(old, &page.text), list(&fresh.entries(), &fresh.text));
    let count = expected.len() / PAGE_NUMBERS;
    pages.resize(expected.len().max(pages.len()), UNTOUCHED);
    expected.extend_from_slice(&pages[expected.len()..]);
    if first >= h as usize {
        (pages[0], expected[0]) = (UNTOUCHED, UNTOUCHED);
    }
    let answer = sys::pages_again(&page.table, fresh.lines, h, first as u64, &mut pages);
    if answer != Ok(count as u64) || pages != expected {
        return Err(format!("by {h} lines the pages are {answer:?} {pages:?}, and not {expected:?}"));
    }
    Ok(())
}

/// Holds one edit to the layout of the new text. Says what is wrong, if anything is.
fn hold(page: &mut Page, change: Change, found: &mut Found) -> Result<(), String> {
    let Change { edit, new } = change;
    let (old, lines) = (page.entries(), page.lines);
    page.table.resize(page.table.len().max(numbers(&new)), UNTOUCHED);
    let fresh = Page::lay(page.settings, new);
    let expected = fresh.entries();

    let first = old.iter().position(|entry| entry[REACH] > edit.a).expect("the last reach is past every edit");
    let affected = sys::first_affected(&page.table, lines, edit);
    if affected != Ok(first as u64) {
        return Err(format!("the first affected line is {affected:?}, and not {first}"));
    }
    let part = &fresh.text.as_bytes()[old[first][START] as usize..];
    let old_ys = [0, 1, 2].map(|vertical| page.index(vertical));

    // A refusal writes nothing: a part of a wrong length, and a table without room for the last line.
    let before = page.table.clone();
    let short = if part.is_empty() { b"a" } else { &part[1..] };
    let answer = sys::lay_again(&page.settings, short, &mut page.table, lines, edit);
    if answer != Err(refused(short, first as u64, &old[first])) || page.table != before {
        return Err(format!("a part of a wrong length is answered {answer:?}"));
    }
    if expected.len() > old.len() {
        let room = LINE_NUMBERS * (expected.len() - 1);
        let answer = sys::lay_again(&page.settings, part, &mut page.table[..room], lines, edit);
        if answer != Err(Refusal::TooSmall(expected.len() as u64)) || page.table != before {
            return Err(format!("too small a table is answered {answer:?}"));
        }
        found.refused += 1;
    }

    let laid = laid_until(&old, &expected, first, edit);
    let answer = sys::lay_again(&page.settings, part, &mut page.table, lines, edit);
    if answer != Ok((fresh.lines, laid)) {
        return Err(format!("laying again answers {answer:?}, and not {} lines, {laid} laid", fresh.lines));
    }
    let count = LINE_NUMBERS * expected.len();
    if page.table[..count] != fresh.table[..count] {
        return Err(format!("laying again writes {:?}, and not {expected:?}", &page.table[..count]));
    }
    if page.table[count..] != before[count..] {
        return Err("entries past the new count do not hold what they held".into());
    }
    for (vertical, ys) in old_ys.into_iter().enumerate() {
        hold_index(page, &fresh, first as u64, vertical as u32, ys)?;
    }
    for h in [1, 2, 5] {
        hold_pages(page, &fresh, &old, first, h)?;
    }
    found.edits += 1;
    found.lines += fresh.lines;
    found.laid += laid;
    found.kept += first as u64;
    found.moved += fresh.lines - first as u64 - laid;
    page.text = fresh.text;
    page.lines = fresh.lines;
    Ok(())
}

/// How many edits each text goes through.
const EDITS: u64 = 8;

/// Texts and settings by chance, each text edited some times over. True if all that was laid again is the layout of the new text.
pub fn run(count: u64, seed: u64) -> bool {
    println!("{count} edits by chance, seed {seed}");
    let mut chance = random::Chance(seed);
    let (mut found, mut tally, mut progress) = (Found::default(), Tally::default(), Progress::new());
    let mut text = String::new();
    let mut apart = model::Text::default();
    let (mut measure, mut rules) = (Vec::new(), Laid::default());
    while found.edits < count && tally.unexplained.is_empty() {
        random::text(&mut chance, &mut text);
        let settings = random::settings_of_both(&mut chance);
        let mut page = Page::lay(settings, text.clone());
        for _ in 0..EDITS {
            let change = change(&mut chance, &page.text);
            let (old, edit, new) = (page.text.clone(), change.edit, change.new.clone());
            if let Err(words) = hold(&mut page, change, &mut found) {
                let details = || format!("  {edit:?} to {}\n  {words}\n", show::text(&new));
                Tally::note(&mut tally.unexplained, "laying again".into(), &settings, &old, details);
                break;
            }
            tally.cases += 1;
        }
        // The text that all the edits came to, by the rules.
        apart.take_apart(&page.text);
        model::lay(&settings, model::Ways::default(), &apart, &mut measure, &mut rules);
        if tally.unexplained.is_empty() && !rules.entries().eq(page.entries()) {
            Tally::note(&mut tally.unexplained, "the edited text".into(), &settings, &page.text, || show::laid(&rules));
        }
        progress.tell(found.edits, count, &tally);
    }
    println!("edits laid again             {}  ({} lines of the new texts)", found.edits, found.lines);
    println!("  lines kept, laid, moved    {} {} {}", found.kept, found.laid, found.moved);
    println!("  also refused for no room   {}", found.refused);
    tally.report_differences()
}
