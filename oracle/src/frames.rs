//! Lines laid one by one, where the library is linked: to the text's end they are those of the whole layout, and from any start and
//! rest, which no layout need have, they are the rules'.

use crate::runs::Progress;
use crate::tally::Tally;
use crate::{model, random, show};
use bisquemop::{sys, Refusal};
use shape::*;

type Entry = [u32; LINE_NUMBERS];

/// What an entry holds before a call.
const UNTOUCHED: u32 = 0xA5A5_A5A5;

/// What was found over many texts.
#[derive(Default)]
struct Found {
    texts: u64,
    lines: u64,
    from_rests: u64,
    starts: u64,
    starts_with_rest: u64,
    unmade: u64,
    refused: u64,
}

/// Holds all lines of a text, laid one by one, to the whole: after k calls the first k entries are there. Says what is wrong, if
/// anything is.
fn hold_lines(settings: &Settings, text: &str, whole: &[Entry], found: &mut Found) -> Result<(), String> {
    let opened = sys::open(settings, text.as_bytes());
    if opened != Ok(0) {
        return Err(format!("the opening answers {opened:?}"));
    }
    let mut stand = Stand::default();
    for (k, expected) in whole.iter().enumerate() {
        let mut entry = [UNTOUCHED; LINE_NUMBERS];
        let answer = sys::one_line(settings, text.as_bytes(), stand, &mut entry);
        let next = match whole.get(k + 1) {
            Some(line) => Stand { start: line[0], rest_end: line[1], rest_count: line[2] },
            None => Stand { start: text.len() as u32, ..Stand::default() },
        };
        if answer != Ok(next) || entry != *expected {
            return Err(format!("line {k} from {stand:?} is {entry:?}, {answer:?}, and not {expected:?}, {next:?}"));
        }
        found.from_rests += u64::from(stand.rest_end > 0);
        stand = next;
    }
    found.texts += 1;
    found.lines += whole.len() as u64;
    Ok(())
}

/// Whether one line can be laid from there, by Rust's own characters.
fn is_good(text: &str, from: Stand) -> bool {
    let (start, rest_end) = (from.start as usize, from.rest_end as usize);
    if !text.is_char_boundary(start) || (from.rest_end, from.rest_count) == (0, 0) {
        return text.is_char_boundary(start);
    }
    start < rest_end && text.is_char_boundary(rest_end) && from.rest_count as usize <= text[start..rest_end].chars().count()
}

/// A place of a text by chance, mostly between two characters, sometimes within one or past the end.
fn place(chance: &mut random::Chance, text: &str, from: u32) -> u32 {
    let at = from + chance.below((text.len() as u32 + 2).saturating_sub(from).max(1));
    if chance.below(4) == 0 {
        return at;
    }
    (at..)
        .find(|&at| at as usize >= text.len() || text.is_char_boundary(at as usize))
        .expect("there is an end")
        .min(text.len() as u32)
}

/// A start and a rest by chance, not all of them good.
fn stand(chance: &mut random::Chance, text: &str) -> Stand {
    let start = place(chance, text, 0);
    match chance.below(8) {
        0..=2 => Stand { start, ..Stand::default() },
        3 => Stand { start, rest_end: place(chance, text, 0), rest_count: chance.below(3) },
        4 => Stand { start, rest_end: chance.pick(&[0, start, u32::MAX, 65_536]), rest_count: chance.pick(&[0, 1, u32::MAX]) },
        _ => {
            let rest_end = place(chance, text, start);
            let count = text.get(start as usize..rest_end as usize).map_or(0, |rest| rest.chars().count() as u32);
            Stand { start, rest_end, rest_count: chance.below(count + 2) }
        }
    }
}

/// Holds the line from one start and rest to the rules: what is laid, or that it is refused and nothing written.
fn hold_start(settings: &Settings, text: &str, from: Stand, whole: &[Entry], found: &mut Found) -> Result<(), String> {
    let mut entry = [UNTOUCHED; LINE_NUMBERS + 2];
    let answer = sys::one_line(settings, text.as_bytes(), from, &mut entry);
    if !is_good(text, from) {
        found.refused += 1;
        let refused = answer == Err(Refusal::BadLine(0)) && entry == [UNTOUCHED; LINE_NUMBERS + 2];
        return if refused { Ok(()) } else { Err(format!("a bad {from:?} is answered {answer:?}, {entry:?}")) };
    }
    let mut rules = Laid::default();
    let next = model::lay_from(settings, text, from, &mut rules);
    let expected = rules.entries().next().expect("one line");
    if answer != Ok(next) || entry[..LINE_NUMBERS] != expected || entry[LINE_NUMBERS..] != [UNTOUCHED; 2] {
        return Err(format!("the line from {from:?} is {entry:?}, {answer:?}, and not {expected:?}, {next:?}"));
    }
    found.starts += 1;
    found.starts_with_rest += u64::from(from.rest_end > 0);
    found.unmade += u64::from(!whole.iter().any(|line| line[..3] == expected[..3]));
    Ok(())
}

/// How many starts each text is laid from.
const STARTS: u64 = 8;

/// Texts and settings by chance. True if all lines are those of the whole, or the rules'.
pub fn run(count: u64, seed: u64) -> bool {
    println!("{count} texts by chance, laid line by line, and {STARTS} starts of each, seed {seed}");
    let mut chance = random::Chance(seed);
    let (mut found, mut tally, mut progress) = (Found::default(), Tally::default(), Progress::new());
    let mut text = String::new();
    let (mut apart, mut measure, mut rules) = (model::Text::default(), Vec::new(), Laid::default());
    while found.texts < count && tally.unexplained.is_empty() {
        random::text(&mut chance, &mut text);
        let settings = random::settings_of_both(&mut chance);
        apart.take_apart(&text);
        model::lay(&settings, model::Ways::default(), &apart, &mut measure, &mut rules);
        let whole: Vec<Entry> = rules.entries().collect();
        let mut note = |held: Result<(), String>, what: &str| {
            if let Err(words) = held {
                let details = || format!("  {words}\n rules:\n{}", show::laid(&rules));
                Tally::note(&mut tally.unexplained, what.into(), &settings, &text, details);
            }
        };
        note(hold_lines(&settings, &text, &whole, &mut found), "lines one by one");
        for _ in 0..STARTS {
            let from = stand(&mut chance, &text);
            note(hold_start(&settings, &text, from, &whole, &mut found), "a line from any start");
        }
        tally.cases += 1;
        progress.tell(found.texts, count, &tally);
    }
    println!("texts laid line by line      {}  ({} lines, {} of them after a rest)", found.texts, found.lines, found.from_rests);
    println!(
        "lines from any start         {}  ({} after a rest, {} that no layout has)",
        found.starts, found.starts_with_rest, found.unmade
    );
    println!("  refused for start or rest  {}", found.refused);
    tally.report_differences()
}
