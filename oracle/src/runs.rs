//! Many texts and settings, one after the other.

use crate::compare::Sides;
use crate::tally::Tally;
use crate::{random, EXAMPLE};
use shape::Settings;
use std::ops::RangeInclusive;
use std::time::Instant;

/// One character of each class, and letters of one to four bytes.
pub const ALPHABET: [char; 12] = ['a', ' ', '\u{2003}', '\u{a0}', '\u{200b}', '\u{ad}', '\t', '\n', '\r', 'é', '漢', '😀'];

/// The characters whose widths depend on one another in a line.
pub const DENSE: [char; 5] = ['a', ' ', '\t', '\u{a0}', '\u{ad}'];

/// What glues, which is of words, and what its widths depend on.
pub const GLUED: [char; 6] = ['a', ' ', '\u{a0}', '\u{2007}', '\u{202f}', '\n'];

/// A line on standard error, now and then.
pub struct Progress {
    begun: Instant,
    told: u64,
}

impl Progress {
    pub fn new() -> Self {
        Progress { begun: Instant::now(), told: 0 }
    }

    pub fn tell(&mut self, done: u64, of: u64, tally: &Tally) {
        let seconds = self.begun.elapsed().as_secs();
        if seconds >= self.told + 5 {
            self.told = seconds;
            eprintln!(
                "oracle: {seconds} s, {done} of {of}, {} layouts, {} unexplained",
                tally.cases,
                tally.unexplained.values().map(|found| found.count).sum::<u64>()
            );
        }
    }
}

pub fn scalars() -> bool {
    println!("every scalar value as a text of its own: its tokens, and its layout at the examples' settings");
    let (mut sides, mut tally, mut progress) = (Sides::default(), Tally::default(), Progress::new());
    let mut text = String::new();
    for (done, c) in ('\0'..=char::MAX).enumerate() {
        text.clear();
        text.push(c);
        sides.tokens(&text, &mut tally);
        sides.layout(&EXAMPLE, &text, true, &mut tally);
        // between letters, a character that is in no word stands alone
        text.insert(0, 'a');
        text.push('a');
        sides.tokens(&text, &mut tally);
        if done % 256 == 0 {
            progress.tell(done as u64, 1_112_064, &tally);
        }
    }
    tally.report()
}

/// How many settings there are for a glyph, a box and a tab: all alignments, with leading spaces on and off.
const TO_A_BOX: usize = 8;

/// All settings of some glyphs, boxes and tabs.
fn settings_over(glyphs: &[u32], widths: &[u32], tabs: &[u32]) -> Vec<Settings> {
    let mut all = Vec::new();
    for &glyph in glyphs {
        for &width in widths {
            for &tab in tabs {
                for alignment in 0..4 {
                    for leading in [1, 0] {
                        all.push(Settings { glyph, width, tab, alignment, leading, ..EXAMPLE });
                    }
                }
            }
        }
    }
    all
}

/// The settings of the short texts: where classes meet.
pub fn spread() -> Vec<Settings> {
    settings_over(&[6, 1], &[0, 5, 6, 12, 17, 18, 23, 30], &[0, 9, 24])
}

/// Those of the longer ones: boxes of one to five characters, without the ones that hold none or all.
fn meeting() -> Vec<Settings> {
    let mut all = settings_over(&[6], &[6, 12, 17, 18, 23, 30], &[0, 9, 24]);
    all.extend(settings_over(&[1], &[2, 3, 4, 5], &[0, 2, 3]));
    all
}

/// Those of the dense ones: boxes that a few characters fill, with some pixels left to spread.
fn narrow() -> Vec<Settings> {
    settings_over(&[1, 2], &[3, 4, 5, 7, 8, 11], &[3, 5])
}

/// Every text of up to some characters over the alphabet of all classes.
pub fn short(longest: u32) -> bool {
    every(&ALPHABET, 0..=longest, &spread(), usize::MAX)
}

/// Every text of a number of characters over that alphabet, each in some boxes of those that go round.
pub fn longer(length: u32, boxes: usize) -> bool {
    every(&ALPHABET, length..=length, &meeting(), boxes)
}

/// Every text of up to some characters whose widths depend on one another.
pub fn dense(longest: u32) -> bool {
    every(&DENSE, 0..=longest, &narrow(), usize::MAX)
}

/// Every text of up to some characters of words that are glued.
pub fn glued(longest: u32) -> bool {
    every(&GLUED, 0..=longest, &narrow(), usize::MAX)
}

/// Every text of some lengths over an alphabet, at the settings of some of the boxes, or of all if there are not so many.
fn every(alphabet: &[char], lengths: RangeInclusive<u32>, settings: &[Settings], boxes: usize) -> bool {
    let all_boxes = settings.len() / TO_A_BOX;
    let boxes = boxes.min(all_boxes);
    println!("every text of {lengths:?} characters over an alphabet of {}", alphabet.len());
    println!("at {} settings each, of {}", boxes * TO_A_BOX, settings.len());
    let (mut sides, mut tally, mut progress) = (Sides::default(), Tally::default(), Progress::new());
    let size = alphabet.len() as u64;
    let all: u64 = lengths.clone().map(|length| size.pow(length)).sum();
    let mut done = 0;
    let mut text = String::new();
    for length in lengths {
        for number in 0..size.pow(length) {
            text.clear();
            text.extend((0..length).map(|at| alphabet[(number / size.pow(at) % size) as usize]));
            sides.tokens(&text, &mut tally);
            // Where not all boxes have their turn, it is by chance with which one a text starts.
            let first = if boxes == all_boxes { 0 } else { random::Chance(number).below(all_boxes as u32) as usize };
            for turn in 0..boxes {
                let at = (first + turn * all_boxes / boxes) % all_boxes * TO_A_BOX;
                for settings in &settings[at..at + TO_A_BOX] {
                    // The slower checks see every text of up to 3 characters, and then one layout in 17.
                    let deep = length < 4 || tally.cases % 17 == 0;
                    sides.layout(settings, &text, deep, &mut tally);
                }
            }
            done += 1;
            if done % 64 == 0 {
                progress.tell(done, all, &tally);
            }
        }
    }
    tally.report()
}

/// Texts and settings by chance. The slower checks see all of them; one in 8 where the library is compared, too.
pub fn random(count: u64, seed: u64) -> bool {
    println!("{count} texts and settings by chance, seed {seed}");
    by_chance(count, seed, random::text)
}

/// The same with texts of up to 65,535 bytes.
pub fn large(count: u64, seed: u64) -> bool {
    println!("{count} large texts and settings by chance, seed {seed}");
    by_chance(count, seed, random::large_text)
}

fn by_chance(count: u64, seed: u64, draw: fn(&mut random::Chance, &mut String)) -> bool {
    let mut chance = random::Chance(seed);
    let (mut sides, mut tally, mut progress) = (Sides::default(), Tally::default(), Progress::new());
    let mut text = String::new();
    for done in 0..count {
        draw(&mut chance, &mut text);
        let settings = random::settings(&mut chance);
        sides.tokens(&text, &mut tally);
        let deep = !cfg!(library) || done % 8 == 0;
        sides.layout(&settings, &text, deep, &mut tally);
        if done % 256 == 0 || text.len() > 2000 {
            progress.tell(done, count, &tally);
        }
    }
    tally.report()
}
