//! A recorded sample of the crate's answers, one case a line, for a replay with no Rust at hand.
//!
//! A line has decimal numbers with single spaces between them: six settings, the text's bytes, and the crate's tokens, lines and
//! events of it, each list after its length. Only cases in the domain of the comparison are recorded, where the crate does what the
//! scope says; the others are counted by reason.

use crate::runs::{spread, ALPHABET};
use crate::{compare, glue, model, random, EXAMPLE};
use shape::*;
use std::collections::HashSet;
use std::fmt::Write;

use embedded_text_checked::plugin::probe as checked;

/// What a line of the record may hold at most.
const MOST_BYTES: usize = 64;
const MOST_TOKENS: usize = 64;
const MOST_LINES: usize = 66;
const MOST_EVENTS: usize = 200;

/// The longest text by chance, in bytes.
const LONGEST: usize = 40;

/// Why a case is left out.
const REASONS: [&str; 4] = [
    "outside the domain: a tab does not fit, and carries the cursor to the edge here",
    "outside the domain: a cut run of spaces holds U+200B",
    "more tokens, lines or events than a line of this file may hold",
    "outside the domain: U+2007 or U+202F, which glue here and are spaces in the crate",
];
const TAB_BEYOND: usize = 0;
const CUT: usize = 1;
const TOO_LARGE: usize = 2;
const SPLIT: usize = 3;

/// The classes of character, as the header counts them.
const CLASSES: [&str; 12] = [
    "letters of one byte",
    "letters of two bytes",
    "letters of three bytes",
    "letters of four bytes",
    "U+0020",
    "other white space of a run",
    "U+00A0",
    "U+200B",
    "U+00AD",
    "tab",
    "LF",
    "CR",
];

fn class_of(c: char) -> usize {
    match c {
        ' ' => 4,
        '\u{a0}' => 6,
        '\u{200b}' => 7,
        '\u{ad}' => 8,
        '\t' => 9,
        '\n' => 10,
        '\r' => 11,
        c if model::is_white(c) => 5,
        c => c.len_utf8() - 1,
    }
}

/// How much of everything the sample has.
#[derive(Default)]
struct Coverage {
    /// Cases with a character of each class.
    classes: [u64; 12],
    /// Cases by alignment, and by leading spaces.
    alignments: [u64; 4],
    leading: [u64; 2],
    tokens: [u64; 6],
    /// Lines by alignment and end type.
    ends: [[u64; 4]; 4],
    events: [u64; 3],
    rests: u64,
    dropped: u64,
    widened: u64,
    extra: u64,
    moved: u64,
    cut_words: u64,
}

impl Coverage {
    fn count(&mut self, settings: &Settings, text: &str, tokens: &[Token], krate: &Laid, rules: &Laid) {
        let mut found = [false; 12];
        text.chars().for_each(|c| found[class_of(c)] = true);
        self.classes.iter_mut().zip(found).for_each(|(cases, found)| *cases += u64::from(found));
        self.alignments[settings.alignment as usize] += 1;
        self.leading[settings.leading as usize] += 1;
        tokens.iter().for_each(|token| self.tokens[token.kind as usize] += 1);
        for line in &krate.lines {
            self.ends[settings.alignment as usize][line.end as usize] += 1;
            self.rests += u64::from(line.rest_end > 0);
            self.widened += u64::from(line.space > settings.glyph);
            self.extra += u64::from(line.extra > 0);
            self.moved += u64::from(line.left > 0);
            let inside = |token: &Token| token.kind == WORD && token.start < line.start && line.start < token.end;
            self.cut_words += u64::from(tokens.iter().any(inside));
        }
        krate.events.iter().for_each(|event| self.events[event.kind as usize] += 1);
        self.dropped += rules.extents.iter().filter(|extent| extent.dropped > 0).count() as u64;
    }

    fn header(&self, out: &mut String) {
        let mut say = |words: String| writeln!(out, "# {words}").unwrap();
        for (name, cases) in CLASSES.iter().zip(&self.classes) {
            say(format!("cases with {name}: {cases}"));
        }
        let [left, centre, right, justified] = self.alignments;
        say(format!("cases aligned left {left}, centre {centre}, right {right}, justified {justified}"));
        let [off, on] = self.leading;
        say(format!("cases with leading spaces off {off}, on {on}"));
        let [new_line, carriage_return, tab, white, word, soft] = self.tokens;
        say(format!(
            "tokens: NewLine {new_line}, CarriageReturn {carriage_return}, Tab {tab}, Whitespace {white}, Word {word}, Break {soft}"
        ));
        for (name, ends) in ["left", "centre", "right", "justified"].iter().zip(&self.ends) {
            let [new_line, carriage_return, end, full] = ends;
            say(format!("lines {name}: NewLine {new_line}, CarriageReturn {carriage_return}, EndOfText {end}, LineBreak {full}"));
        }
        let [space, printed, moves] = self.events;
        say(format!("events: space {space}, printed {printed}, move {moves}"));
        say(format!(
            "lines that start with a rest {}, that start within a cut word {}, that drop a word {}",
            self.rests, self.cut_words, self.dropped
        ));
        say(format!(
            "lines placed right of the box's left side {}, with widened spaces {}, with extra pixels {}",
            self.moved, self.widened, self.extra
        ));
    }
}

/// The sample as it grows.
#[derive(Default)]
struct Sample {
    cases: Vec<String>,
    seen: HashSet<([u32; 6], String)>,
    left_out: [u64; 4],
    coverage: Coverage,
    apart: model::Text,
    tokens: Vec<Token>,
    krate: Laid,
    rules: Laid,
    measure: Vec<Event>,
}

/// The settings that a layout of the crate depends on, and 0 for the one that is retired and keeps its place.
fn six(s: &Settings) -> [u32; 6] {
    [s.glyph, s.width, s.tab, s.alignment, s.leading, 0]
}

impl Sample {
    /// Lays one text by the crate, and by the rules to know why it is left out, if it is.
    fn lay(&mut self, settings: &Settings, text: &str) -> Result<(), usize> {
        if glue::splits(text) {
            return Err(SPLIT);
        }
        self.apart.take_apart(text);
        self.apart.tokens(&mut self.tokens);
        let by_rules = self.tokens.clone();
        checked::tokens(text, &mut self.tokens);
        assert_eq!(self.tokens, by_rules, "the crate has other tokens");

        let outside = checked::lay(settings, text, true, &mut self.krate);
        assert!(!outside.endless, "the crate does not end");
        if model::lay(settings, model::Ways::default(), &self.apart, &mut self.measure, &mut self.rules) {
            return Err(TAB_BEYOND);
        }
        assert!(!outside.overflow, "the crate stops on an overflow where every tab fits");
        if outside.cut_zero_width {
            return Err(CUT);
        }
        assert_eq!(compare::difference(&self.krate, &self.rules), None, "a difference that is not explained");
        let large =
            self.tokens.len() > MOST_TOKENS || self.krate.lines.len() > MOST_LINES || self.krate.events.len() > MOST_EVENTS;
        if large || text.len() > MOST_BYTES {
            Err(TOO_LARGE)
        } else {
            Ok(())
        }
    }

    /// Adds a case, if it is a new one and not to be left out.
    fn add(&mut self, settings: &Settings, text: &str) {
        if !self.seen.insert((six(settings), text.into())) {
            return;
        }
        match self.lay(settings, text) {
            Err(reason) => self.left_out[reason] += 1,
            Ok(()) => {
                self.coverage.count(settings, text, &self.tokens, &self.krate, &self.rules);
                self.cases.push(line(settings, text, &self.tokens, &self.krate));
            }
        }
    }
}

/// A case as the file has it.
fn line(settings: &Settings, text: &str, tokens: &[Token], laid: &Laid) -> String {
    let mut numbers: Vec<i64> = six(settings).map(i64::from).into();
    numbers.push(text.len() as i64);
    numbers.extend(text.bytes().map(i64::from));
    numbers.push(tokens.len() as i64);
    for t in tokens {
        numbers.extend([t.kind, t.start, t.end, t.count].map(i64::from));
    }
    numbers.push(laid.lines.len() as i64);
    for l in &laid.lines {
        numbers.extend([l.start, l.rest_end, l.rest_count, l.end].map(i64::from));
        numbers.push(l.left.into());
        numbers.extend([l.space, l.extra, l.width].map(i64::from));
    }
    numbers.push(laid.events.len() as i64);
    for e in &laid.events {
        numbers.extend([e.kind, e.start, e.end, e.count, e.width].map(i64::from));
        numbers.push(e.x.into());
    }
    assert!(numbers.iter().all(|&n| n >= 0), "a number below 0 in the domain");
    numbers.iter().map(i64::to_string).collect::<Vec<_>>().join(" ")
}

/// The scope's examples, in its order.
fn examples() -> Vec<(Settings, &'static str)> {
    let wide = |width| Settings { width, ..EXAMPLE };
    vec![
        (wide(30), ""),
        (wide(30), "     ab"),
        (wide(30), "abcdefg"),
        (wide(5), "abc"),
        (wide(6), "abc"),
        (wide(18), "abc   d"),
        (wide(30), "abcd\tx"),
        (wide(24), "ab\u{ad}cd"),
        (wide(23), "ab\u{ad}cd"),
        (wide(17), "ab\u{ad}cd"),
        (wide(30), "a\u{a0}b"),
        (wide(30), " \u{200b} "),
        (Settings { alignment: 3, leading: 0, ..wide(51) }, "aa bb cc dd"),
        (wide(30), "aa\nbb\ncc"),
        (wide(30), "aa\nxbb\ncc"),
        (wide(30), "ab cde"),
        (wide(30), "ab cd"),
    ]
}

/// Every text of so many characters of the alphabet.
fn texts_of(length: u32) -> impl Iterator<Item = String> {
    let size = ALPHABET.len();
    (0..size.pow(length)).map(move |number| (0..length).map(|at| ALPHABET[number / size.pow(at) % size]).collect())
}

/// Writes a sample of some cases to standard output: the examples; every text of up to 2 characters of the alphabet at six of
/// the settings where classes meet, and of 3 at one; and then texts and settings by chance.
pub fn write(cases: usize, seed: u64) -> bool {
    let mut sample = Sample::default();
    let mut chance = random::Chance(seed);
    for (settings, text) in examples() {
        sample.add(&settings, text);
    }
    let examples = sample.cases.len();
    let spread = spread();
    for (length, settings) in [(0, 6), (1, 6), (2, 6), (3, 1)] {
        for text in texts_of(length) {
            for _ in 0..settings {
                sample.add(&chance.pick(&spread), &text);
            }
        }
    }
    let short = sample.cases.len() - examples;
    let mut text = String::new();
    while sample.cases.len() < cases {
        random::text_upto(&mut chance, LONGEST, &mut text);
        sample.add(&random::settings(&mut chance), &text);
    }
    let by_chance = sample.cases.len() - examples - short;

    let mut out = String::new();
    let mut say = |words: String| writeln!(out, "# {words}").unwrap();
    say("Answers of the crate embedded-text 0.7.3, recorded, to be replayed against this library.".into());
    say(format!("Made by: scripts/oracle --record FILE --seed {seed} --cases {cases}"));
    say("The crate's own files were compiled unchanged, with the stand-ins that oracle/README.md lists.".into());
    say("A case a line: glyph width tab alignment leading 0, L and L bytes of text, T and T tokens (kind start end count),"
        .into());
    say("N and N lines (start, rest end, rest count, end type, left, space width, extra, width), E and E events (kind start end"
        .into());
    say("count width x). The numbers of kinds and end types are those of include/bisquemop.h; events: 0 space, 1 printed, 2 move.".into());
    say(format!("{} cases: {examples} examples of the scope, {short} short texts, {by_chance} by chance", sample.cases.len()));
    say(format!("left out: {}", sample.left_out.iter().sum::<u64>()));
    for (reason, count) in REASONS.iter().zip(sample.left_out) {
        say(format!("- {reason}: {count}"));
    }
    sample.coverage.header(&mut out);
    for case in &sample.cases {
        out.push_str(case);
        out.push('\n');
    }
    print!("{out}");
    let longest = sample.cases.iter().map(String::len).max().unwrap_or(0);
    eprintln!("oracle: recorded {} cases, {} bytes, the longest line {longest}", sample.cases.len(), out.len());
    true
}
