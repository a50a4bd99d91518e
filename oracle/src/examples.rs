//! The examples: those of the scope, by hand, and those of the definitions' tables, read from their files. Each is held to
//! the rules, and to the crate unless words wait or a tab does not fit.

use crate::{antt, glue, model, show, EXAMPLE};
use shape::*;

use embedded_text_checked::plugin::probe as checked;
use embedded_text_wrapping::plugin::probe as wrapping;

/// Claims that were looked at, and those that do not hold.
pub struct Claims {
    held: u32,
    failed: u32,
}

impl Claims {
    pub fn claim(&mut self, holds: bool, words: impl FnOnce() -> String) {
        if holds {
            self.held += 1;
        } else {
            self.failed += 1;
            println!("MISMATCH {}", words());
        }
    }

    #[cfg(library)]
    pub fn equal<T: PartialEq + std::fmt::Debug>(&mut self, words: &str, found: T, expected: T) {
        self.claim(found == expected, || format!("{words}\n  found    {found:?}\n  expected {expected:?}"));
    }
}

/// The tokens of a text, by the rules, and by the crate where U+2007 and U+202F do not keep it out of the domain.
fn tokens_by_side(text: &str) -> Vec<(&'static str, Vec<Token>)> {
    let mut apart = model::Text::default();
    apart.take_apart(text);
    let (mut krate, mut rules) = (Vec::new(), Vec::new());
    apart.tokens(&mut rules);
    if glue::splits(text) {
        return vec![("rules", rules)];
    }
    checked::tokens(text, &mut krate);
    vec![("crate", krate), ("rules", rules)]
}

/// The crate's layout, from the crate with wrapping arithmetic where a line is measured wider than the box: the crate that checks
/// its arithmetic stops there.
fn by_crate(settings: &Settings, text: &str) -> Laid {
    let mut laid = Laid::default();
    if checked::lay(settings, text, true, &mut laid).overflow {
        wrapping::lay(settings, text, false, &mut laid);
    }
    laid
}

/// The rules' layout, and whether a tab does not fit in it.
fn by_rules(settings: &Settings, text: &str) -> (Laid, bool) {
    let mut apart = model::Text::default();
    apart.take_apart(text);
    let mut laid = Laid::default();
    let beyond = model::lay(settings, model::Ways::default(), &apart, &mut Vec::new(), &mut laid);
    (laid, beyond)
}

/// Runs all of them. True if every claim holds.
pub fn run(specs: &str) -> bool {
    let mut all = true;
    for (name, part) in [
        ("the scope's examples", scope as fn(&mut Claims, &str)),
        ("moves of the cursor, tabs, and lines that show", cursors),
        ("layouts in Examples.antt", layouts),
        ("layouts after the edits in EditExamples.antt", edits),
        ("tokens in SmallExamples.antt", tokens),
        ("heights in SmallExamples.antt", heights),
        ("indexes of ys in IndexExamples.antt", indexes),
        #[cfg(library)]
        ("the library's calls and their refusals", crate::calls::run),
    ] {
        let mut claims = Claims { held: 0, failed: 0 };
        part(&mut claims, specs);
        println!("{name}: {} claims hold, {} do not", claims.held, claims.failed);
        all &= claims.failed == 0 && claims.held > 0;
    }
    all
}

fn file(specs: &str, name: &str) -> String {
    let path = format!("{specs}/{name}");
    std::fs::read_to_string(&path).unwrap_or_else(|cause| panic!("{path}: {cause}"))
}

/// The first eight of a line's eleven numbers, as a table writes them.
fn eight(line: &Line) -> Vec<u32> {
    vec![line.start, line.rest_end, line.rest_count, line.end, line.left as u32, line.space, line.extra, line.width]
}

fn six(event: &Event) -> Vec<u32> {
    vec![event.kind, event.start, event.end, event.count, event.width, event.x as u32]
}

/// All eleven numbers of each line.
fn eleven(laid: &Laid) -> Vec<Vec<u32>> {
    laid.entries().map(Vec::from).collect()
}

/// Holds the library to the same rows.
#[cfg(library)]
fn hold_library(claims: &mut Claims, settings: &Settings, text: &str, lines: &[Vec<u32>], events: Option<&[Vec<u32>]>) {
    let mut laid = Laid::default();
    let answer = crate::library::Library::default().lay(settings, text, &mut laid);
    let (found, drawn) = (eleven(&laid), laid.events.iter().map(six).collect::<Vec<_>>());
    claims.claim(answer.is_ok() && found == lines && events.map_or(true, |events| drawn == events), || {
        let name = format!("{} at {}", show::text(text), show::settings(settings, false));
        format!("layout of {name}\n  library {answer:?} {found:?} {drawn:?}\n  example {lines:?} {events:?}")
    });
}

/// Holds a side to the events of an example, where they are given.
fn hold_events(claims: &mut Claims, name: &str, side: &str, laid: &Laid, events: Option<&[Vec<u32>]>) {
    let Some(events) = events else { return };
    let found: Vec<_> = laid.events.iter().map(six).collect();
    claims.claim(found == events, || format!("events of {name}\n  {side}   {found:?}\n  example {events:?}"));
}

/// Holds the crate to the first eight numbers of each row.
fn hold_crate(claims: &mut Claims, settings: &Settings, text: &str, lines: &[Vec<u32>], events: Option<&[Vec<u32>]>) {
    let name = format!("{} at {}", show::text(text), show::settings(settings, false));
    let krate = by_crate(settings, text);
    let found: Vec<_> = krate.lines.iter().map(eight).collect();
    let first_eight: Vec<_> = lines.iter().map(|line| line[..8].to_vec()).collect();
    claims.claim(found == first_eight, || format!("lines of {name}\n  crate   {found:?}\n  example {first_eight:?}"));
    hold_events(claims, &name, "crate", &krate, events);
}

/// Holds the sides to rows of eleven numbers, and to rows of six where events are given.
fn hold(claims: &mut Claims, settings: &Settings, text: &str, lines: &[Vec<u32>], events: Option<&[Vec<u32>]>) {
    let name = format!("{} at {}", show::text(text), show::settings(settings, false));
    let (rules, beyond) = by_rules(settings, text);
    if settings.wrap == 0 && !beyond && !glue::splits(text) {
        hold_crate(claims, settings, text, lines, events);
    }
    let found = eleven(&rules);
    claims.claim(found == lines, || format!("lines of {name}\n  rules   {found:?}\n  example {lines:?}"));
    hold_events(claims, &name, "rules", &rules, events);
    #[cfg(library)]
    hold_library(claims, settings, text, lines, events);
}

/// Settings as the tables name them: `box 30`, `waitingBox 30`, `justifiedBox 51`, or `laidOut` by glyph, width, alignment, leading
/// and wrap.
fn settings_of(value: &antt::Value) -> Settings {
    let (name, values) = value.applied();
    let numbers: Vec<u32> = values.iter().map(antt::Value::number).collect();
    match (name, numbers.as_slice()) {
        ("box", &[width]) => Settings { width, ..EXAMPLE },
        ("justified_box", &[width]) => Settings { width, alignment: 3, leading: 0, ..EXAMPLE },
        ("waiting_box", &[width]) => Settings { width, wrap: 1, ..EXAMPLE },
        ("laid_out", &[glyph, width, alignment, leading, wrap]) => Settings { glyph, width, alignment, leading, wrap, ..EXAMPLE },
        (other, _) => panic!("settings {other} are not known"),
    }
}

fn layouts(claims: &mut Claims, specs: &str) {
    for example in antt::table(&file(specs, "Examples.antt"), "examples") {
        let (_, values) = example.applied();
        hold(claims, &settings_of(&values[0]), values[1].text(), &values[2].rows(), Some(&values[3].rows()));
    }
}

/// What laying again gives is the layout of the new text.
fn edits(claims: &mut Claims, specs: &str) {
    for example in antt::table(&file(specs, "EditExamples.antt"), "edit_examples") {
        let (_, values) = example.applied();
        let old = values[1].text();
        let (from, to) = (values[2].number() as usize, values[3].number() as usize);
        let new = [&old[..from], values[4].text(), &old[to..]].concat();
        hold(claims, &settings_of(&values[0]), &new, &values[7].rows(), None);
    }
}

fn tokens(claims: &mut Claims, specs: &str) {
    for example in antt::table(&file(specs, "SmallExamples.antt"), "token_examples") {
        let (_, values) = example.applied();
        let (text, rows) = (values[0].text(), values[1].rows());
        for (side, found) in tokens_by_side(text) {
            let found: Vec<_> = found.iter().map(|t| vec![t.kind, t.start, t.end, t.count]).collect();
            claims.claim(found == rows, || format!("tokens of {}\n  {side}   {found:?}\n  example {rows:?}", show::text(text)));
        }
    }
}

fn signed(value: &antt::Value) -> i32 {
    match value.applied() {
        ("pos", n) => n[0].number() as i32,
        ("negsuc", n) => -(n[0].number() as i32) - 1,
        other => panic!("{other:?} is no signed number"),
    }
}

/// Indexes of ys, and the line under a y, by the same settings as heights.
fn indexes(claims: &mut Claims, specs: &str) {
    for example in antt::table(&file(specs, "IndexExamples.antt"), "index_examples") {
        let (_, values) = example.applied();
        let (_, standing) = values[0].applied();
        let settings = Settings { height: standing[0].number(), vertical: standing[1].number(), ..EXAMPLE };
        let (text, y) = (values[1].text(), signed(&values[3]));
        let index: Vec<i32> = values[2].list().iter().map(signed).collect();
        let under = match values[4].applied() {
            ("Some", line) => Some(line[0].number().into()),
            _ => None,
        };
        let name = || format!("{} at {}", show::text(text), show::settings(&settings, true));
        let (laid, _) = by_rules(&settings, text);
        let ys = model::places(&settings, model::height(&settings, text.len() as u32, &laid.lines), &laid.lines);
        claims.claim(ys == index, || format!("index of {}: rules {ys:?}, example {index:?}", name()));
        let found = model::line_under(&ys, y);
        claims.claim(found == under, || format!("line under {y} of {}: rules {found:?}, example {under:?}", name()));
    }
}

/// Heights and the first two lines' y: spacing 10, paragraph 3, base 8, box top -5.
fn heights(claims: &mut Claims, specs: &str) {
    for example in antt::table(&file(specs, "SmallExamples.antt"), "height_examples") {
        let (_, values) = example.applied();
        let (_, standing) = values[0].applied();
        let settings = Settings { height: standing[0].number(), vertical: standing[1].number(), ..EXAMPLE };
        let text = values[1].text();
        let (height, first, second) = (values[2].number(), signed(&values[3]), signed(&values[4]));
        let name = || format!("{} at {}", show::text(text), show::settings(&settings, true));
        let (laid, _) = by_rules(&settings, text);
        let rule = model::height(&settings, text.len() as u32, &laid.lines);
        let ys = model::places(&settings, rule, &laid.lines);
        claims.claim((rule, ys[0], ys[1]) == (height, first, second), || {
            format!("height and y of {}: rules {rule} {ys:?}, example {height} {first} {second}", name())
        });
        let (drawn, by_crate) = checked::draw(&settings, text);
        claims.claim(by_crate == height, || format!("height of {}: crate {by_crate}, example {height}", name()));
        // The y of what the crate draws: every one of an example's lines draws something, but an empty last one.
        let mut found: Vec<i32> = drawn.iter().map(|d| d.y).collect();
        found.dedup();
        let mut expected = vec![first, second];
        expected.dedup();
        let same = if laid.events.len() == laid.upto[0] as usize { found == expected[..1] } else { found == expected };
        claims.claim(same, || format!("y of {}: crate {found:?}, example {expected:?}", name()));
    }
}

/// The cursors by themselves, over all small numbers and the largest: no layout moves back or asks which line shows.
fn cursors(claims: &mut Claims, _specs: &str) {
    claims.claim(checked::move_by(30, 24, 10, -11).1 == Err(-10), || "from 10, minus 11 answers a refused -10".into());
    for width in (0..12).chain([4096]) {
        for tab in [0, 1, 3, 4, 24, 4096] {
            let settings = Settings { width, tab, ..EXAMPLE };
            for position in (0..=width).filter(|&position| position < 12 || position > 4090) {
                for by in (-14..=14).chain([i32::MIN, -4097, -4096, 4090, 4096, 4097, i32::MAX]) {
                    let (answer, after) = model::moved(width, position, by);
                    // The crate's cursor stays where a move forward is too long, and ours goes to the edge (#102).
                    let beyond = by > 0 && answer.is_err();
                    claims.claim(!beyond || after == width, || format!("box {width}, from {position} by {by}: at {after}"));
                    let stands = if beyond { position } else { after };
                    let rules = (model::tab_width(&settings, position), answer, stands as i32);
                    let krate = checked::move_by(width, tab, position, by);
                    claims.claim(krate == rules, || {
                        format!("box {width} tab {tab}, from {position} by {by}: crate {krate:?}, rules {rules:?}")
                    });
                }
            }
        }
    }
    for base in [1, 2, 3, 64] {
        for height in (0..6).chain([4096]) {
            for top in [-4096, -3, -1, 0, 2, 4096] {
                let settings = Settings { base, height, top, ..EXAMPLE };
                for y in (top - 70..top + 10).chain([top + 4000, top + 4032, top + 4033, top + 4095, top + 4096]) {
                    let (krate, rules) = (checked::shows(&settings, y), model::shows(&settings, y));
                    claims.claim(krate == rules, || {
                        format!("y {y} at {}: crate shows {krate}, rules {rules}", show::settings(&settings, true))
                    });
                }
            }
        }
    }
}

/// The scope's own examples, in its order.
fn scope(claims: &mut Claims, _specs: &str) {
    let wide = |width| Settings { width, ..EXAMPLE };
    let sides = |settings: &Settings, text: &str| [("crate", by_crate(settings, text)), ("rules", by_rules(settings, text).0)];
    let starts = |laid: &Laid| laid.lines.iter().map(|line| line.start).collect::<Vec<_>>();
    let kinds = |laid: &Laid| laid.events.iter().map(|event| event.kind).collect::<Vec<_>>();
    let drawn = |laid: &Laid, text: &str| {
        let printed = |e: &Event| match &text[e.start as usize..e.end as usize] {
            "\u{ad}" => "-".to_string(),
            other => other.to_string(),
        };
        let mut from = 0;
        let mut lines = Vec::new();
        for &upto in &laid.upto {
            let events = &laid.events[from..upto as usize];
            lines.push(events.iter().filter(|e| e.kind == PRINTED).map(printed).collect::<String>());
            from = upto as usize;
        }
        lines
    };
    let mut claim = |holds: bool, side: &str, words: &str, laid: &Laid| {
        claims.claim(holds, || format!("{side}: {words}\n{}", show::laid(laid)));
    };

    for (side, laid) in sides(&wide(30), "") {
        claim(laid.lines.len() == 1 && laid.events.is_empty(), side, "\"\" box 30: one line, no events", &laid);
    }
    for (side, laid) in sides(&wide(30), "     ab") {
        let space = Event { kind: SPACE, start: 0, end: 5, count: 5, width: 30, x: 0 };
        claim(laid.events == [space], side, "\"     ab\" box 30: a 30 wide space", &laid);
        claim(laid.lines.len() == 2 && laid.lines[0].end == BY_LINE_BREAK, side, "\"     ab\" box 30: LineBreak", &laid);
        claim(
            laid.lines[1].start == 7 && laid.lines[1].end == BY_END_OF_TEXT,
            side,
            "\"     ab\" box 30: empty last line at 7",
            &laid,
        );
        claim(laid.extents.first().map_or(true, |extent| extent.dropped == 2), side, "\"     ab\" box 30: 2 dropped", &laid);
    }
    for (side, laid) in sides(&wide(30), "abcdefg") {
        claim(starts(&laid) == [0, 5], side, "\"abcdefg\" box 30: starts 0, 5", &laid);
    }
    for (side, laid) in sides(&wide(5), "abc") {
        let good = starts(&laid) == [0, 3] && laid.events.is_empty();
        claim(good, side, "\"abc\" box 5: all dropped, then an empty line", &laid);
        claim(laid.extents.first().map_or(true, |extent| extent.dropped == 3), side, "\"abc\" box 5: 3 dropped", &laid);
    }
    for (side, laid) in sides(&wide(6), "abc") {
        claim(starts(&laid) == [0, 1, 2], side, "\"abc\" box 6: starts 0, 1, 2", &laid);
    }
    for (side, laid) in sides(&wide(18), "abc   d") {
        let second = laid.lines[1];
        let good = (second.start, second.rest_end, second.rest_count) == (4, 6, 2);
        claim(good, side, "\"abc   d\" box 18: second line start 4, rest end 6, count 2", &laid);
        let last = laid.events.last().unwrap();
        claim(last.x + last.width as i32 == 18, side, "\"abc   d\" box 18: second line ends at 18", &laid);
    }
    let [(_, krate), (_, rules)] = sides(&wide(30), "abcd\tx");
    let good = drawn(&krate, "abcd\tx") == ["abcdx"] && krate.lines[0].width == 36;
    claim(good, "crate", "\"abcd\" tab \"x\" box 30: x is printed outside, width 36", &krate);
    let good = drawn(&rules, "abcd\tx") == ["abcd", "x"] && rules.lines[0].width == 24;
    claim(good, "rules", "\"abcd\" tab \"x\" box 30: x is on line two, width 24", &rules);
    let hyphened = "ab\u{ad}cd";
    for (side, laid) in sides(&wide(24), hyphened) {
        claim(laid.lines.len() == 1, side, "\"ab\" SHY \"cd\" box 24: one line", &laid);
    }
    for (side, laid) in sides(&wide(23), hyphened) {
        claim(drawn(&laid, hyphened) == ["ab-", "cd"], side, "\"ab\" SHY \"cd\" box 23: ab-, cd", &laid);
    }
    for (side, laid) in sides(&wide(17), hyphened) {
        let good = drawn(&laid, hyphened) == ["ab", "-c", "d"] && starts(&laid) == [0, 2, 5];
        claim(good, side, "\"ab\" SHY \"cd\" box 17: ab, -c, d with starts 0, 2, 5", &laid);
    }
    for (side, laid) in sides(&wide(30), "a\u{a0}b") {
        let good = kinds(&laid) == [PRINTED, SPACE, PRINTED] && laid.events[1].width == 6;
        claim(good, side, "\"a\" NBSP \"b\" box 30: printed, space 6, printed", &laid);
    }
    let justified = Settings { alignment: 3, leading: 0, ..wide(51) };
    for (side, laid) in sides(&justified, "aa bb cc dd") {
        let first = &laid.events[..laid.upto[0] as usize];
        let spaces: Vec<u32> = first.iter().filter(|e| e.kind == SPACE && e.width > 0).map(|e| e.width).collect();
        claim(spaces == [8, 7], side, "justified \"aa bb cc dd\" box 51: spaces 8 and 7", &laid);
        let end = first.last().map_or(0, |e| e.x + e.width as i32);
        claim(end == 51, side, "justified \"aa bb cc dd\" box 51: first line ends at 51", &laid);
    }
    for (side, laid) in sides(&wide(30), "aa\nxbb\ncc") {
        claim(starts(&laid) == [0, 3, 7], side, "\"aa\", LF, \"xbb\", LF, \"cc\" box 30: starts 0, 3, 7", &laid);
    }
    for (side, laid) in sides(&wide(30), "ab cde") {
        let rows: Vec<_> = laid.lines.iter().map(eight).collect();
        let listed = [[0, 0, 0, 3, 0, 6, 0, 12], [3, 0, 0, 2, 0, 6, 0, 18]];
        claim(rows == listed, side, "\"ab cde\" box 30: the listing", &laid);
        let good = laid.extents.iter().all(|extent| (extent.dropped, extent.reach) == (0, 7));
        claim(good, side, "\"ab cde\" box 30: nothing dropped, reach 7", &laid);
        let chars: Vec<u32> = laid.extents.iter().map(|extent| extent.chars).collect();
        claim(chars.is_empty() || chars == [0, 3], side, "\"ab cde\" box 30: 0 and 3 characters before the lines", &laid);
    }
    for (side, laid) in sides(&wide(30), "ab cd") {
        claim(starts(&laid) == [0], side, "\"ab cd\" box 30: one line, start 0", &laid);
    }

    let text = " \u{200b} ";
    for (side, found) in tokens_by_side(text) {
        let good = found == [Token { kind: WHITESPACE, start: 0, end: 5, count: 2 }];
        claims.claim(good, || format!("{side}: space ZWSP space: one Whitespace(2): {found:?}"));
    }
}
