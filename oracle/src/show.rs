//! Settings, texts and layouts in words.

use shape::*;
use std::fmt::Write;

/// The settings that a layout depends on; with `all`, also those of height and y.
pub fn settings(s: &Settings, all: bool) -> String {
    let alignment = ["left", "centre", "right", "justified"][s.alignment as usize];
    let mut out = format!(
        "glyph {} box {} tab {} {alignment} leading {}{}",
        s.glyph,
        s.width,
        s.tab,
        if s.leading == 1 { "on" } else { "off" },
        if s.wrap == 1 { ", words wait" } else { "" }
    );
    if all {
        let vertical = ["top", "middle", "bottom"][s.vertical as usize];
        write!(
            out,
            " spacing {} paragraph {} base {} height {} top {} {vertical}",
            s.spacing, s.paragraph, s.base, s.height, s.top
        )
        .unwrap();
    }
    out
}

/// A text in quotes, with every character that is not to show written by its number.
pub fn quoted(text: &str, shows: impl Fn(char) -> bool) -> String {
    let mut out = String::from("\"");
    for c in text.chars() {
        match c {
            '\n' => out.push_str("\\n"),
            '\r' => out.push_str("\\r"),
            '\t' => out.push_str("\\t"),
            c if shows(c) => out.push(c),
            c => write!(out, "\\u{{{:x}}}", u32::from(c)).unwrap(),
        }
    }
    out.push('"');
    out
}

/// A text in quotes, for people.
pub fn text(text: &str) -> String {
    quoted(text, |c| matches!(c, ' ' | 'a'..='z' | 'A'..='Z' | '0'..='9' | '-' | 'é' | '漢' | '😀'))
}

/// The numbers of a line: eleven where the side has them all, else eight.
pub fn line(laid: &Laid, at: usize) -> String {
    let l = &laid.lines[at];
    let mut out = format!("{} {} {} {} {} {} {} {}", l.start, l.rest_end, l.rest_count, l.end, l.left, l.space, l.extra, l.width);
    if let Some(extent) = laid.extents.get(at) {
        write!(out, " {} {} {}", extent.dropped, extent.reach, extent.chars).unwrap();
    }
    out
}

/// The six numbers of an event.
pub fn event(e: &Event) -> String {
    format!("{} {} {} {} {} {}", e.kind, e.start, e.end, e.count, e.width, e.x)
}

/// A whole layout, each line followed by its events.
pub fn laid(laid: &Laid) -> String {
    let mut out = String::new();
    let mut from = 0;
    for at in 0..laid.lines.len() {
        writeln!(out, "  line  {}", line(laid, at)).unwrap();
        let upto = laid.upto[at] as usize;
        for e in &laid.events[from..upto] {
            writeln!(out, "  event   {}", event(e)).unwrap();
        }
        from = upto;
    }
    out
}

/// The lines of a layout, and then its events, where it is not known which line an event belongs to.
#[cfg(library)]
pub fn rows(laid: &Laid) -> String {
    let mut out = String::new();
    for at in 0..laid.lines.len() {
        writeln!(out, "  line  {}", line(laid, at)).unwrap();
    }
    for e in &laid.events {
        writeln!(out, "  event   {}", event(e)).unwrap();
    }
    out
}
