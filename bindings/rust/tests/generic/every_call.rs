//! Every generic function of the package, compiled for a text: the compiled code is to call nothing that panics.

#![no_std]

use bisquemop::embedded_text::{Done, DrawRun, TextBox};
use bisquemop::*;

pub fn check(text: &str, room: &mut [u32]) -> Result<usize, Refusal> {
    check_text(text)?;
    tokens(text, room).map(|found| found.map(|token| token.range().len()).max().unwrap_or(0))
}

pub fn layouts(s: Settings, text: &str, h: u32, table: &mut [u32], more: &mut [u32]) -> Result<Option<usize>, Refusal> {
    let (_, pages) = Layout::lay_pages(s, text, h, table, more)?;
    let mut bytes = pages.iter().rev().map(|page| page.range().len()).max();
    let (_, mut events) = Layout::lay_events(s, text, table, more)?;
    bytes = bytes.max(events.nth(3).map(|event| event.shown(text).len()));
    Ok(bytes.max(events.rev().map(|event| event.range().len()).max()))
}

pub fn lines(s: Settings, text: &str, table: &mut [u32], edit: Edit) -> Result<Again, Refusal> {
    let mut layout = Layout::lay(s, text, table)?;
    let dropped = layout.lines().rev().map(|line| line.dropped_text(text).len()).max();
    if layout.places()?.map(|(line, _)| line.range().len()).max() == dropped {
        layout.lay_again_part(edit, text)?;
    }
    layout.lay_again(edit, text)
}

pub fn one_by_one(s: Settings, text: &str, from: Stand) -> Result<usize, Refusal> {
    let first = OneLine::open(s, text)?.count();
    one_line(&s, text, from)?;
    Ok(first.max(OneLine::resume(s, text, from)?.count()))
}

pub fn fits<'t>(s: &Settings, long: &'t str, short: &'t str, h: u32) -> Result<&'t str, Refusal> {
    columns_fit(s, long, h)?;
    columns_plan(s, long, h)?;
    Ok(choose(s, long, short, h)?.part(long, short))
}

pub fn draw<'t>(
    text_box: &TextBox<'t>,
    mut screen: &mut dyn FnMut(&str, i32, i32),
    table: &mut [u32],
    events: &mut [u32],
) -> Result<Done<'t>, Refusal> {
    text_box.text_height(table)?;
    DrawRun::draw(&mut screen, "a", 0, 0);
    text_box.draw(&mut screen, table, events)
}
