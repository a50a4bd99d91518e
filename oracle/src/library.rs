//! The library, where it is linked (`--cfg library`): its answers in the shapes of the other sides, and held to them.

use crate::compare::{difference, Sides};
use crate::tally::Tally;
use crate::{model, show};
use bisquemop::{sys, Refusal};
use shape::*;

/// What a buffer holds before a call, so that what a call leaves alone can be seen.
const UNTOUCHED: u32 = 0xA5A5_A5A5;

/// How many numbers stand after those that a call is lent.
const BEYOND: usize = 8;

/// The buffers that are lent to the calls.
#[derive(Default)]
pub struct Library {
    table: Vec<u32>,
    events: Vec<u32>,
    again: Vec<u32>,
    lines: u64,
}

/// Some numbers to lend, none of them written.
fn fresh(buffer: &mut Vec<u32>, numbers: usize) -> &mut [u32] {
    buffer.clear();
    buffer.resize(numbers + BEYOND, UNTOUCHED);
    &mut buffer[..numbers]
}

/// The rows that a call wrote; nothing after them may have changed, lent or not.
fn rows(buffer: &[u32], rows: u64, numbers: usize) -> std::slice::ChunksExact<'_, u32> {
    let (written, left) = buffer.split_at(rows as usize * numbers);
    assert!(left.iter().all(|&n| n == UNTOUCHED), "the library wrote past what it reports");
    written.chunks_exact(numbers)
}

impl Library {
    pub fn tokens(&mut self, text: &str, found: &mut Vec<Token>) -> Result<(), Refusal> {
        let count = sys::tokens(text.as_bytes(), fresh(&mut self.table, 4 * text.len()))?;
        found.clear();
        found.extend(rows(&self.table, count, 4).map(|n| Token { kind: n[0], start: n[1], end: n[2], count: n[3] }));
        Ok(())
    }

    /// A layout with all eleven numbers of each line, and the events.
    pub fn lay(&mut self, settings: &Settings, text: &str, laid: &mut Laid) -> Result<(), Refusal> {
        laid.clear();
        // A line takes a byte, but the last; and a text has no more events than bytes.
        let table = fresh(&mut self.table, LINE_NUMBERS * (text.len() + 1));
        let events = fresh(&mut self.events, 6 * text.len());
        let (lines, event_count) = sys::layout_events(settings, text.as_bytes(), table, events)?;
        self.lines = lines;
        for n in rows(&self.table, lines, LINE_NUMBERS) {
            laid.lines.push(Line {
                start: n[0],
                rest_end: n[1],
                rest_count: n[2],
                end: n[3],
                left: n[4] as i32,
                space: n[5],
                extra: n[6],
                width: n[7],
            });
            laid.extents.push(Extent { dropped: n[8], reach: n[9], chars: n[10] });
        }
        for n in rows(&self.events, event_count, 6) {
            laid.events.push(Event { kind: n[0], start: n[1], end: n[2], count: n[3], width: n[4], x: n[5] as i32 });
        }
        Ok(())
    }

    /// Whether the call without events writes the table of the last layout.
    pub fn lays_the_same(&mut self, settings: &Settings, text: &str) -> bool {
        let answer = sys::layout(settings, text.as_bytes(), fresh(&mut self.again, LINE_NUMBERS * (text.len() + 1)));
        answer == Ok(self.lines) && self.again == self.table
    }

    /// The height of the last layout.
    pub fn height(&self, settings: &Settings) -> Result<u64, Refusal> {
        sys::height(settings, &self.table, self.lines)
    }

    /// Each line's y in the last layout, and whether it shows.
    pub fn places(&self, settings: &Settings) -> Result<Vec<(i32, bool)>, Refusal> {
        let mut places = Vec::new();
        while let Some(place) = sys::line_y(settings, &self.table, self.lines, places.len() as u64)? {
            places.push((place.y, place.shows));
        }
        Ok(places)
    }

    /// The index of the last layout.
    pub fn index(&self, settings: &Settings) -> Result<Vec<i32>, Refusal> {
        let mut ys = vec![0; self.lines as usize];
        sys::index(settings, &self.table, self.lines, &mut ys)?;
        Ok(ys)
    }

    /// The line of the last layout under a y.
    pub fn line_under(&self, ys: &[i32], y: i32) -> Result<Option<u64>, Refusal> {
        sys::find_line(&self.table, self.lines, ys, y)
    }
}

impl Sides {
    /// The library's tokens against the rules' and so, where nothing was noted before, against the crate's.
    pub fn library_tokens(&mut self, text: &str, tally: &mut Tally) {
        let mut found = Vec::new();
        let answer = self.library.tokens(text, &mut found);
        if answer.is_err() || found != self.model_tokens {
            let details = || format!("  library {answer:?} {found:?}\n  rules {:?}\n", self.model_tokens);
            Tally::note(&mut tally.unexplained, "the library's tokens".into(), &crate::EXAMPLE, text, details);
        }
    }

    /// The rules' layout of the case, by its wrap.
    fn rules(&self, settings: &Settings) -> &Laid {
        if settings.wrap == 1 {
            &self.waiting
        } else {
            &self.model
        }
    }

    /// The library's layout against the rules', in the domain or not. True if it is the same.
    pub fn library_layout(&mut self, settings: &Settings, text: &str, deep: bool, tally: &mut Tally) -> bool {
        let answer = self.library.lay(settings, text, &mut self.other);
        tally.library[settings.wrap as usize] += 1;
        let differs = match answer {
            Ok(()) => difference(&self.other, self.rules(settings)).map(str::to_string),
            Err(refusal) => Some(format!("refused, {refusal:?}")),
        };
        if let Some(field) = differs {
            let key = format!("the library's layout against the rules: {field}");
            let details = || format!(" library:\n{} rules:\n{}", show::rows(&self.other), show::laid(self.rules(settings)));
            Tally::note(&mut tally.unexplained, key, settings, text, details);
            return false;
        }
        if deep {
            self.library_places(settings, text, tally);
        }
        true
    }

    /// The library's layout, just laid, against the crate's in the domain, from which it may differ only as the rules do.
    pub fn library_to_crate(&mut self, settings: &Settings, text: &str, tally: &mut Tally) {
        tally.library_crate += 1;
        let field = difference(&self.krate, &self.other);
        if field != difference(&self.krate, &self.model) {
            let key = format!("the library's layout against the crate: {}", field.unwrap_or("too few differences"));
            let details = || format!(" crate:\n{} library:\n{}", show::laid(&self.krate), show::rows(&self.other));
            Tally::note(&mut tally.unexplained, key, settings, text, details);
        }
    }

    /// The table without events, the height, each line's y and whether it shows, the index of the ys and lines found in it, of the
    /// layout just compared.
    fn library_places(&mut self, settings: &Settings, text: &str, tally: &mut Tally) {
        tally.library_places += 1;
        let mut hold = |same: bool, what: &str| {
            if !same {
                Tally::note(&mut tally.unexplained, format!("the library's {what}"), settings, text, String::new);
            }
        };
        hold(self.library.lays_the_same(settings, text), "layout without events");
        let lines = &self.rules(settings).lines;
        let height = model::height(settings, text.len() as u32, lines);
        let ys = model::places(settings, height, lines);
        hold(self.library.height(settings) == Ok(height.into()), "height");
        let places = ys.iter().map(|&y| (y, model::shows(settings, y))).collect();
        hold(self.library.places(settings) == Ok(places), "y, or whether a line shows");
        hold(self.library.index(settings).as_ref() == Ok(&ys), "index of ys");
        let taps = [ys[0] - 1, ys[0], ys[ys.len() / 2], ys[ys.len() / 2] + 1, ys[ys.len() - 1], i32::MAX];
        let under = |y| self.library.line_under(&ys, y) == Ok(model::line_under(&ys, y));
        hold(taps.into_iter().all(under), "line under a y");
    }
}
