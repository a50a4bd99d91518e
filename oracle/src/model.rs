//! The scope's rules 1 to 13 in plain Rust, rule by rule, from the scope's text. It is slow and says what it does: nothing is
//! cloned or peeked, a text is an array of characters, its tokens an array of stretches of them, and a pass goes along
//! the tokens by their number.
//!
//! Rule 8 names the crate's `process` and tells only its corners. What the scope's text leaves to it there is marked
//! "by the crate" below: when the width of spaces and tabs is drawn, when "-" is, and what is drawn of LF and CR. That words may
//! wait comes from the request's words (#101) alone.

use shape::*;

/// Where the model can be asked to do as the crate does instead of what the scope says.
#[derive(Clone, Copy, Default, PartialEq, Eq)]
pub struct Ways {
    /// Rule 6: the remaining room may fall below 0. Then no line is moved to the right, and justified spaces are narrower.
    pub room_below_zero: bool,
    /// Rule 8: a tab that does not fit moves the pen alone, and the cursor stays where it was.
    pub tab_stays: bool,
}

/// Rule 1.
pub fn is_white(c: char) -> bool {
    matches!(u32::from(c),
        0x9..=0xD | 0x20 | 0x85 | 0xA0 | 0x1680 | 0x2000..=0x200A | 0x2028 | 0x2029 | 0x202F | 0x205F | 0x3000)
}

const ZERO_WIDTH: char = '\u{200b}';
const SOFT_HYPHEN: char = '\u{ad}';

/// Rules 2 and 8: white space that is of words, and is drawn as one space.
pub fn glues(c: char) -> bool {
    matches!(c, '\u{a0}' | '\u{2007}' | '\u{202f}')
}

/// Rule 2: "all but white space, U+200B and U+00AD; but U+00A0, U+2007 and U+202F belong to words".
fn in_word(c: char) -> bool {
    glues(c) || !(is_white(c) || c == ZERO_WIDTH || c == SOFT_HYPHEN)
}

/// Rule 2: what a run of spaces may go on with. LF, CR, tab and what glues have tokens of their own.
fn in_run(c: char) -> bool {
    c == ZERO_WIDTH || (is_white(c) && !glues(c) && !matches!(c, '\n' | '\r' | '\t'))
}

/// A token as a stretch of characters, by their numbers.
#[derive(Clone, Copy)]
struct Stretch {
    kind: u32,
    from: usize,
    to: usize,
    /// The spaces that a run counts.
    count: u32,
    /// U+200B by itself: nothing ends it.
    alone: bool,
}

/// A text, taken apart.
#[derive(Default)]
pub struct Text {
    chars: Vec<char>,
    /// Where each character starts, in bytes, and at last where the text ends.
    offsets: Vec<u32>,
    stretches: Vec<Stretch>,
}

impl Text {
    pub fn take_apart(&mut self, text: &str) {
        self.take_characters(text);
        self.take_stretches(0);
    }

    fn take_characters(&mut self, text: &str) {
        self.chars.clear();
        self.chars.extend(text.chars());
        self.offsets.clear();
        self.offsets.extend(text.char_indices().map(|(at, _)| at as u32));
        self.offsets.push(text.len() as u32);
        self.stretches.clear();
    }

    /// The tokens from a character on.
    fn take_stretches(&mut self, mut from: usize) {
        while from < self.chars.len() {
            let stretch = self.stretch_at(from);
            self.stretches.push(stretch);
            from = stretch.to;
        }
    }

    /// Rule 2: the token that starts at a character.
    fn stretch_at(&self, from: usize) -> Stretch {
        let single = |kind| Stretch { kind, from, to: from + 1, count: 0, alone: true };
        let longest = |goes_on: fn(char) -> bool| {
            self.chars[from..].iter().position(|&c| !goes_on(c)).map_or(self.chars.len(), |n| from + n)
        };
        match self.chars[from] {
            '\n' => single(NEW_LINE),
            '\r' => single(CARRIAGE_RETURN),
            '\t' => single(TAB),
            SOFT_HYPHEN => single(BREAK),
            ZERO_WIDTH => single(WHITESPACE),
            c if in_word(c) => Stretch { kind: WORD, from, to: longest(in_word), count: 0, alone: false },
            _ => {
                let to = longest(in_run);
                let count = self.chars[from..to].iter().filter(|&&c| c != ZERO_WIDTH).count() as u32;
                Stretch { kind: WHITESPACE, from, to, count, alone: false }
            }
        }
    }

    /// Rule 3.
    pub fn tokens(&self, found: &mut Vec<Token>) {
        found.clear();
        found.extend(self.stretches.iter().map(|s| Token {
            kind: s.kind,
            start: self.offsets[s.from],
            end: self.offsets[s.to],
            count: s.count,
        }));
    }

    fn len(&self) -> u32 {
        self.offsets[self.chars.len()]
    }

    /// Rule 12, reach: how far a token that is looked at is examined.
    fn examined(&self, stretch: &Stretch) -> u32 {
        if stretch.alone {
            self.offsets[stretch.to]
        } else if stretch.to < self.chars.len() {
            self.offsets[stretch.to + 1]
        } else {
            self.len() + 1
        }
    }
}

/// Where a line starts: at a token, of which a part may be gone, or at the text's end.
#[derive(Clone, Copy)]
struct Start {
    token: usize,
    /// What is left of that token, where a part of it is gone (rule 9).
    left: Option<Stretch>,
}

/// Rule 5: the width of a space, and the extra pixels left.
#[derive(Clone, Copy)]
struct Spaces {
    width: u32,
    extra: u32,
}

impl Spaces {
    fn take(&mut self, n: u32) -> u32 {
        let more = n.min(self.extra);
        self.extra -= more;
        n * self.width + more
    }
}

/// Rule 4: a move of the cursor by any signed distance. One that is too long answers the room: forward the cursor is then at the
/// edge, backward it stays.
pub fn moved(width: u32, position: u32, by: i32) -> (Result<i32, i32>, u32) {
    let to = i64::from(position) + i64::from(by);
    if to < 0 {
        (Err(-(position as i32)), position)
    } else if to > i64::from(width) {
        (Err((width - position) as i32), width)
    } else {
        (Ok(by), to as u32)
    }
}

/// Rule 11: whether a line at a y shows.
pub fn shows(settings: &Settings, y: i32) -> bool {
    settings.top <= y && y <= settings.top + settings.height as i32 - settings.base as i32
}

/// Rule 4: how far the next tab stop is.
pub fn tab_width(settings: &Settings, position: u32) -> u32 {
    match settings.tab {
        0 => 0,
        tab => (position / tab + 1) * tab - position,
    }
}

/// One pass over a line.
struct Pass<'t> {
    settings: &'t Settings,
    text: &'t Text,
    start: Start,
    spaces: Spaces,
    /// The cursor: in 0..box width, and where the pass started it.
    position: u32,
    starting_place: u32,
    pen: i32,
    empty: bool,
    reach: u32,
    dropped: u32,
    /// By the crate's way: a tab that does not fit leaves the cursor.
    tab_stays: bool,
    /// A tab did not fit.
    beyond: bool,
}

/// How a pass ended, and where the next line starts.
struct Ended {
    by: u32,
    next: Start,
}

impl<'t> Pass<'t> {
    /// A pass from a place, on an empty line.
    fn new(settings: &'t Settings, ways: Ways, text: &'t Text, start: Start, spaces: Spaces, position: u32) -> Self {
        Pass {
            settings,
            text,
            start,
            spaces,
            position,
            starting_place: position,
            pen: position as i32,
            empty: true,
            reach: 0,
            dropped: 0,
            tab_stays: ways.tab_stays,
            beyond: false,
        }
    }

    fn room(&self) -> u32 {
        self.settings.width - self.position
    }

    /// A token of the line by its number, as the line sees it; it has then been looked at. None at the text's end.
    fn look(&mut self, number: usize) -> Option<Stretch> {
        let found = match self.start.left {
            Some(left) if number == self.start.token => Some(left),
            _ => self.text.stretches.get(number).copied(),
        };
        let examined = found.as_ref().map_or(self.text.len() + 1, |stretch| self.text.examined(stretch));
        self.reach = self.reach.max(examined);
        found
    }

    fn event(&mut self, events: &mut Vec<Event>, kind: u32, from: usize, to: usize, count: u32, width: u32) {
        let (start, end) = (self.text.offsets[from], self.text.offsets[to]);
        events.push(Event { kind, start, end, count, width, x: self.pen });
        self.pen += width as i32;
    }

    /// By the crate: whether the width of spaces, or of a tab, before token `number` is drawn. It is in an empty line, and where the
    /// next word or "-" fits after all spaces and tabs that come before it.
    fn draws_before(&mut self, mut number: usize) -> bool {
        if self.empty {
            return true;
        }
        let (mut position, mut spaces) = (self.position, self.spaces);
        loop {
            let Some(stretch) = self.look(number) else { return false };
            let (width, last) = match stretch.kind {
                WORD => ((stretch.to - stretch.from) as u32 * self.settings.glyph, true),
                BREAK => (self.settings.glyph, true),
                WHITESPACE => (spaces.take(stretch.count), false),
                TAB => (tab_width(self.settings, position), false),
                _ => return false,
            };
            if width > self.settings.width - position {
                return false;
            }
            position += width;
            if last {
                return true;
            }
            number += 1;
        }
    }

    /// By the crate: the width of what must fit for a soft hyphen before token `number` not to be needed: a word, with the "-"
    /// of a soft hyphen right after it; or that "-" alone. None where neither comes next.
    fn width_after_hyphen(&mut self, number: usize) -> Option<u32> {
        let glyph = self.settings.glyph;
        let first = self.look(number)?;
        match first.kind {
            BREAK => Some(glyph),
            WORD => {
                let word = (first.to - first.from) as u32 * glyph;
                let hyphen = self.look(number + 1).is_some_and(|second| second.kind == BREAK);
                Some(if hyphen { word + glyph } else { word })
            }
            _ => None,
        }
    }

    /// Rule 8: a printed word: its parts between what glues, each of those a space, and a last part that may be empty.
    fn print(&mut self, events: &mut Vec<Event>, from: usize, to: usize) {
        self.empty = false;
        let mut part = from;
        for at in from..to {
            if glues(self.text.chars[at]) {
                if part < at {
                    self.print_part(events, part, at);
                }
                let width = self.spaces.take(1);
                self.event(events, SPACE, at, at + 1, 1, width);
                part = at + 1;
            }
        }
        self.print_part(events, part, to);
    }

    fn print_part(&mut self, events: &mut Vec<Event>, from: usize, to: usize) {
        self.event(events, PRINTED, from, to, 0, (to - from) as u32 * self.settings.glyph);
    }

    fn run(&mut self, events: &mut Vec<Event>) -> Ended {
        let mut number = self.start.token;
        loop {
            let Some(stretch) = self.look(number) else {
                return Ended { by: BY_END_OF_TEXT, next: Start { token: number, left: None } };
            };
            let Stretch { kind, from, to, count, .. } = stretch;
            let after = Start { token: number + 1, left: None };
            let skips = self.empty && self.settings.leading == 0;
            match kind {
                // By the crate: an end of line is drawn as a space of no count and no width.
                NEW_LINE | CARRIAGE_RETURN => {
                    self.event(events, SPACE, from, to, 0, 0);
                    let by = if kind == NEW_LINE { BY_NEW_LINE } else { BY_CARRIAGE_RETURN };
                    return Ended { by, next: after };
                }

                // By the crate: a skipped tab is no event.
                TAB if skips => {}

                TAB => {
                    let width = tab_width(self.settings, self.position);
                    if width > self.room() {
                        let room = self.room();
                        self.beyond = true;
                        if !self.tab_stays {
                            self.position += room;
                        }
                        self.event(events, MOVE, from, to, 0, room);
                    } else {
                        self.position += width;
                        let kind = if self.draws_before(number + 1) { SPACE } else { MOVE };
                        self.event(events, kind, from, to, 0, width);
                    }
                }

                WHITESPACE => {
                    let width = self.spaces.take(count);
                    if skips {
                        self.event(events, SPACE, from, to, count, 0);
                    } else if width <= self.room() {
                        self.position += width;
                        let drawn = self.draws_before(number + 1);
                        self.event(events, SPACE, from, to, count, if drawn { width } else { 0 });
                    } else {
                        return self.cut(events, number, stretch, width);
                    }
                }

                BREAK => {
                    let glyph = self.settings.glyph;
                    if let Some(next) = self.width_after_hyphen(number + 1) {
                        if self.empty || next > self.room() {
                            let fits = glyph <= self.room();
                            if fits {
                                self.position += glyph;
                                self.event(events, PRINTED, from, to, 0, glyph);
                            }
                            if !self.empty {
                                let next = if fits { after } else { Start { token: number, left: None } };
                                return Ended { by: BY_LINE_BREAK, next };
                            }
                        }
                    }
                }

                _ => {
                    let width = (to - from) as u32 * self.settings.glyph;
                    if width <= self.room() {
                        self.position += width;
                        self.print(events, from, to);
                    } else if self.empty {
                        let fitting = (self.room() / self.settings.glyph) as usize;
                        if fitting == 0 {
                            if self.waits() {
                                return Ended { by: BY_LINE_BREAK, next: self.again(number, stretch) };
                            }
                            self.dropped += (to - from) as u32;
                            return Ended { by: BY_LINE_BREAK, next: after };
                        }
                        self.print(events, from, from + fitting);
                        let left = Stretch { from: from + fitting, ..stretch };
                        return Ended { by: BY_LINE_BREAK, next: Start { token: number, left: Some(left) } };
                    } else {
                        return Ended { by: BY_LINE_BREAK, next: self.again(number, stretch) };
                    }
                }
            }
            number += 1;
        }
    }

    /// Whether a word of which no character fits on this empty line stays for the next one (#101).
    fn waits(&self) -> bool {
        self.settings.wrap == 1 && self.position != self.starting_place
    }

    /// The next line starts with a token that this one has looked at and not taken.
    fn again(&self, number: usize, stretch: Stretch) -> Start {
        Start { token: number, left: Some(stretch) }
    }

    /// A run of spaces that does not fit. By the crate: as many spaces as fit, all of one width, are drawn 0 wide; one space more is
    /// taken, where there is one. Rule 9: the others are the next line's rest.
    fn cut(&mut self, events: &mut Vec<Event>, number: usize, run: Stretch, width: u32) -> Ended {
        let single = width / run.count;
        let fitting = self.room() / single;
        if fitting > 0 {
            let to = (run.from + fitting as usize).min(run.to);
            self.event(events, SPACE, run.from, to, fitting, 0);
        }
        let taken = (fitting + 1).min(run.count);
        let from = run.from + taken as usize;
        let next = if from < run.to {
            Start { token: number, left: Some(Stretch { from, count: run.count - taken, ..run }) }
        } else {
            Start { token: number + 1, left: None }
        };
        Ended { by: BY_LINE_BREAK, next }
    }
}

/// Rule 10: the width and the number of spaces that a pass's events measure.
fn measured(events: &[Event]) -> (u32, u32) {
    match events.iter().rposition(|e| e.kind == PRINTED) {
        None => (0, 0),
        Some(last) => {
            let pen = events[last].x + events[last].width as i32;
            (pen as u32, events[..=last].iter().map(|e| e.count).sum())
        }
    }
}

/// Rule 6: where a line starts, and its spaces.
fn placed(settings: &Settings, ways: Ways, width: u32, n: u32, by: u32) -> (i32, Spaces) {
    let difference = settings.width as i32 - width as i32;
    let remaining = if ways.room_below_zero { difference } else { difference.max(0) };
    let plain = Spaces { width: settings.glyph, extra: 0 };
    match settings.alignment {
        0 => (0, plain),
        1 => ((remaining + 1) / 2, plain),
        2 => (remaining, plain),
        _ if by != BY_NEW_LINE && by != BY_END_OF_TEXT && n > 0 => {
            let total = remaining + (n * settings.glyph) as i32;
            // Never by the rules: there is a glyph for each space, and room of at least 0.
            assert!(total >= n as i32, "justified spaces of less than a pixel");
            (0, Spaces { width: total as u32 / n, extra: total as u32 % n })
        }
        _ => (0, plain),
    }
}

/// A line's start by its first character's number, and its rest: where it ends and what it counts, 0 and 0 where there is none.
fn stand_of(text: &Text, start: Start) -> (usize, u32, u32) {
    match start.left {
        Some(left) if left.kind == WHITESPACE => (left.from, text.offsets[left.to], left.count),
        Some(left) => (left.from, 0, 0),
        None => (text.stretches.get(start.token).map_or(text.chars.len(), |s| s.from), 0, 0),
    }
}

/// Rules 10, 12 and 13: one line, measured and then drawn. True besides if a tab did not fit in one of the passes.
fn lay_line(
    settings: &Settings,
    ways: Ways,
    text: &Text,
    start: Start,
    measure: &mut Vec<Event>,
    laid: &mut Laid,
) -> (Ended, bool) {
    let pass = |spaces, position| Pass::new(settings, ways, text, start, spaces, position);

    measure.clear();
    let mut measuring = pass(Spaces { width: settings.glyph, extra: 0 }, 0);
    let by = measuring.run(measure).by;
    let (width, n) = measured(measure);
    let (left, spaces) = placed(settings, ways, width, n, by);

    let mut drawing = pass(spaces, left.max(0) as u32);
    let ended = drawing.run(&mut laid.events);

    let (at, rest_end, rest_count) = stand_of(text, start);
    laid.lines.push(Line {
        start: text.offsets[at],
        rest_end,
        rest_count,
        end: ended.by,
        left,
        space: spaces.width,
        extra: spaces.extra,
        width,
    });
    laid.extents.push(Extent {
        dropped: drawing.dropped,
        reach: measuring.reach.max(drawing.reach),
        // A text is an array of characters here: the number of the first is how many stand before it.
        chars: at as u32,
    });
    laid.upto.push(laid.events.len() as u32);
    (ended, measuring.beyond || drawing.beyond)
}

/// Rule 10: the lines of a text, each from where the last one's draw ended. True if a tab did not fit in one of the passes.
pub fn lay(settings: &Settings, ways: Ways, text: &Text, measure: &mut Vec<Event>, laid: &mut Laid) -> bool {
    laid.clear();
    let mut beyond = false;
    let mut start = Start { token: 0, left: None };
    loop {
        let (ended, past) = lay_line(settings, ways, text, start, measure, laid);
        beyond |= past;
        if ended.by == BY_END_OF_TEXT {
            return beyond;
        }
        assert!(laid.lines.len() <= text.chars.len() + 1, "a line took nothing");
        start = ended.next;
    }
}

/// The line that a text has from a place on, after a rest (#106). All but what stands before that place is taken apart anew, with the
/// rest as its first token, whatever its characters are. `laid` gets that one line; answered is the next one's start and rest.
#[cfg(library)]
pub fn lay_from(settings: &Settings, text: &str, from: Stand, laid: &mut Laid) -> Stand {
    let mut apart = Text::default();
    apart.take_characters(text);
    let number = |offset: u32| apart.offsets.iter().position(|&at| at == offset).expect("a place between characters");
    let first = number(from.start);
    let left = (from.rest_end > 0).then(|| Stretch {
        kind: WHITESPACE,
        from: first,
        to: number(from.rest_end),
        count: from.rest_count,
        alone: false,
    });
    apart.stretches.extend(left);
    apart.take_stretches(left.map_or(first, |rest| rest.to));
    laid.clear();
    let (ended, _) = lay_line(settings, Ways::default(), &apart, Start { token: 0, left }, &mut Vec::new(), laid);
    let (at, rest_end, rest_count) = stand_of(&apart, ended.next);
    Stand { start: apart.offsets[at], rest_end, rest_count }
}

/// Rule 11: what the end of a line adds.
fn added(settings: &Settings, end: u32) -> u32 {
    match end {
        BY_LINE_BREAK => settings.spacing,
        BY_NEW_LINE => settings.spacing + settings.paragraph,
        _ => 0,
    }
}

/// Rule 11: the height of a laid text.
pub fn height(settings: &Settings, text_len: u32, lines: &[Line]) -> u32 {
    let all: u32 = lines.iter().map(|line| added(settings, line.end)).sum();
    let before_last = lines.len().checked_sub(2).map(|at| lines[at].end);
    let unseen = before_last == Some(BY_LINE_BREAK) && lines[lines.len() - 1].start == text_len;
    settings.base + all - if unseen { settings.spacing } else { 0 }
}

/// The line under a y: the last whose y is at most that.
pub fn line_under(ys: &[i32], y: i32) -> Option<u64> {
    ys.iter().rposition(|&place| place <= y).map(|line| line as u64)
}

/// Pages of so many lines, each as its first line, its start and its end, from the lines' starts and the text's length.
pub fn pages(starts: &[u32], text_len: u32, h: u32) -> Vec<[u32; PAGE_NUMBERS]> {
    let firsts = starts.iter().enumerate().step_by(h as usize);
    let mut pages: Vec<_> = firsts.map(|(line, &start)| [line as u32, start, text_len]).collect();
    for next in 1..pages.len() {
        pages[next - 1][2] = pages[next][1];
    }
    pages
}

/// What the first lines of a text take of it, so many of them.
pub fn taken<'a>(starts: &[u32], text: &'a str, h: u32) -> &'a str {
    match starts.get(h as usize) {
        Some(&start) => &text[..start as usize],
        None => text,
    }
}

/// Rule 11: each line's y, for a text of a given height.
pub fn places(settings: &Settings, height: u32, lines: &[Line]) -> Vec<i32> {
    let difference = settings.height as i32 - height as i32;
    let offset = match settings.vertical {
        0 => 0,
        1 => difference / 2,
        _ => difference,
    };
    let mut y = settings.top + offset;
    let place = |line: &Line| {
        let here = y;
        y += added(settings, line.end) as i32;
        here
    };
    lines.iter().map(place).collect()
}

/// The height as the crate has it, by one of its two ways alone: a LineBreak adds only before a line that measures more than 0.
pub fn height_by_widths(settings: &Settings, lines: &[Line]) -> u32 {
    let mut height = settings.base;
    let mut before = BY_END_OF_TEXT;
    for line in lines {
        if before == BY_LINE_BREAK && line.width > 0 {
            height += settings.spacing;
        }
        if line.end == BY_NEW_LINE {
            height += settings.spacing + settings.paragraph;
        }
        before = line.end;
    }
    height
}

/// The height as the crate has it, by both ways: the lines are the measure's, too, each from where the last one's measure ended.
pub fn height_by_measures(settings: &Settings, text: &Text, measure: &mut Vec<Event>) -> u32 {
    let ways = Ways { tab_stays: true, ..Ways::default() };
    let mut start = Start { token: 0, left: None };
    let mut height = settings.base;
    let mut before = BY_END_OF_TEXT;
    loop {
        measure.clear();
        let spaces = Spaces { width: settings.glyph, extra: 0 };
        let mut pass = Pass::new(settings, ways, text, start, spaces, 0);
        let ended = pass.run(measure);
        if before == BY_LINE_BREAK && measured(measure).0 > 0 {
            height += settings.spacing;
        }
        match ended.by {
            BY_NEW_LINE => height += settings.spacing + settings.paragraph,
            BY_END_OF_TEXT => return height,
            _ => {}
        }
        before = ended.by;
        start = ended.next;
    }
}
