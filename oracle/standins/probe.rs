//! Runs the crate and tells what it does. This stands inside the crate, where its private parts can be reached; it adds
//! nothing to them. Every line is measured, placed and drawn by the crate's own functions, in the order of its line
//! renderer, into a sink that records the events.

extern crate std;

use super::{NoPlugin, PluginWrapper, ProcessingState};
use crate::{
    alignment::{HorizontalAlignment, VerticalAlignment},
    parser::{Parser, Token},
    rendering::{
        cursor::{Cursor, LineCursor},
        line_iter::{ElementHandler, LineElementParser, LineEndType},
        space_config::SpaceConfig,
    },
    style::{HeightMode, TabSize, TextBoxStyle, VerticalOverdraw},
    utils::{str_width, str_width_and_left_offset},
    TextBox,
};
use core::{
    cell::{Cell, RefCell},
    convert::Infallible,
};
use embedded_graphics::{
    draw_target::DrawTarget,
    geometry::{Point, Size},
    pixelcolor::PixelColor,
    primitives::Rectangle,
    text::{
        renderer::{CharacterStyle, TextMetrics, TextRenderer},
        Baseline, LineHeight,
    },
    Drawable,
};
use shape::{Drawn, Event, Laid, Line, Outside, Settings};
use std::vec::Vec;

/// The only colour.
#[derive(Clone, Copy, Debug, PartialEq, Eq, Hash)]
pub struct Ink;

impl PixelColor for Ink {}

/// A font in which every character has one width and none reaches to the left of its place. It keeps a record of what it
/// draws, where it is given one.
#[derive(Clone, Copy)]
struct Glyphs<'r> {
    glyph: u32,
    base: u32,
    record: Option<&'r RefCell<Vec<Drawn>>>,
}

impl Glyphs<'_> {
    fn width(&self, text: &str) -> u32 {
        text.chars().count() as u32 * self.glyph
    }

    fn note(&self, drawn: Drawn) {
        if let Some(record) = self.record {
            record.borrow_mut().push(drawn);
        }
    }
}

impl TextRenderer for Glyphs<'_> {
    type Color = Ink;

    fn draw_string<D>(&self, text: &str, at: Point, _baseline: Baseline, _target: &mut D) -> Result<Point, D::Error>
    where
        D: DrawTarget<Color = Ink>,
    {
        self.note(Drawn { kind: shape::PRINTED, address: text.as_ptr() as usize, len: text.len(), width: 0, x: at.x, y: at.y });
        Ok(at + Point::new(self.width(text) as i32, 0))
    }

    fn draw_whitespace<D>(&self, width: u32, at: Point, _baseline: Baseline, _target: &mut D) -> Result<Point, D::Error>
    where
        D: DrawTarget<Color = Ink>,
    {
        self.note(Drawn { kind: shape::SPACE, address: 0, len: 0, width, x: at.x, y: at.y });
        Ok(at + Point::new(width as i32, 0))
    }

    fn measure_string(&self, text: &str, at: Point, _baseline: Baseline) -> TextMetrics {
        let width = self.width(text);
        TextMetrics {
            bounding_box: Rectangle::new(at, Size::new(width, self.base)),
            next_position: at + Point::new(width as i32, 0),
        }
    }

    fn line_height(&self) -> u32 {
        self.base
    }
}

impl CharacterStyle for Glyphs<'_> {
    type Color = Ink;
}

/// A target on which nothing shows.
struct Nowhere;

impl DrawTarget for Nowhere {
    type Color = Ink;
    type Error = Infallible;
}

fn style_of(settings: &Settings) -> TextBoxStyle {
    let mut style = TextBoxStyle::default();
    style.alignment = match settings.alignment {
        0 => HorizontalAlignment::Left,
        1 => HorizontalAlignment::Center,
        2 => HorizontalAlignment::Right,
        _ => HorizontalAlignment::Justified,
    };
    style.vertical_alignment = match settings.vertical {
        0 => VerticalAlignment::Top,
        1 => VerticalAlignment::Middle,
        _ => VerticalAlignment::Bottom,
    };
    style.height_mode = HeightMode::Exact(VerticalOverdraw::Visible);
    style.line_height = LineHeight::Pixels(settings.spacing);
    style.paragraph_spacing = settings.paragraph;
    style.tab_size = TabSize::Pixels(settings.tab as u16);
    style.leading_spaces = settings.leading == 1;
    style.trailing_spaces = false;
    style
}

fn bounds_of(settings: &Settings) -> Rectangle {
    Rectangle::new(Point::new(0, settings.top), Size::new(settings.width, settings.height))
}

/// The crate's tokens of a text.
pub fn tokens(text: &str, found: &mut Vec<shape::Token>) {
    found.clear();
    let mut parser = Parser::<Ink>::parse(text);
    let here = |parser: &Parser<'_, Ink>| (text.len() - parser.as_str().len()) as u32;
    loop {
        let start = here(&parser);
        let Some(token) = parser.next() else { return };
        let end = here(&parser);
        // Where a token carries a part of the text, it must be the part that the parser went over.
        let (kind, count, carried) = match token {
            Token::NewLine => (shape::NEW_LINE, 0, None),
            Token::CarriageReturn => (shape::CARRIAGE_RETURN, 0, None),
            Token::Tab => (shape::TAB, 0, None),
            Token::Whitespace(count, carried) => (shape::WHITESPACE, count, Some(carried)),
            Token::Word(carried) => (shape::WORD, 0, Some(carried)),
            Token::Break(_) => (shape::BREAK, 0, None),
            _ => unreachable!("the parser makes no other tokens"),
        };
        if let Some(carried) = carried {
            assert_eq!(carried.as_ptr() as usize, text.as_ptr() as usize + start as usize);
            assert_eq!(carried.len(), (end - start) as usize);
        }
        found.push(shape::Token { kind, start, end, count });
    }
}

/// Records the events of a line. A string that the crate hands over is either a part of the text, and then its address
/// says which; or a word of the crate's own ("-", a tab, an end of line, U+00A0), and then it stands for the held token or,
/// within a word, for the character after what was drawn last.
struct Sink<'s, 'a, 'r> {
    glyphs: &'s Glyphs<'r>,
    plugin: &'s PluginWrapper<'a, NoPlugin<Ink>, Ink>,
    text: &'a str,
    /// Where the last event ended.
    at: usize,
    pen: i32,
    events: &'s mut Vec<Event>,
}

impl Sink<'_, '_, '_> {
    fn held(&self) -> (usize, usize) {
        let (from_start, from_end) = self.plugin.held_place().expect("an event comes of a held token");
        (self.text.len() - from_start, self.text.len() - from_end)
    }

    fn range(&self, string: &str) -> (usize, usize) {
        let first = self.text.as_ptr() as usize;
        let address = string.as_ptr() as usize;
        if address >= first && address + string.len() <= first + self.text.len() {
            return (address - first, address - first + string.len());
        }
        let (start, end) = self.held();
        let (start, end, stands_for) = match string {
            "\u{a0}" => {
                let start = start.max(self.at);
                (start, start + string.len(), string)
            }
            "-" => (start, end, "\u{ad}"),
            "\t" | "\r" | "\n" => (start, end, string),
            _ => unreachable!("the crate draws no other string of its own"),
        };
        assert_eq!(&self.text[start..end], stands_for);
        (start, end)
    }

    fn event(&mut self, kind: u32, range: (usize, usize), count: u32, width: u32) {
        let (start, end) = range;
        self.events.push(Event { kind, start: start as u32, end: end as u32, count, width, x: self.pen });
        self.at = end;
        self.pen += width as i32;
    }
}

impl ElementHandler for Sink<'_, '_, '_> {
    type Error = Infallible;
    type Color = Ink;

    fn measure(&self, string: &str) -> u32 {
        str_width(self.glyphs, string)
    }

    fn measure_width_and_left_offset(&self, string: &str) -> (u32, u32) {
        str_width_and_left_offset(self.glyphs, string)
    }

    fn whitespace(&mut self, string: &str, count: u32, width: u32) -> Result<(), Infallible> {
        let range = self.range(string);
        self.event(shape::SPACE, range, count, width);
        Ok(())
    }

    fn printed_characters(&mut self, string: &str, width: Option<u32>) -> Result<(), Infallible> {
        let range = self.range(string);
        let width = width.unwrap_or_else(|| self.measure(string));
        self.event(shape::PRINTED, range, 0, width);
        Ok(())
    }

    fn move_cursor(&mut self, by: i32) -> Result<(), Infallible> {
        let range = self.held();
        self.event(shape::MOVE, range, 0, u32::try_from(by).expect("no token moves back"));
        Ok(())
    }
}

/// The width of a space, and how many spaces are a pixel wider: from the crate's answers for two large counts, both above
/// any number of extra pixels.
fn spaces_of(spaces: &SpaceConfig) -> (u32, u32) {
    const MANY: u32 = 1 << 17;
    let many = spaces.peek_next_width(MANY);
    let width = (spaces.peek_next_width(2 * MANY) - many) / MANY;
    (width, many - MANY * width)
}

/// Lays a text. Where `guarded` and a line is measured wider than the box, laying stops before the subtraction that goes
/// below 0, and the lines so far are told; otherwise the crate goes on as it was compiled to.
pub fn lay(settings: &Settings, text: &str, guarded: bool, laid: &mut Laid) -> Outside {
    laid.clear();
    let mut outside = Outside::default();
    let style = style_of(settings);
    let glyphs = Glyphs { glyph: settings.glyph, base: settings.base, record: None };
    let plugin = PluginWrapper::new(NoPlugin::new());
    let mut parser = Parser::parse(text);
    let lines = Cursor::new(bounds_of(settings), glyphs.line_height(), style.line_height, style.tab_size.into_pixels(&glyphs));

    plugin.set_state(ProcessingState::Render);
    loop {
        plugin.new_line();
        let (start, rest) = match plugin.held_place() {
            None => (text.len() - parser.as_str().len(), None),
            Some((from_start, from_end)) => {
                (text.len() - from_start, plugin.held_count().map(|count| (text.len() - from_end, count)))
            }
        };

        let measurement = {
            let mut parser = parser.clone();
            let plugin = plugin.clone();
            plugin.set_state(ProcessingState::Measure);
            let measurement = style.measure_line(&plugin, &glyphs, &mut parser, lines.line_width());
            outside.cut_zero_width |= plugin.has_cut_zero_width();
            measurement
        };
        let width = measurement.width;
        outside.overflow |= width > measurement.max_line_width;
        if outside.overflow && guarded {
            return outside;
        }

        let (left, spaces) = style.alignment.place_line(&glyphs, measurement);
        let mut cursor = lines.line();
        cursor.move_cursor(left).ok();
        let (space, extra) = spaces_of(&spaces);

        let mut sink = Sink { glyphs: &glyphs, plugin: &plugin, text, at: 0, pen: cursor.pos().x, events: &mut laid.events };
        let end = LineElementParser::new(&mut parser, &plugin, cursor, spaces, &style).process(&mut sink).unwrap();
        outside.cut_zero_width |= plugin.has_cut_zero_width();

        let (rest_end, rest_count) = rest.unwrap_or((0, 0));
        laid.lines.push(Line {
            start: start as u32,
            rest_end: rest_end as u32,
            rest_count,
            end: match end {
                LineEndType::NewLine => shape::BY_NEW_LINE,
                LineEndType::CarriageReturn => shape::BY_CARRIAGE_RETURN,
                LineEndType::EndOfText => shape::BY_END_OF_TEXT,
                LineEndType::LineBreak => shape::BY_LINE_BREAK,
            },
            left,
            space,
            extra,
            width,
        });
        laid.upto.push(laid.events.len() as u32);
        if end == LineEndType::EndOfText {
            return outside;
        }
        if laid.lines.len() > text.len() + 1 {
            outside.endless = true;
            return outside;
        }
    }
}

/// Moves the crate's line cursor from a position by a distance. Answers the width of a tab from there, the move's answer, and the
/// position after it.
pub fn move_by(width: u32, tab: u32, position: u32, by: i32) -> (u32, Result<i32, i32>, i32) {
    let mut cursor = LineCursor::new(width, tab);
    assert_eq!(cursor.move_cursor_forward(position), Ok(position));
    (cursor.next_tab_width(), cursor.move_cursor(by), cursor.pos().x)
}

/// Whether a line at a y shows, by the crate's vertical cursor.
pub fn shows(settings: &Settings, y: i32) -> bool {
    let mut cursor = Cursor::new(bounds_of(settings), settings.base, LineHeight::Pixels(settings.spacing), settings.tab);
    cursor.y = y;
    cursor.in_display_area()
}

/// Draws a whole text box by the crate's own loop over the lines, every line of it whether it shows or not, and tells what
/// was drawn and what the crate takes for the text's height.
pub fn draw(settings: &Settings, text: &str) -> (Vec<Drawn>, u32) {
    let record = RefCell::new(Vec::new());
    let glyphs = Glyphs { glyph: settings.glyph, base: settings.base, record: Some(&record) };
    let style = style_of(settings);
    let height = style.measure_text_height(&glyphs, text, settings.width);
    let undrawn = TextBox::with_textbox_style(text, bounds_of(settings), glyphs, style).draw(&mut Nowhere).unwrap();
    assert_eq!(undrawn, "");
    (record.into_inner(), height)
}

/// The same font, that only adds up what it draws.
#[derive(Clone, Copy)]
struct Adding<'s> {
    glyphs: Glyphs<'s>,
    sum: &'s Cell<u64>,
}

impl Adding<'_> {
    fn add(&self, width: u32, at: Point) -> Point {
        self.sum.set(self.sum.get() + u64::from(width) + at.x as u64);
        at + Point::new(width as i32, 0)
    }
}

impl TextRenderer for Adding<'_> {
    type Color = Ink;

    fn draw_string<D>(&self, text: &str, at: Point, _baseline: Baseline, _target: &mut D) -> Result<Point, D::Error>
    where
        D: DrawTarget<Color = Ink>,
    {
        Ok(self.add(self.glyphs.width(text), at))
    }

    fn draw_whitespace<D>(&self, width: u32, at: Point, _baseline: Baseline, _target: &mut D) -> Result<Point, D::Error>
    where
        D: DrawTarget<Color = Ink>,
    {
        Ok(self.add(width, at))
    }

    fn measure_string(&self, text: &str, at: Point, baseline: Baseline) -> TextMetrics {
        self.glyphs.measure_string(text, at, baseline)
    }

    fn line_height(&self) -> u32 {
        self.glyphs.line_height()
    }
}

impl CharacterStyle for Adding<'_> {
    type Color = Ink;
}

/// Draws a whole text box by the crate, every line of it, and only adds up what is drawn.
pub fn sum(settings: &Settings, text: &str) -> u64 {
    let sum = Cell::new(0);
    let font = Adding { glyphs: Glyphs { glyph: settings.glyph, base: settings.base, record: None }, sum: &sum };
    TextBox::with_textbox_style(text, bounds_of(settings), font, style_of(settings)).draw(&mut Nowhere).unwrap();
    sum.get()
}
