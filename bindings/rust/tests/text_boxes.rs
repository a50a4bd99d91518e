//! The names of embedded-text: its defaults, and what a text box draws.

use bisquemop::embedded_text::*;
use bisquemop::*;

const FONT: Font = Font::new(6, 10);

/// What a box draws, and what it answers.
fn drawn<'t>(text_box: &TextBox<'t>) -> (Vec<(String, i32, i32)>, Done<'t>) {
    let len = text_box.text.len();
    let (mut table, mut events) = (vec![0; table_room(len + 1)], vec![0; events_room(len)]);
    let mut runs = Vec::new();
    let mut screen = |run: &str, x: i32, y: i32| runs.push((run.to_owned(), x, y));
    let done = text_box.draw(&mut screen, &mut table, &mut events).unwrap();
    (runs, done)
}

fn bounds(width: u32, height: u32) -> Rectangle {
    Rectangle::new(100, 20, width, height)
}

#[test]
fn defaults_are_the_crates() {
    let numbers = |style| *TextBox::with_textbox_style("", bounds(60, 40), FONT, style).settings().unwrap().numbers();
    let plain = numbers(TextBoxStyle::default());
    assert_eq!((plain.glyph, plain.base, plain.spacing, plain.tab), (6, 10, 10, 24));
    assert_eq!((plain.width, plain.height, plain.top, plain.paragraph), (60, 40, 20, 0));
    assert_eq!((plain.alignment, plain.vertical, plain.leading, plain.wrap), (0, 0, 1, 1));
    let all = [HorizontalAlignment::Left, HorizontalAlignment::Center, HorizontalAlignment::Right];
    for (number, alignment) in all.into_iter().chain([HorizontalAlignment::Justified]).enumerate() {
        let set = numbers(TextBoxStyle::with_alignment(alignment));
        assert_eq!((set.alignment, set.leading), (number as u32, u32::from(number == 0)));
    }
    let builder = TextBoxStyleBuilder::new().alignment(HorizontalAlignment::Right).leading_spaces(true);
    assert_eq!(numbers(builder.wrap(Wrap::Drop).build()).wrap, 0);
    assert_eq!(numbers(builder.build()).leading, 1);
    assert_eq!(numbers(TextBoxStyle::with_line_height(LineHeight::Percent(150))).spacing, 15);
    assert_eq!(numbers(TextBoxStyle::with_line_height(LineHeight::Pixels(11))).spacing, 11);
    assert_eq!(numbers(TextBoxStyle::with_tab_size(TabSize::Pixels(9))).tab, 9);
    assert_eq!(numbers(TextBoxStyle::with_tab_size(TabSize::Spaces(2))).tab, 12);
    assert_eq!(numbers(TextBoxStyle::with_paragraph_spacing(7)).paragraph, 7);
    assert_eq!(numbers(TextBoxStyle::with_vertical_alignment(VerticalAlignment::Bottom)).vertical, 2);
}

#[test]
fn runs_stand_where_the_events_are() {
    let (runs, done) = drawn(&TextBox::new("ab\u{ad}cd e\nf", bounds(18, 40), FONT));
    let expected = [("ab", 100, 20), ("-", 112, 20), ("cd", 100, 30), ("e", 100, 40), ("f", 100, 50)];
    assert_eq!(runs, expected.map(|(run, x, y)| (run.to_owned(), x, y)));
    assert_eq!(done, Done { residual: "", dropped: 0 });
}

#[test]
fn what_is_below_the_box_is_left() {
    let (runs, done) = drawn(&TextBox::new("a\nb\nc\nd", bounds(18, 25), FONT));
    assert_eq!(runs.len(), 2);
    assert_eq!(done.residual, "c\nd");
    let (rest, _) = drawn(&TextBox::new(done.residual, bounds(18, 25), FONT));
    assert_eq!(rest.iter().map(|run| run.0.as_str()).collect::<Vec<_>>(), ["c", "d"]);
}

#[test]
fn what_is_above_the_box_is_not_drawn() {
    let style = VerticalAlignment::Bottom;
    let (runs, done) = drawn(&TextBox::with_vertical_alignment("a\nb\nc", bounds(18, 20), FONT, style));
    assert_eq!(runs, [("b".to_owned(), 100, 20), ("c".to_owned(), 100, 30)]);
    assert_eq!(done.residual, "");
    let mut scrolled = TextBox::new("a\nb\nc", bounds(18, 20), FONT);
    let (runs, _) = drawn(scrolled.set_vertical_offset(-10));
    assert_eq!(runs, [("b".to_owned(), 100, 20), ("c".to_owned(), 100, 30)]);
}

#[test]
fn the_word_that_was_lost_is_told_or_waits() {
    let clue = "Who lied?\n            not the baker";
    let dropping = TextBoxStyleBuilder::new().wrap(Wrap::Drop).build();
    let (runs, done) = drawn(&TextBox::with_textbox_style(clue, bounds(72, 100), FONT, dropping));
    assert_eq!((done.dropped, runs.iter().any(|run| run.0 == "not")), (3, false));
    let (runs, done) = drawn(&TextBox::new(clue, bounds(72, 100), FONT));
    assert_eq!((done.dropped, runs.iter().any(|run| run.0 == "not")), (0, true));
}

#[test]
fn a_height_is_told_and_bad_boxes_are_refused() {
    let mut table = [0; table_room(9)];
    assert_eq!(TextBox::new("a\nb\nc", bounds(18, 0), FONT).text_height(&mut table), Ok(30));
    let mut screen = |_: &str, _: i32, _: i32| panic!("a box that is refused draws nothing");
    for bad in [bounds(4097, 5), bounds(5, 4097), Rectangle::new(0, -4097, 5, 5)] {
        let done = TextBox::new("a", bad, FONT).draw(&mut screen, &mut table, &mut [0; 60]);
        assert_eq!(done, Err(Refusal::SettingOutOfRange));
    }
    let small = TextBox::new("a b", bounds(6, 50), FONT).draw(&mut screen, &mut table, &mut []);
    assert!(matches!(small, Err(Refusal::TooSmall(_))));
}

#[test]
fn a_box_that_is_too_low_leaves_all() {
    let (runs, done) = drawn(&TextBox::new("a\nb", bounds(18, 9), FONT));
    assert_eq!((runs.len(), done.residual), (0, "a\nb"));
}
