//! What the types answer for texts whose layout is known, and that the several ways to the same layout agree.

use bisquemop::*;

const CLUE: &str = "Who lied?\n            not the baker, not his wife.";

/// The settings of the rules' examples, in a box 30 wide.
fn example() -> SettingsBuilder {
    Settings::builder(6, 8).width(30).spacing(10).paragraph(3).height(40).top(-5).wrap(Wrap::Drop)
}

fn room(text: &str) -> Vec<u32> {
    vec![0; table_room(text.len() + 1)]
}

#[test]
fn lines_have_their_numbers() {
    let (text, mut table) = ("ab cde", [0; table_room(2)]);
    let layout = Layout::lay(example().build().unwrap(), text, &mut table).unwrap();
    let first = layout.line(0).unwrap();
    assert_eq!((first.start, first.next, first.end, first.rest), (0, 3, LineEnd::LineBreak, None));
    assert_eq!((first.left, first.space, first.extra, first.width), (0, 6, 0, 12));
    let last = layout.line(1).unwrap();
    assert_eq!((last.start, last.next, last.end, last.chars), (3, 6, LineEnd::EndOfText, 3));
    assert_eq!((last.reach, last.dropped, last.text(text)), (7, 0, "cde"));
    assert_eq!(layout.line(2), None);
    let numbers: Vec<u32> = layout.lines().flat_map(|line| line.numbers()).collect();
    assert_eq!(numbers, layout.table());
}

#[test]
fn lines_go_both_ways() {
    let mut table = room(CLUE);
    let layout = Layout::lay(example().build().unwrap(), CLUE, &mut table).unwrap();
    let forth: Vec<Line> = layout.lines().collect();
    let mut back: Vec<Line> = layout.lines().rev().collect();
    back.reverse();
    assert_eq!(forth, back);
    assert_eq!(layout.lines().len(), layout.line_count());
    assert_eq!((0..forth.len()).filter_map(|k| layout.line(k)).collect::<Vec<_>>(), forth);
    assert_eq!(forth.iter().map(|line| line.text(CLUE)).collect::<String>(), CLUE);
}

#[test]
fn a_rest_is_told() {
    let (text, settings) = ("a   b", example().width(6).build().unwrap());
    let mut table = room(text);
    let layout = Layout::lay(settings, text, &mut table).unwrap();
    let rests: Vec<(u32, Rest)> = layout.lines().filter_map(|line| Some((line.start, line.rest?))).collect();
    assert_eq!(rests.first(), Some(&(2, Rest { end: 4, count: 2 })));
    assert!(rests.iter().all(|(start, rest)| rest.end == 4 && rest.count == 4 - start));
}

#[test]
fn words_drop_or_wait() {
    let mut table = room(CLUE);
    let dropping = example().width(72).build().unwrap();
    let layout = Layout::lay(dropping, CLUE, &mut table).unwrap();
    let lost: Vec<&str> = layout.lines().map(|line| line.dropped_text(CLUE)).filter(|lost| !lost.is_empty()).collect();
    assert_eq!((layout.dropped(), lost), (3, vec!["not"]));
    let waiting = dropping.to_builder().wrap(Wrap::Wait).build().unwrap();
    assert_eq!(Layout::lay(waiting, CLUE, &mut table).unwrap().dropped(), 0);
}

#[test]
fn a_line_at_a_time_is_the_layout() {
    for wrap in [Wrap::Drop, Wrap::Wait] {
        for width in 0..80 {
            let settings = example().width(width).wrap(wrap).build().unwrap();
            let mut table = room(CLUE);
            let layout = Layout::lay(settings, CLUE, &mut table).unwrap();
            let mut lines = OneLine::open(settings, CLUE).unwrap();
            for line in layout.lines() {
                let stand = lines.stand().unwrap();
                assert_eq!(one_line(&settings, CLUE, stand).unwrap().0, line);
                assert_eq!(lines.next(), Some(line));
            }
            assert_eq!((lines.next(), lines.stand(), lines.next()), (None, None, None));
        }
    }
}

#[test]
fn places_are_those_that_the_library_answers() {
    let text = "aa\nbb\rcc dddd\n\nee ffff";
    for vertical in [Vertical::Top, Vertical::Middle, Vertical::Bottom] {
        for height in 0..90 {
            let settings = example().height(height).vertical(vertical).build().unwrap();
            let mut table = room(text);
            let layout = Layout::lay(settings, text, &mut table).unwrap();
            let mut ys = vec![0; layout.line_count()];
            let index = layout.index(&mut ys).unwrap();
            for (k, (line, place)) in layout.places().unwrap().enumerate() {
                assert_eq!(layout.place(k), Ok(Some(place)));
                assert_eq!((layout.line(k), index.ys().get(k)), (Some(line), Some(&place.y)));
            }
            assert_eq!(layout.place(layout.line_count()), Ok(None));
        }
    }
}

#[test]
fn laying_again_is_laying_afresh() {
    let mut text = String::from(CLUE);
    let settings = Settings::builder(6, 8).width(72).build().unwrap();
    let (mut table, mut ys, mut list) = (vec![0; 2000], vec![0; 100], vec![0; 300]);
    let mut layout = Layout::lay(settings, &text, &mut table).unwrap();
    let mut index = layout.index(&mut ys).unwrap();
    let mut pages = layout.pages(2, &mut list).unwrap();
    for (range, by) in [(10..22, " "), (15..18, "a fiancée\n"), (0..0, "1 2 3 "), (3..40, ""), (0..1, "ab\ncd")] {
        let edit = Edit::replace(range.clone(), by);
        text.replace_range(range, by);
        let again = layout.lay_again(edit, &text).unwrap();
        index.again(&layout, again.first).unwrap();
        pages.again(&layout, again.first).unwrap();

        let (mut fresh, mut fresh_ys, mut fresh_list) = (vec![0; 2000], vec![0; 100], vec![0; 300]);
        let (laid, listed) = Layout::lay_pages(settings, &text, 2, &mut fresh, &mut fresh_list).unwrap();
        assert_eq!(layout.table(), laid.table());
        assert_eq!(index.ys(), laid.index(&mut fresh_ys).unwrap().ys());
        assert!(pages.iter().eq(&listed));
        assert_eq!(again.lines, laid.line_count());
    }
}

#[test]
fn a_part_is_enough_to_lay_again() {
    let settings = Settings::builder(6, 8).width(72).build().unwrap();
    let (mut table, mut other) = (vec![0; 2000], vec![0; 2000]);
    let mut layout = Layout::lay(settings, "aa\nbb\ncc", &mut table).unwrap();
    let edit = Edit::insert(3, "x");
    assert_eq!(layout.first_affected(edit), Ok(1));
    assert_eq!(layout.lay_again_part(edit, "xbb\ncc"), Ok(Again { first: 1, laid: 1, lines: 3 }));
    assert_eq!(layout.table(), Layout::lay(settings, "aa\nxbb\ncc", &mut other).unwrap().table());
    assert_eq!(layout.lay_again(Edit::remove(3..4), "aa\nb"), Err(Refusal::BadEdit));
    assert_eq!(layout.lay_again(Edit::remove(0..9), "no"), Err(Refusal::BadEdit));
}

#[test]
fn events_cover_what_is_drawn() {
    let text = "co\u{ad}operate at\u{a0}9\tx";
    let settings = example().width(36).build().unwrap();
    let (mut table, mut events) = (room(text), vec![0; events_room(text.len())]);
    let (layout, events) = Layout::lay_events(settings, text, &mut table, &mut events).unwrap();
    let shown: Vec<&str> = events.clone().map(|event| event.shown(text)).filter(|shown| !shown.is_empty()).collect();
    assert_eq!(shown.concat().replace('-', ""), "cooperateat9x");
    assert!(events.clone().any(|event| event.kind == Drawn::Space && event.shown(text).is_empty()));
    assert!(events.map(|event| event.range()).all(|range| range.end <= text.len()));
    assert!(layout.line_count() > 1);
}

#[test]
fn tokens_cover_a_text() {
    let text = "ab \t\r\nc\u{ad}d\u{200b}\u{a0}";
    let mut numbers = vec![0; tokens_room(text.len())];
    let found: Vec<Token> = tokens(text, &mut numbers).unwrap().collect();
    assert_eq!(found.iter().filter_map(|token| text.get(token.range())).collect::<String>(), text);
    let kinds: Vec<Kind> = found.iter().map(|token| token.kind).collect();
    let start = [Kind::Word, Kind::Whitespace, Kind::Tab, Kind::CarriageReturn, Kind::NewLine, Kind::Word, Kind::Break];
    assert_eq!(kinds[..7], start);
}

#[test]
fn characters_are_found() {
    let text = "été à\nla fiancée";
    let mut table = room(text);
    let layout = Layout::lay(example().build().unwrap(), text, &mut table).unwrap();
    for (k, _) in text.chars().enumerate() {
        let line = layout.line(layout.line_of_char(k as u32)).unwrap();
        let within = k - line.chars as usize;
        assert_eq!(line.text(text).chars().nth(within), text.chars().nth(k));
    }
}

#[test]
fn a_layout_travels() {
    let settings = example().alignment(Alignment::Justified).build().unwrap();
    let (mut here, mut there) = (room(CLUE), room(CLUE));
    let layout = Layout::lay(settings, CLUE, &mut here).unwrap();
    let mut file = vec![0; file_room(layout.line_count())];
    assert_eq!(layout.write_file(&mut file), Ok(file.len()));
    let (read, len) = Layout::read_file(&file, &mut there).unwrap();
    assert_eq!((read.settings(), read.table(), len), (&settings, layout.table(), CLUE.len()));

    // trailing spaces on: the twelfth setting
    file[3 + 4 * 11] = 1;
    let bad = Layout::read_file(&file, &mut there).unwrap_err();
    assert_eq!(bad, BadFile { refusal: Refusal::RetiredSetting, settings: Some(settings) });
}

#[test]
fn a_kept_table_is_taken_up() {
    let settings = example().build().unwrap();
    let mut table = room("aa\nbb");
    let lines = Layout::lay(settings, "aa\nbb", &mut table).unwrap().line_count();
    assert_eq!(Layout::from_table(settings, &mut table, lines).unwrap().line_count(), 2);
    assert_eq!(Layout::from_table(settings, &mut table, 1).unwrap_err(), Refusal::BadLine(0));
    table[LINE_NUMBERS] = 0;
    assert_eq!(Layout::from_table(settings, &mut table, lines).unwrap_err(), Refusal::BadLine(1));
}

#[test]
fn other_heights_move_no_line() {
    let mut table = room("aa\nbb");
    let mut layout = Layout::lay(example().build().unwrap(), "aa\nbb", &mut table).unwrap();
    layout.stand_by(&example().width(6).top(100).spacing(20).build().unwrap()).unwrap();
    assert_eq!(layout.settings().numbers().width, 30);
    assert_eq!(layout.place(1), Ok(Some(Place { y: 123, shows: true })));
}

#[test]
fn a_text_is_chosen_and_fits() {
    let settings = Settings::builder(6, 8).width(72).build().unwrap();
    let lines = Layout::lay(settings, CLUE, &mut room(CLUE)).unwrap().line_count() as u32;
    for h in 1..10 {
        assert_eq!(columns_fit(&settings, CLUE, h), Ok(lines <= h));
        let choice = choose(&settings, CLUE, "Not the baker.", h).unwrap();
        assert_eq!(choice.which == Which::Long, lines <= h);
        let part = choice.part(CLUE, "Not the baker.");
        let whole = if choice.which == Which::Long { CLUE } else { "Not the baker." };
        assert_eq!(part.chars().count() as u64 + choice.left_out, whole.chars().count() as u64);
        if let Some(width) = columns_plan(&settings, CLUE, h).unwrap() {
            let narrow = |width| settings.to_builder().width(width).build().unwrap();
            assert_eq!(columns_fit(&narrow(width), CLUE, h), Ok(true));
            assert_eq!(columns_fit(&narrow(width - 1), CLUE, h), Ok(false));
        }
    }
}
