//! Every refusal, by its number, its value and its words.

use bisquemop::*;

fn settings() -> Settings {
    Settings::builder(6, 8).width(30).build().unwrap()
}

#[test]
fn refusals_have_numbers_values_and_words() {
    let all = [
        (Refusal::SettingOutOfRange, 1, 0),
        (Refusal::UnknownAlignment(9), 2, 9),
        (Refusal::TextTooLong(65_536), 3, 65_536),
        (Refusal::NotUtf8(2), 4, 2),
        (Refusal::BadLine(3), 5, 3),
        (Refusal::BadEdit, 6, 0),
        (Refusal::TooSmall(4), 8, 4),
        (Refusal::BadField(55), 9, 55),
        (Refusal::BadIndex(2), 10, 2),
        (Refusal::OldEntry(65), 11, 65),
        (Refusal::RetiredSetting, 12, 0),
        (Refusal::Other { number: 99, value: 7 }, 99, 7),
    ];
    for (refusal, number, value) in all {
        assert_eq!((refusal.number(), refusal.value()), (number, value));
        let words = refusal.to_string();
        assert!(words.len() > 10, "{words}");
        assert!(value == 0 || words.contains(&value.to_string()), "{words}");
    }
}

#[test]
fn settings_are_checked_by_the_library() {
    let of = |change: fn(&mut Numbers)| {
        let mut numbers = *settings().numbers();
        change(&mut numbers);
        Settings::from_numbers(numbers)
    };
    let good: [fn(&mut Numbers); 4] =
        [|n| n.glyph = 64, |n| n.width = 4096, |n| n.top = -4096, |n| (n.alignment, n.vertical) = (3, 2)];
    for change in good {
        assert!(of(change).is_ok());
    }
    let bad: [fn(&mut Numbers); 11] = [
        |n| n.glyph = 0,
        |n| n.glyph = 65,
        |n| n.width = 4097,
        |n| n.tab = 4097,
        |n| n.spacing = 4097,
        |n| n.paragraph = 4097,
        |n| n.base = 0,
        |n| n.top = -4097,
        |n| n.leading = 2,
        |n| n.trailing = 1,
        |n| n.wrap = 2,
    ];
    for change in bad {
        assert_eq!(of(change), Err(Refusal::SettingOutOfRange));
    }
    assert_eq!(of(|n| n.alignment = 4), Err(Refusal::UnknownAlignment(4)));
    assert_eq!(of(|n| n.vertical = 3), Err(Refusal::UnknownAlignment(3)));
    assert_eq!(Settings::builder(u32::MAX, 8).build(), Err(Refusal::SettingOutOfRange));
}

#[test]
fn texts_are_checked() {
    let long = vec![b'a'; TEXT_MAX + 1];
    for (text, refusal) in [(&long[..], Refusal::TextTooLong(65_536)), (b"ab\xff", Refusal::NotUtf8(2))] {
        let (mut table, mut more) = (vec![7; table_room(65_537)], vec![7; 65_536 * 6]);
        assert_eq!(check_text(text), Err(refusal));
        assert_eq!(tokens(text, &mut table).unwrap_err(), refusal);
        assert_eq!(Layout::lay(settings(), text, &mut table).unwrap_err(), refusal);
        assert_eq!(Layout::lay_events(settings(), text, &mut table, &mut more).unwrap_err(), refusal);
        assert_eq!(Layout::lay_pages(settings(), text, 2, &mut table, &mut more).unwrap_err(), refusal);
        assert_eq!(OneLine::open(settings(), text).unwrap_err(), refusal);
        assert_eq!(choose(&settings(), text, "a", 2).unwrap_err(), refusal);
        assert_eq!(choose(&settings(), "a", text, 2).unwrap_err(), refusal);
        assert_eq!(columns_fit(&settings(), text, 2).unwrap_err(), refusal);
        assert_eq!(columns_plan(&settings(), text, 2).unwrap_err(), refusal);
        assert!(table.iter().chain(&more).all(|&number| number == 7));
    }
}

#[test]
fn too_small_says_what_is_needed() {
    let (mut table, mut more) = ([7; 33], [7; 18]);
    assert_eq!(Layout::lay(settings(), "ab cde", &mut table[..21]).unwrap_err(), Refusal::TooSmall(2));
    assert_eq!(tokens("ab cde", &mut table[..11]).unwrap_err(), Refusal::TooSmall(3));
    let drawn = Layout::lay_events(settings(), "ab cde", &mut table, &mut more[..17]);
    assert_eq!(drawn.unwrap_err(), Refusal::TooSmall(3));
    let pages = Layout::lay_pages(settings(), "ab cde", 1, &mut table, &mut more[..5]);
    assert_eq!(pages.unwrap_err(), Refusal::TooSmall(2));
    assert!(table.iter().chain(&more).all(|&number| number == 7));
    let layout = Layout::lay(settings(), "ab cde", &mut table).unwrap();
    assert_eq!(layout.index(&mut [7]).unwrap_err(), Refusal::TooSmall(2));
    assert_eq!(layout.pages(2, &mut []).unwrap_err(), Refusal::TooSmall(1));
    assert_eq!(layout.write_file(&mut [0; 10]), Err(Refusal::TooSmall(file_room(2) as u64)));
}

#[test]
fn no_lines_is_no_limit() {
    let (mut table, mut list) = ([7; 33], [7; 18]);
    assert_eq!(Layout::lay_pages(settings(), "a", 0, &mut table, &mut list).unwrap_err(), Refusal::SettingOutOfRange);
    assert_eq!(choose(&settings(), "a", "a", 0), Err(Refusal::SettingOutOfRange));
    assert_eq!(columns_fit(&settings(), "a", 0), Err(Refusal::SettingOutOfRange));
    assert_eq!(columns_plan(&settings(), "a", 0), Err(Refusal::SettingOutOfRange));
    let layout = Layout::lay(settings(), "a", &mut table).unwrap();
    assert_eq!(layout.pages(0, &mut list).unwrap_err(), Refusal::SettingOutOfRange);
}

#[test]
fn edits_starts_and_indexes_are_checked() {
    let (mut table, mut other, mut ys) = (vec![0; 99], vec![0; 99], vec![0; 9]);
    let mut layout = Layout::lay(settings(), "aa\nbb\ncc", &mut table).unwrap();
    let edit = |a, b, inserted| Edit { a, b, inserted };
    assert_eq!(layout.first_affected(edit(4, 3, 1)), Err(Refusal::BadEdit));
    assert_eq!(layout.first_affected(edit(3, 9, 1)), Err(Refusal::BadEdit));
    assert_eq!(layout.first_affected(edit(3, 3, 65_535)), Err(Refusal::TextTooLong(65_543)));
    assert_eq!(layout.lay_again_part(edit(3, 3, 1), b"x\xffb\ncc"), Err(Refusal::NotUtf8(1)));
    let past = Stand { start: 9, ..Stand::default() };
    assert_eq!(one_line(&settings(), "aa", past), Err(Refusal::BadLine(0)));
    assert_eq!(OneLine::resume(settings(), "aa", past).unwrap_err(), Refusal::BadLine(0));
    let index = layout.index(&mut ys).unwrap();
    let shorter = Layout::lay(settings(), "aa", &mut other).unwrap();
    assert_eq!(index.line_under(&shorter, 0), Err(Refusal::BadIndex(3)));
}

#[test]
fn files_are_checked() {
    let mut table = vec![7; 99];
    let read = |file: &[u8], table: &mut [u32]| Layout::read_file(file, table).map(|_| ()).unwrap_err();
    assert_eq!(read(b"", &mut table), Refusal::BadField(0).into());
    assert_eq!(read(&[9; 80], &mut table), Refusal::BadField(0).into());
    assert!(table.iter().all(|&number| number == 7));
    assert_eq!(read(b"", &mut table).to_string(), "the layout file has a bad field at byte 0");
}
