//! Each call of the library by itself, where it is linked: what it answers when done, and every refusal that it has, after which
//! all that was lent holds what it held.

use crate::examples::Claims;
use crate::EXAMPLE;
use bisquemop::{sys, Edit, Place, Refusal, Which};
use shape::{Settings, Stand, LINE_NUMBERS};

const UNTOUCHED: u32 = 7;

/// Which number of a line is the characters before it.
const CHARS: usize = 10;

/// What a call answers over a buffer of some numbers, and whether it left the buffer alone.
fn lent<T>(numbers: usize, call: impl FnOnce(&mut [u32]) -> T) -> (T, bool) {
    let mut buffer = vec![UNTOUCHED; numbers];
    let answer = call(&mut buffer);
    (answer, buffer.iter().all(|&n| n == UNTOUCHED))
}

/// Settings and a text that a call must refuse, and how.
fn refused() -> Vec<(Settings, Vec<u8>, Refusal)> {
    let good = b"ab cde".to_vec();
    let long = vec![b'a'; 65_536];
    let bad = b"ab\xff".to_vec();
    vec![
        (Settings { glyph: 0, ..EXAMPLE }, good.clone(), Refusal::SettingOutOfRange),
        (Settings { glyph: 65, alignment: 9, ..EXAMPLE }, long.clone(), Refusal::SettingOutOfRange),
        (Settings { top: -4097, ..EXAMPLE }, good.clone(), Refusal::SettingOutOfRange),
        (Settings { trailing: 1, alignment: 9, ..EXAMPLE }, bad.clone(), Refusal::SettingOutOfRange),
        (Settings { wrap: 2, alignment: 9, ..EXAMPLE }, bad.clone(), Refusal::SettingOutOfRange),
        (Settings { alignment: 4, vertical: 3, ..EXAMPLE }, bad.clone(), Refusal::UnknownAlignment(4)),
        (Settings { vertical: 3, ..EXAMPLE }, good, Refusal::UnknownAlignment(3)),
        (EXAMPLE, long, Refusal::TextTooLong(65_536)),
        (EXAMPLE, bad, Refusal::NotUtf8(2)),
    ]
}

/// The table of a text that surely has room.
fn table_of(settings: &Settings, text: &str) -> (Vec<u32>, u64) {
    let mut table = vec![UNTOUCHED; LINE_NUMBERS * (text.len() + 1)];
    let lines = sys::layout(settings, text.as_bytes(), &mut table).expect("a good text and good settings");
    (table, lines)
}

pub fn run(claims: &mut Claims, _specs: &str) {
    checks(claims);
    layouts(claims);
    lines(claims);
    tables(claims);
    again(claims);
    places(claims);
    indexes(claims);
    choices(claims);
    lists(claims);
    columns(claims);
}

fn checks(claims: &mut Claims) {
    claims.equal("check_settings of good ones", sys::check_settings(&EXAMPLE), Ok(()));
    claims.equal("check_text of a good one", sys::check_text("é漢😀".as_bytes()), Ok(()));
    claims.equal("check_text of none", sys::check_text(b""), Ok(()));
    for (settings, text, refusal) in refused() {
        if matches!(refusal, Refusal::SettingOutOfRange | Refusal::UnknownAlignment(_)) {
            claims.equal("check_settings", sys::check_settings(&settings), Err(refusal));
        } else {
            claims.equal("check_text", sys::check_text(&text), Err(refusal));
            claims.equal("tokens", lent(400, |tokens| sys::tokens(&text, tokens)), (Err(refusal), true));
        }
    }
    claims.equal("tokens", lent(12, |tokens| sys::tokens(b"ab cde", tokens)), (Ok(3), false));
    let small = lent(11, |tokens| sys::tokens(b"ab cde", tokens));
    claims.equal("tokens in too small a buffer", small, (Err(Refusal::TooSmall(3)), true));
}

fn layouts(claims: &mut Claims) {
    for (settings, text, refusal) in refused() {
        let found = lent(400, |table| sys::layout(&settings, &text, table));
        claims.equal("layout", found, (Err(refusal), true));
        let found = lent(400, |table| lent(400, |events| sys::layout_events(&settings, &text, table, events)));
        claims.equal("layout_events", found, ((Err(refusal), true), true));
    }
    // Two lines and three events: 22 numbers and 18.
    let text = b"ab cde";
    claims.equal("layout", lent(22, |table| sys::layout(&EXAMPLE, text, table)), (Ok(2), false));
    let small = lent(21, |table| sys::layout(&EXAMPLE, text, table));
    claims.equal("layout in too small a table", small, (Err(Refusal::TooSmall(2)), true));
    let with_events = |lines, drawn| lent(lines, |table| lent(drawn, |events| sys::layout_events(&EXAMPLE, text, table, events)));
    claims.equal("layout_events", with_events(22, 18), ((Ok((2, 3)), false), false));
    claims.equal("layout_events in too small a table", with_events(21, 0), ((Err(Refusal::TooSmall(2)), true), true));
    claims.equal("layout_events in too small a buffer", with_events(22, 17), ((Err(Refusal::TooSmall(3)), true), true));
}

/// The two lines of the scope's example one by one, and every refusal of a start and a rest.
fn lines(claims: &mut Claims) {
    let from = |start, rest_end, rest_count| Stand { start, rest_end, rest_count };
    let laid = |text: &[u8], from| lent(LINE_NUMBERS, |entry| sys::one_line(&EXAMPLE, text, from, entry));
    let text = b"ab cde";
    claims.equal("open", sys::open(&EXAMPLE, text), Ok(0));
    claims.equal("one_line, the first", laid(text, from(0, 0, 0)), (Ok(from(3, 0, 0)), false));
    claims.equal("one_line, the last", laid(text, from(3, 0, 0)), (Ok(from(6, 0, 0)), false));
    claims.equal("one_line at the text's end", laid(text, from(6, 0, 0)), (Ok(from(6, 0, 0)), false));
    claims.equal("one_line of no text", laid(b"", from(0, 0, 0)), (Ok(from(0, 0, 0)), false));
    claims.equal("one_line after a rest", laid(b"abc   d", from(4, 6, 2)), (Ok(from(7, 0, 0)), false));

    for (settings, text, refusal) in refused() {
        claims.equal("open", sys::open(&settings, &text), Err(refusal));
        for stand in [from(0, 0, 0), from(9, 1, 1)] {
            let found = lent(LINE_NUMBERS, |entry| sys::one_line(&settings, &text, stand, entry));
            claims.equal("one_line", found, (Err(refusal), true));
        }
    }
    // A space of one byte, a letter of two, a space of three: boundaries are at 0, 1, 3 and 6.
    let text = " é\u{3000}".as_bytes();
    let bad = [
        from(2, 0, 0),
        from(7, 0, 0),
        from(u32::MAX, 0, 0),
        from(1, 1, 0),
        from(3, 1, 1),
        from(1, 2, 1),
        from(1, 5, 1),
        from(1, 7, 1),
        from(1, 3, 2),
        from(1, 6, 3),
        from(0, 0, 1),
        from(6, 6, 0),
    ];
    for stand in bad {
        claims.equal("one_line from a bad stand", laid(text, stand), (Err(Refusal::BadLine(0)), true));
        let no_room = sys::one_line(&EXAMPLE, text, stand, &mut []);
        claims.equal("one_line from a bad stand, with no room", no_room, Err(Refusal::BadLine(0)));
    }
    for good in [from(0, 0, 0), from(1, 3, 1), from(1, 6, 2), from(3, 6, 0), from(6, 0, 0)] {
        claims.equal("one_line from a good stand", laid(text, good).0.is_ok(), true);
        let small = lent(LINE_NUMBERS - 1, |entry| sys::one_line(&EXAMPLE, text, good, entry));
        claims.equal("one_line in too small an entry", small, (Err(Refusal::TooSmall(1)), true));
    }
}

fn tables(claims: &mut Claims) {
    let (table, lines) = table_of(&EXAMPLE, "aa\nbb\ncc");
    let edit = |a, b, inserted| Edit { a, b, inserted };
    let affected = |lines, edit| sys::first_affected(&table, lines, edit);
    claims.equal("first_affected, the scope's example", affected(lines, edit(3, 3, 1)), Ok(1));
    claims.equal("first_affected of no line", affected(0, edit(3, 3, 1)), Err(Refusal::BadLine(0)));
    claims.equal("first_affected of a part of the lines", affected(2, edit(3, 3, 1)), Err(Refusal::BadLine(1)));
    claims.equal("first_affected of an edit turned round", affected(lines, edit(4, 3, 1)), Err(Refusal::BadEdit));
    claims.equal("first_affected of an edit past the end", affected(lines, edit(3, 9, 1)), Err(Refusal::BadEdit));
    for (line, chars) in [(0, 1), (1, 0), (2, 3), (2, 2), (1, 4), (2, u32::MAX)] {
        let mut bad = table.clone();
        bad[LINE_NUMBERS * line + CHARS] = chars;
        let found = sys::first_affected(&bad, lines, edit(3, 3, 1));
        claims.equal("first_affected of bad counts of characters", found, Err(Refusal::BadLine(line as u64)));
        claims.equal("height of bad counts of characters", sys::height(&EXAMPLE, &bad, lines), {
            Err(Refusal::BadLine(line as u64))
        });
    }
    let long = affected(lines, edit(3, 3, 65_535));
    claims.equal("first_affected of a long edit", long, Err(Refusal::TextTooLong(65_543)));
    let (one, count) = table_of(&EXAMPLE, "ab cde");
    claims.equal("first_affected, the scope's last example", sys::first_affected(&one, count, edit(5, 6, 0)), Ok(0));

    claims.equal("height", sys::height(&EXAMPLE, &table, lines), Ok(8 + 2 * (10 + 3)));
    claims.equal("height of no line", sys::height(&EXAMPLE, &table, 0), Err(Refusal::BadLine(0)));
    let bad = Settings { base: 0, ..EXAMPLE };
    claims.equal("height at a bad setting", sys::height(&bad, &table, lines), Err(Refusal::SettingOutOfRange));
    let bad = Settings { trailing: 1, alignment: 9, ..EXAMPLE };
    claims.equal("height at a retired setting", sys::height(&bad, &table, 0), Err(Refusal::SettingOutOfRange));
    let bad = Settings { wrap: 2, vertical: 3, ..EXAMPLE };
    claims.equal("height at an unknown wrap", sys::height(&bad, &table, 0), Err(Refusal::SettingOutOfRange));
    let bad = Settings { vertical: 3, ..EXAMPLE };
    claims.equal("height at an unknown alignment", sys::height(&bad, &table, 0), Err(Refusal::UnknownAlignment(3)));
}

/// The scope's example of laying again, and the refusals of it.
fn again(claims: &mut Claims) {
    let (table, lines) = table_of(&EXAMPLE, "aa\nbb\ncc");
    let edit = Edit { a: 3, b: 3, inserted: 1 };
    let mut laid = table.clone();
    let answer = sys::lay_again(&EXAMPLE, b"xbb\ncc", &mut laid, lines, edit);
    claims.equal("lay_again, the scope's example", answer, Ok((3, 1)));
    let starts: Vec<u32> = laid.chunks_exact(LINE_NUMBERS).take(3).map(|line| line[0]).collect();
    claims.equal("lay_again, the scope's example: starts", starts, vec![0, 3, 7]);

    let mut refuse = |words, settings: &Settings, part: &[u8], room: usize, lines, edit, refusal| {
        let mut lent = table[..LINE_NUMBERS * room].to_vec();
        let answer = sys::lay_again(settings, part, &mut lent, lines, edit);
        claims.equal(words, (answer, lent == table[..LINE_NUMBERS * room]), (Err(refusal), true));
    };
    let bad = Settings { tab: 4097, ..EXAMPLE };
    refuse("lay_again at a bad setting", &bad, b"xbb\ncc", 9, lines, edit, Refusal::SettingOutOfRange);
    let bad = Settings { trailing: 1, alignment: 4, ..EXAMPLE };
    refuse("lay_again at a retired setting", &bad, b"xbb\ncc", 9, lines, edit, Refusal::SettingOutOfRange);
    let bad = Settings { wrap: 2, alignment: 4, ..EXAMPLE };
    refuse("lay_again at an unknown wrap", &bad, b"xbb\ncc", 9, lines, edit, Refusal::SettingOutOfRange);
    let bad = Settings { alignment: 4, ..EXAMPLE };
    refuse("lay_again at an unknown alignment", &bad, b"xbb\ncc", 9, lines, edit, Refusal::UnknownAlignment(4));
    refuse("lay_again with a part that is not UTF-8", &EXAMPLE, b"x\xffb\ncc", 9, lines, edit, Refusal::NotUtf8(1));
    refuse("lay_again with a part that is too short", &EXAMPLE, b"xbb\nc", 9, lines, edit, Refusal::BadEdit);
    refuse("lay_again with no line", &EXAMPLE, b"xbb\ncc", 9, 0, edit, Refusal::BadLine(0));
    let turned = Edit { a: 4, ..edit };
    refuse("lay_again with an edit turned round", &EXAMPLE, b"xbb\ncc", 9, lines, turned, Refusal::BadEdit);
    // A line more, and no room for it.
    refuse("lay_again in too small a table", &EXAMPLE, b"\nbb\ncc", 3, lines, edit, Refusal::TooSmall(4));
}

fn places(claims: &mut Claims) {
    let (table, lines) = table_of(&EXAMPLE, "aa\nbb\ncc");
    let place = |line| sys::line_y(&EXAMPLE, &table, lines, line);
    let at = |y, shows| Ok(Some(Place { y, shows }));
    claims.equal("line_y of the first line", place(0), at(-5, true));
    claims.equal("line_y of the second line", place(1), at(8, true));
    claims.equal("line_y of the third line", place(2), at(21, true));
    claims.equal("line_y of no line", place(3), Ok(None));
    let low = Settings { height: 33, ..EXAMPLE };
    claims.equal("line_y of a line that is cut off", sys::line_y(&low, &table, lines, 2), {
        Ok(Some(Place { y: 21, shows: false }))
    });
    claims.equal("line_y in no table", sys::line_y(&EXAMPLE, &[], 0, 0), Err(Refusal::BadLine(0)));
    let bad = Settings { base: 0, ..EXAMPLE };
    claims.equal("line_y at a bad setting", sys::line_y(&bad, &table, lines, 0), Err(Refusal::SettingOutOfRange));
    let bad = Settings { trailing: 1, alignment: 4, ..EXAMPLE };
    claims.equal("line_y at a retired setting", sys::line_y(&bad, &table, lines, 0), Err(Refusal::SettingOutOfRange));
    let bad = Settings { wrap: 2, vertical: 3, ..EXAMPLE };
    claims.equal("line_y at an unknown wrap", sys::line_y(&bad, &table, lines, 0), Err(Refusal::SettingOutOfRange));
}

fn indexes(claims: &mut Claims) {
    let (table, lines) = table_of(&EXAMPLE, "aa\nbb\rcc");
    let made = |settings: &Settings, lines, room| {
        let mut ys = vec![7; room];
        let answer = sys::index(settings, &table, lines, &mut ys);
        (answer, ys)
    };
    claims.equal("index", made(&EXAMPLE, lines, 4), (Ok(3), vec![-5, 8, 8, 7]));
    claims.equal("index in too little room", made(&EXAMPLE, lines, 2), (Err(Refusal::TooSmall(3)), vec![7, 7]));
    claims.equal("index of no line", made(&EXAMPLE, 0, 1), (Err(Refusal::BadLine(0)), vec![7]));
    let bad = Settings { vertical: 3, ..EXAMPLE };
    claims.equal("index at an unknown alignment", made(&bad, lines, 3), (Err(Refusal::UnknownAlignment(3)), vec![7, 7, 7]));
    let again = |vertical, first| {
        let mut ys = vec![7; 3];
        let answer = sys::index_again(&Settings { vertical, ..EXAMPLE }, &table, lines, first, &mut ys);
        (answer, ys)
    };
    claims.equal("index_again at the top", again(0, 1), (Ok(3), vec![7, 8, 8]));
    claims.equal("index_again past the last line", again(0, 3), (Ok(3), vec![7, 7, 7]));
    claims.equal("index_again at the bottom", again(2, 1), (Ok(3), vec![14, 27, 27]));
    let found = |ys: &[i32], y| sys::find_line(&table, lines, ys, y);
    claims.equal("find_line above all", found(&[-5, 8, 8], -6), Ok(None));
    claims.equal("find_line", found(&[-5, 8, 8], 7), Ok(Some(0)));
    claims.equal("find_line of two that share a y", found(&[-5, 8, 8], 8), Ok(Some(2)));
    claims.equal("find_line in an index that is short", found(&[-5, 8], 8), Err(Refusal::BadIndex(2)));
    claims.equal("find_line in an index that falls", found(&[-5, 8, 7], 8), Err(Refusal::BadIndex(2)));
}

/// A long text or a short one.
fn choices(claims: &mut Claims) {
    let chosen = |long: &str, short: &str, h| sys::choose(&EXAMPLE, long.as_bytes(), short.as_bytes(), h);
    claims.equal("choose at exactly its lines", chosen("ab cde", "x", 2), Ok((Which::Long, 6, 0)));
    claims.equal("choose in a line too few", chosen("ab cde", "ab cd", 1), Ok((Which::Short, 5, 0)));
    claims.equal("choose a part", chosen("ab cde", "é bcdé", 1), Ok((Which::Short, 3, 4)));
    let bad = Settings { alignment: 4, ..EXAMPLE };
    claims.equal("choose in no line", sys::choose(&bad, b"\xff", b"", 0), Err(Refusal::SettingOutOfRange));
    for (settings, text, refusal) in refused() {
        claims.equal("choose of a long text", sys::choose(&settings, &text, b"", 9), Err(refusal));
        claims.equal("choose of a short text", sys::choose(&settings, b"", &text, 9), Err(refusal));
    }
}

/// Pages of a text, listed and listed again.
fn lists(claims: &mut Claims) {
    // Three lines, two pages: 33 numbers and 6.
    let listed = |settings: &Settings, text: &[u8], h, table, room| {
        let mut pages = vec![UNTOUCHED; room];
        let answer = lent(table, |table| sys::pages(settings, text, h, table, &mut pages));
        (answer, pages)
    };
    let text = b"aa\nbb\ncc";
    claims.equal("pages", listed(&EXAMPLE, text, 2, 33, 7), ((Ok((3, 2)), false), vec![0, 0, 6, 2, 6, 8, UNTOUCHED]));
    let refused_with = |refusal, room| ((Err(refusal), true), vec![UNTOUCHED; room]);
    claims.equal("pages in too small a table", listed(&EXAMPLE, text, 2, 32, 5), refused_with(Refusal::TooSmall(3), 5));
    claims.equal("pages in too small a list", listed(&EXAMPLE, text, 2, 33, 5), refused_with(Refusal::TooSmall(2), 5));
    let bad = Settings { alignment: 4, ..EXAMPLE };
    claims.equal("pages of no line", listed(&bad, b"\xff", 0, 33, 6), refused_with(Refusal::SettingOutOfRange, 6));
    for (settings, text, refusal) in refused() {
        claims.equal("pages", listed(&settings, &text, 2, 400, 99), refused_with(refusal, 99));
    }

    let (table, lines) = table_of(&EXAMPLE, "aa\nbb\ncc");
    let again = |lines, h, first, room| {
        let mut pages = vec![UNTOUCHED; room];
        (sys::pages_again(&table, lines, h, first, &mut pages), pages)
    };
    claims.equal("pages_again from the first line on", again(lines, 2, 0, 7), (Ok(2), vec![0, 0, 6, 2, 6, 8, UNTOUCHED]));
    claims.equal("pages_again", again(lines, 2, 2, 6), (Ok(2), vec![UNTOUCHED, UNTOUCHED, UNTOUCHED, 2, 6, 8]));
    claims.equal("pages_again past the last line", again(lines, 2, 3, 6), (Ok(2), vec![UNTOUCHED; 6]));
    claims.equal("pages_again in too small a list", again(lines, 1, 0, 8), (Err(Refusal::TooSmall(3)), vec![UNTOUCHED; 8]));
    claims.equal("pages_again of no table", again(0, 1, 0, 9), (Err(Refusal::BadLine(0)), vec![UNTOUCHED; 9]));
    claims.equal("pages_again of a bad table", again(2, 2, 0, 1), (Err(Refusal::BadLine(1)), vec![UNTOUCHED; 1]));
    claims.equal("pages_again of no line", again(0, 0, 0, 9), (Err(Refusal::SettingOutOfRange), vec![UNTOUCHED; 9]));
}

/// A width that is checked, and one that is proposed.
fn columns(claims: &mut Claims) {
    let fit = |width, text: &str, h| sys::columns_fit(&Settings { width, ..EXAMPLE }, text.as_bytes(), h);
    let plan = |text: &str, h| sys::columns_plan(&EXAMPLE, text.as_bytes(), h);
    claims.equal("columns_fit", fit(18, "ab cde", 2), Ok(true));
    claims.equal("columns_fit in a line too few", fit(18, "ab cde", 1), Ok(false));
    claims.equal("columns_fit with a word dropped", fit(30, "     ab", 2), Ok(false));
    claims.equal("columns_fit narrower than a glyph", fit(5, "a", 9), Ok(false));
    claims.equal("columns_plan", plan("ab cde", 2), Ok(Some(18)));
    claims.equal("columns_plan for one line", plan("ab cde", 1), Ok(Some(36)));
    claims.equal("columns_plan of nothing", plan("", 1), Ok(Some(0)));
    claims.equal("columns_plan where there is none", plan("a\nb", 1), Ok(None));
    let bad = Settings { alignment: 4, ..EXAMPLE };
    claims.equal("columns_fit in no line", sys::columns_fit(&bad, b"\xff", 0), Err(Refusal::SettingOutOfRange));
    claims.equal("columns_plan in no line", sys::columns_plan(&bad, b"\xff", 0), Err(Refusal::SettingOutOfRange));
    for (settings, text, refusal) in refused() {
        claims.equal("columns_fit", sys::columns_fit(&settings, &text, 9), Err(refusal));
        claims.equal("columns_plan", sys::columns_plan(&settings, &text, 9), Err(refusal));
    }
}
