//! What is counted for speed: one piece of work, done so many times. A counter outside of the program counts its instructions, once for n
//! times and once for 2n, and the difference is n times the work.

use bisquemop::{sys, Edit};
use embedded_text_wrapping::plugin::probe as wrapping;
use shape::{Settings, Stand, LINE_NUMBERS};
use std::hint::black_box;

/// A clue a line. devices/bench.c lays the same on other machines.
const ENGLISH: &str = include_str!("../../samples/clues.txt");

const FRENCH: [&str; 5] = [
    "Ce n’est pas le boulanger\u{202f}!",
    "Où était le maître d’hôtel à minuit, et pourquoi la fenêtre était-elle fermée\u{202f}?",
    "Prix du tableau\u{a0}: 12\u{202f}345\u{a0}€, payés en pièces.",
    "«\u{a0}Répétez, dit-elle, l’énigme d’été\u{a0}: le père a été forcé de mentir à sa fille aînée, qui n’a rien cru.\u{a0}»",
    "Échangez les deux premières lettres du mot caché, puis lisez-le à l’envers\u{a0}: il désigne un métier oublié depuis un siècle.",
];

const JAPANESE: [&str; 4] = [
    "犯人はパン屋ではありません。",
    "三番目の植木鉢の下に鍵があります。だれにも言わないでください。",
    "時計が十二時を打つ前に、赤い扉を開けた人はだれでしょうか。　手がかりは手紙の中にあります。",
    "ひらがなだけで書かれた手紙を、さかさまに読んでください。すると、町の名前と、その町でいちばん古い橋の名前がわかります。　答えは次のページです。",
];

/// A text from sentences, one after the other, of so many bytes at most.
fn repeated(sentences: impl Iterator<Item = &'static str> + Clone, bytes: usize) -> String {
    let mut text = String::new();
    for part in sentences.cycle().flat_map(|sentence| sentence.chars().chain([' '])) {
        if text.len() + part.len_utf8() > bytes {
            return text;
        }
        text.push(part);
    }
    text
}

/// A first part and then as many of a second as there is room for.
fn filled(first: &str, then: &str, bytes: usize) -> String {
    first.to_owned() + &then.repeat((bytes - first.len()) / then.len())
}

/// Sentences of so many bytes in which a part takes the place of what stands there, each so many bytes.
fn parted(text: &str, part: &str, each: usize) -> String {
    let mut bytes = text.as_bytes().to_vec();
    for at in (each..bytes.len()).step_by(each) {
        bytes[at - part.len()..at].copy_from_slice(part.as_bytes());
    }
    String::from_utf8(bytes).expect("the sentences are ASCII")
}

/// The texts of a workload: several clues, or one text of so many bytes.
fn texts(name: &str, bytes: usize) -> Option<Vec<String>> {
    let clues = |from: &[&str]| from.iter().map(|&text| text.to_owned()).collect();
    Some(match name {
        "english" => ENGLISH.lines().map(str::to_owned).collect(),
        "french" => clues(&FRENCH),
        "japanese" => clues(&JAPANESE),
        "prose" => vec![repeated(ENGLISH.lines(), bytes)],
        "paragraphs" => vec![parted(&repeated(ENGLISH.lines(), bytes), "s\n", 60)],
        "spaced" => vec![parted(&repeated(ENGLISH.lines(), bytes), "s \n", 60)],
        "tabbed" => vec![parted(&repeated(ENGLISH.lines(), bytes), "\t", 40)],
        "tabbed-spaced" => vec![parted(&parted(&repeated(ENGLISH.lines(), bytes), "\t", 40), "s \n", 60)],
        "word" => vec![filled("", "a", bytes)],
        "tabs" => vec![filled("a", "\t", bytes)],
        "zero-width" => vec![filled("a", "\u{200b}", bytes)],
        "hyphens" => vec![filled("", "a\u{ad}", bytes)],
        "glue" => vec![filled("", "\u{a0}", bytes)],
        "spaces" => vec![filled("", " ", bytes)],
        _ => return None,
    })
}

fn settings_for(name: &str, glyphs: u32, alignment: u32) -> Settings {
    let tab = if name == "tabs" { 0 } else { 24 };
    Settings { width: 6 * glyphs, tab, alignment, ..crate::EXAMPLE }
}

/// Room for any layout.
struct Room {
    table: Vec<u32>,
    events: Vec<u32>,
}

impl Room {
    fn new() -> Room {
        Room { table: vec![0; LINE_NUMBERS * 65_536], events: vec![0; 6 * 131_072] }
    }
}

fn layout(settings: &Settings, texts: &[String], room: &mut Room) {
    for text in texts {
        black_box(sys::layout(settings, text.as_bytes(), &mut room.table)).expect("a good text");
    }
}

fn events(settings: &Settings, texts: &[String], room: &mut Room) {
    for text in texts {
        black_box(sys::layout_events(settings, text.as_bytes(), &mut room.table, &mut room.events)).expect("a good text");
    }
}

fn by_crate(settings: &Settings, texts: &[String]) {
    for text in texts {
        black_box(wrapping::sum(settings, text));
    }
}

/// A character is typed at a place and taken away again: two edits.
fn typed(settings: &Settings, text: &str, place: &str, times: u32, room: &mut Room) -> u64 {
    let at = match place {
        "front" => 0,
        "middle" => text.len() / 2,
        _ => text.len(),
    };
    let at = (0..=at).rev().find(|&at| text.is_char_boundary(at)).expect("the front is a boundary");
    let longer = format!("{}x{}", &text[..at], &text[at..]);
    let mut lines = sys::layout(settings, text.as_bytes(), &mut room.table).expect("a good text");
    let mut laid = 0;
    let at = at as u32;
    for _ in 0..times {
        for (whole, edit) in
            [(longer.as_str(), Edit { a: at, b: at, inserted: 1 }), (text, Edit { a: at, b: at + 1, inserted: 0 })]
        {
            let first = sys::first_affected(&room.table, lines, edit).expect("a good edit") as usize;
            let part = &whole.as_bytes()[room.table[LINE_NUMBERS * first] as usize..];
            let (now, again) = sys::lay_again(settings, part, &mut room.table, lines, edit).expect("a good edit");
            lines = now;
            laid += again;
        }
    }
    laid
}

/// One line of a laid text, at a place of it: by itself out of the whole text, or as the first line of a text that has no more than the
/// line looks at. Answers how many bytes were lent.
fn one_line(settings: &Settings, text: &str, place: &str, alone: bool, lines: u64, times: u32, room: &mut Room) -> u64 {
    let line = match place {
        "front" => 0,
        "middle" => lines / 2,
        _ => lines.saturating_sub(2),
    };
    let entry = &room.table[LINE_NUMBERS * line as usize..][..LINE_NUMBERS];
    let (start, reach) = (entry[0] as usize, entry[9] as usize);
    let part = &text.as_bytes()[start..reach.min(text.len())];
    let (lent, from) = if alone { (part, 0) } else { (text.as_bytes(), entry[0]) };
    let stand = Stand { start: from, ..Stand::default() };
    for _ in 0..times {
        black_box(sys::one_line(settings, lent, stand, &mut room.events)).expect("a good start");
    }
    lent.len() as u64
}

/// A width is planned for so many lines. Answers it, one more than the widest box if there is none.
fn planned(settings: &Settings, text: &str, lines: u32, times: u32) -> u64 {
    (0..times).fold(0, |_, _| {
        black_box(sys::columns_plan(settings, text.as_bytes(), lines)).expect("a good text").map_or(4_097, u64::from)
    })
}

/// Does a piece of work so many times and tells its size: bytes and lines; of edits, also the lines laid; of one line, the bytes lent; of a
/// plan, for so many lines as there are glyphs otherwise, the width.
pub fn run(work: &str, name: &str, bytes: usize, glyphs: u32, alignment: u32, times: u32) -> Option<bool> {
    let texts = texts(name, bytes)?;
    let settings = settings_for(name, glyphs, alignment);
    let mut room = Room::new();
    let size: usize = texts.iter().map(String::len).sum();
    let lines: u64 =
        texts.iter().map(|text| sys::layout(&settings, text.as_bytes(), &mut room.table).expect("a good text")).sum();
    let mut laid = 0;
    match work {
        "layout" => (0..times).for_each(|_| layout(&settings, &texts, &mut room)),
        "events" => (0..times).for_each(|_| events(&settings, &texts, &mut room)),
        "crate" => (0..times).for_each(|_| by_crate(&settings, &texts)),
        "affected" => (0..times).for_each(|_| {
            black_box(sys::first_affected(&room.table, lines, Edit { a: 0, b: 0, inserted: 1 })).expect("a good edit");
        }),
        "plan" => laid = planned(&settings, &texts[0], glyphs, times),
        "front" | "middle" | "end" => laid = typed(&settings, &texts[0], work, times, &mut room),
        _ => {
            let (how, place) = work.split_once('-')?;
            if !matches!(how, "line" | "alone") {
                return None;
            }
            laid = one_line(&settings, &texts[0], place, how == "alone", lines, times, &mut room);
        }
    }
    println!("{size} {lines} {laid}");
    Some(true)
}
