//! Layout files by chance, whole and damaged, where the library is linked: what it writes and reads is held to a second writer and a
//! second reader, which go by docs/LAYOUT-FILE.md.

use crate::random;
use bisquemop::{sys, Refusal};
use shape::*;

/// How many numbers a line has, and how many settings there are.
const LINE: usize = 11;
const SETTINGS: usize = 13;

const START: usize = 0;
const REST_END: usize = 1;
const REST_COUNT: usize = 2;
const END: usize = 3;
const REACH: usize = 9;
const BEFORE: usize = 10;

const TRAILING: usize = 11;

/// What stands in a buffer before a call.
const UNTOUCHED: u32 = 0xA5A5_A5A5;

/// What is read from a file.
#[derive(Clone, Debug, PartialEq, Eq)]
struct Layout {
    settings: Vec<u32>,
    bytes: u32,
    lines: Vec<Vec<u32>>,
}

// ---- the second writer

fn field(tag: u8, body: &[u8]) -> Vec<u8> {
    let length = u16::try_from(body.len()).expect("a body of at most 65,535 bytes");
    [&[tag][..], &length.to_le_bytes(), body].concat()
}

fn of_numbers(tag: u8, numbers: &[u32]) -> Vec<u8> {
    field(tag, &numbers.iter().flat_map(|n| n.to_le_bytes()).collect::<Vec<u8>>())
}

fn numbers_of(s: &Settings) -> Vec<u32> {
    let top = s.top as u32;
    vec![
        s.glyph,
        s.width,
        s.tab,
        s.spacing,
        s.paragraph,
        s.base,
        s.height,
        top,
        s.alignment,
        s.vertical,
        s.leading,
        s.trailing,
        s.wrap,
    ]
}

fn write(settings: &[u32], bytes: u32, lines: &[&[u32]]) -> Vec<u8> {
    let mut file = [of_numbers(1, settings), of_numbers(2, &[bytes])].concat();
    lines.iter().for_each(|line| file.extend(of_numbers(3, line)));
    file.extend(field(255, &[]));
    file
}

// ---- the second reader

/// The fields of a file as far as they are whole: where each stands, its tag and its body; and where the first bytes stand that are none.
fn fields(file: &[u8]) -> (Vec<(usize, u8, &[u8])>, usize) {
    let (mut found, mut at) = (vec![], 0);
    while let Some([tag, low, high]) = file.get(at..at + 3) {
        let length = usize::from(u16::from_le_bytes([*low, *high]));
        let Some(body) = file.get(at + 3..at + 3 + length) else { break };
        found.push((at, *tag, body));
        at += 3 + length;
    }
    (found, at)
}

fn numbers(body: &[u8]) -> Vec<u32> {
    body.chunks_exact(4).map(|four| u32::from_le_bytes(four.try_into().expect("four bytes"))).collect()
}

/// Refusals 9 and 11: a tag 1, a tag 2, tags 3 and the end, and nothing else.
fn parse(file: &[u8]) -> Result<Layout, Refusal> {
    let (found, cut) = fields(file);
    let bad = |k: usize| Refusal::BadField(found.get(k).map_or(cut, |field| field.0) as u64);
    let is = |k: usize, tag: u8, numbers: usize| found.get(k).is_some_and(|field| field.1 == tag && field.2.len() == 4 * numbers);
    if !is(0, 1, SETTINGS) {
        return Err(bad(0));
    }
    if !is(1, 2, 1) {
        return Err(bad(1));
    }
    let after = (2..).find(|&k| !is(k, 3, LINE)).expect("a file has an end");
    if found.get(after).is_some_and(|field| field.1 == 3 && field.2.len() == 40) {
        return Err(Refusal::OldEntry(found[after].0 as u64));
    }
    if !is(after, 255, 0) {
        return Err(bad(after));
    }
    if found[after].0 + 3 < file.len() {
        return Err(Refusal::BadField(found[after].0 as u64 + 3));
    }
    let lines = found[2..after].iter().map(|field| numbers(field.2)).collect();
    Ok(Layout { settings: numbers(found[0].2), bytes: numbers(found[1].2)[0], lines })
}

/// Refusals 1 and 2, of settings as numbers.
fn check_settings(n: &[u32]) -> Result<(), Refusal> {
    let most = [64, 4096, 4096, 4096, 4096, 64, 4096];
    let sizes = n.iter().zip(most).all(|(&n, most)| n <= most) && n[0] > 0 && n[5] > 0;
    let switches = n[10] < 2 && n[TRAILING] == 0 && n[12] < 2;
    if !sizes || !(-4096..=4096).contains(&(n[7] as i32)) || !switches {
        return Err(Refusal::SettingOutOfRange);
    }
    match (n[8], n[9]) {
        (4.., _) => Err(Refusal::UnknownAlignment(n[8].into())),
        (_, 3..) => Err(Refusal::UnknownAlignment(n[9].into())),
        _ => Ok(()),
    }
}

/// Is line k good, of a text of so many bytes.
fn is_good(lines: &[Vec<u32>], k: usize, bytes: u32) -> bool {
    let line = &lines[k];
    let (start, end, count) = (line[START], line[REST_END], line[REST_COUNT]);
    let ending = line[END] < 4 && (line[END] == 2) == (k + 1 == lines.len());
    let placed = match k.checked_sub(1).map(|k| &lines[k]) {
        None => start == 0 && line[BEFORE] == 0 && (end, count) == (0, 0),
        Some(before) => {
            let rest = (end, count) == (0, 0) || start < end && end <= bytes.min(before[REACH]) && count <= end - start;
            let counted = before[BEFORE] < line[BEFORE] && line[BEFORE] <= start;
            before[START] < start && start <= bytes.min(before[REACH]) && counted && rest
        }
    };
    placed && ending && line[REACH] <= bytes + 1
}

/// All tests, in their order, with what a reader has room for; and the settings that go with refusal 12.
fn read(file: &[u8], settings_room: usize, lines_room: usize) -> (Result<Layout, Refusal>, Option<Vec<u32>>) {
    let refuse = |r| (Err(r), None);
    let mut layout = match parse(file) {
        Ok(layout) => layout,
        Err(r) => return refuse(r),
    };
    let retired = std::mem::replace(&mut layout.settings[TRAILING], 0) == 1;
    let given = numbers(&file[3..3 + 4 * SETTINGS]);
    if let Err(r) = check_settings(if retired { &layout.settings } else { &given }) {
        return refuse(r);
    }
    let too_small = (settings_room < SETTINGS).then_some(Refusal::TooSmall(SETTINGS as u64));
    if retired {
        return too_small.map_or((Err(Refusal::RetiredSetting), Some(layout.settings)), refuse);
    }
    layout.settings = given;
    if layout.bytes > 65_535 {
        return refuse(Refusal::TextTooLong(layout.bytes.into()));
    }
    let agrees = layout.lines.last().is_some_and(|line| line[REACH] == layout.bytes + 1);
    let bad = (0..layout.lines.len()).find(|&k| !is_good(&layout.lines, k, layout.bytes));
    if let (false, _) | (true, Some(_)) = (agrees, bad) {
        return refuse(Refusal::BadLine(if agrees { bad.unwrap_or(0) as u64 } else { 0 }));
    }
    if let Some(r) = too_small {
        return refuse(r);
    }
    if lines_room < layout.lines.len() {
        return refuse(Refusal::TooSmall(layout.lines.len() as u64));
    }
    let settings = layout.settings.clone();
    (Ok(layout), Some(settings))
}

// ---- the library held to both

/// A buffer holds these numbers at its front, and else what it held.
fn holds(buffer: &[u32], front: &[u32]) -> bool {
    buffer.starts_with(front) && buffer[front.len()..].iter().all(|&n| n == UNTOUCHED)
}

fn hold_reader(file: &[u8], settings_room: usize, lines_room: usize) -> Result<(), String> {
    let (mut settings, mut table) = (vec![UNTOUCHED; settings_room], vec![UNTOUCHED; LINE * lines_room + 3]);
    let (wanted, handed) = read(file, settings_room, lines_room);
    let got = sys::read_file(file, &mut settings, &mut table);
    let numbers = wanted.as_ref().map(|layout| (layout.lines.len() as u64, u64::from(layout.bytes))).map_err(|&r| r);
    let rows = wanted.map(|layout| layout.lines.concat()).unwrap_or_default();
    if got != numbers {
        return Err(format!("the library answered {got:?}, the second reader {numbers:?}"));
    }
    if !holds(&settings, &handed.unwrap_or_default()) || !holds(&table, &rows) {
        return Err(format!("the library wrote other settings or lines with {got:?}"));
    }
    Ok(())
}

/// A change of some bytes.
fn damage(chance: &mut random::Chance, file: &mut Vec<u8>) {
    let at = chance.below(file.len() as u32) as usize;
    let many = (1 + chance.below(4 * LINE as u32 + 3) as usize).min(file.len() - at);
    match chance.below(6) {
        0 => file.truncate(at),
        1 => drop(file.drain(at..at + many)),
        2 => {
            let copy = file[at..at + many].to_vec();
            drop(file.splice(at..at, copy));
        }
        3 => file[at] = file[at].wrapping_add(1),
        4 => file[at] = chance.below(5) as u8,
        _ => file[at] = chance.below(256) as u8,
    }
}

/// One file: written by both, read back, damaged and read by both.
fn one(chance: &mut random::Chance, found: &mut [u64; 2]) -> Result<(), String> {
    let (mut settings, mut text) = (random::settings(chance), String::new());
    settings.trailing = 0;
    random::text_upto(chance, 24, &mut text);
    let mut table = vec![UNTOUCHED; LINE * (text.len() + 1)];
    let lines = sys::layout(&settings, text.as_bytes(), &mut table).expect("a good text, good settings and room");
    let rows: Vec<&[u32]> = table.chunks_exact(LINE).take(lines as usize).collect();
    let mut file = write(&numbers_of(&settings), text.len() as u32, &rows);
    let mut bytes = vec![0xA5; file.len() + chance.below(3) as usize];
    let written = sys::write_file(&settings, &table, lines, &mut bytes);
    if written != Ok(file.len() as u64) || !bytes.starts_with(&file) || bytes[file.len()..].iter().any(|&b| b != 0xA5) {
        return Err(format!("the library wrote another file: {written:?}"));
    }
    if chance.below(8) == 0 {
        file[3 + 4 * TRAILING] = 1;
    }
    for _ in 0..chance.below(4) {
        if !file.is_empty() {
            damage(chance, &mut file);
        }
    }
    let (settings_room, lines_room) =
        if chance.below(4) == 0 { (chance.below(15) as usize, chance.below(30) as usize) } else { (SETTINGS, text.len() + 1) };
    found[usize::from(read(&file, settings_room, lines_room).0.is_err())] += 1;
    hold_reader(&file, settings_room, lines_room).map_err(|what| format!("{what}, of {file:?}"))
}

/// So many files by chance.
pub fn run(count: u64, seed: u64) -> bool {
    let (mut chance, mut found) = (random::Chance(seed), [0; 2]);
    for _ in 0..count {
        if let Err(what) = one(&mut chance, &mut found) {
            println!("DIFFERENT: {what}");
            return false;
        }
    }
    println!(
        "layout files: {count} written and read by the library and by a second writer and reader, the same: {} good, {} refused",
        found[0], found[1]
    );
    true
}
