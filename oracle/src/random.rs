//! Settings and texts by chance, from a seed.

use shape::Settings;

/// Numbers that look like chance and follow from a seed (splitmix64).
pub struct Chance(pub u64);

impl Chance {
    pub fn next(&mut self) -> u64 {
        self.0 = self.0.wrapping_add(0x9E37_79B9_7F4A_7C15);
        let mut z = self.0;
        z = (z ^ (z >> 30)).wrapping_mul(0xBF58_476D_1CE4_E5B9);
        z = (z ^ (z >> 27)).wrapping_mul(0x94D0_49BB_1331_11EB);
        z ^ (z >> 31)
    }

    /// A number below n.
    pub fn below(&mut self, n: u32) -> u32 {
        (self.next() % u64::from(n)) as u32
    }

    pub fn pick<T: Copy>(&mut self, from: &[T]) -> T {
        from[self.below(from.len() as u32) as usize]
    }
}

/// Any settings in range by which words are dropped as in the crate, most of them where few characters fill a line.
pub fn settings(chance: &mut Chance) -> Settings {
    let glyph = match chance.below(4) {
        0 => 1,
        1 | 2 => 2 + chance.below(11),
        _ => 1 + chance.below(64),
    };
    let width = match chance.below(8) {
        0 => chance.below(glyph + 2),
        1 => chance.below(4097),
        2 | 3 => (chance.below(24) * glyph).min(4096),
        _ => chance.below(24 * glyph + 2).min(4096),
    };
    let tab = match chance.below(6) {
        0 => 0,
        1 => chance.below(4097),
        2 => (glyph * (1 + chance.below(8))).min(4096),
        3 => chance.below(width + 2),
        _ => chance.below(9 * glyph),
    };
    Settings {
        glyph,
        width,
        tab: tab.min(4096),
        spacing: chance.below(30),
        paragraph: chance.below(20),
        base: 1 + chance.below(64),
        height: chance.below(400),
        top: chance.below(400) as i32 - 200,
        // justified lines have the most ways
        alignment: chance.pick(&[0, 1, 2, 3, 3, 3]),
        vertical: chance.below(3),
        leading: chance.below(2),
        trailing: 0,
        wrap: 0,
    }
}

/// The same, and by chance words wait.
#[cfg(library)]
pub fn settings_of_both(chance: &mut Chance) -> Settings {
    Settings { wrap: chance.below(2), ..settings(chance) }
}

/// White space that starts or goes on with a run, and the two of it that glue here and not in the crate.
const RUNS: [char; 21] = [
    ' ', '\u{b}', '\u{c}', '\u{85}', '\u{1680}', '\u{2000}', '\u{2001}', '\u{2002}', '\u{2003}', '\u{2004}', '\u{2005}',
    '\u{2006}', '\u{2007}', '\u{2008}', '\u{2009}', '\u{200a}', '\u{2028}', '\u{2029}', '\u{202f}', '\u{205f}', '\u{3000}',
];
const LETTERS: [char; 8] = ['a', 'b', 'Z', '-', 'é', '漢', '😀', '\u{10ffff}'];

fn character(chance: &mut Chance, mix: u32) -> char {
    match mix {
        // prose with the odd special character
        0 => match chance.below(40) {
            0..=7 => ' ',
            8 => '\n',
            9 => chance.pick(&['\t', '\r', '\u{a0}', '\u{200b}', '\u{ad}']),
            _ => char::from(b'a' + chance.below(26) as u8),
        },
        // every class as often as every other
        1 => match chance.below(10) {
            0 => ' ',
            1 => chance.pick(&RUNS),
            2 => '\u{a0}',
            3 => '\u{200b}',
            4 => '\u{ad}',
            5 => '\t',
            6 => chance.pick(&['\n', '\r']),
            _ => chance.pick(&LETTERS),
        },
        // words, and spaces and tabs between them
        2 => match chance.below(8) {
            0..=2 => ' ',
            3 => '\t',
            _ => chance.pick(&LETTERS),
        },
        // short words, and spaces and tabs in plenty
        3 => match chance.below(16) {
            0..=5 => ' ',
            6 | 7 => '\t',
            8 => chance.pick(&['\u{a0}', '\u{2003}', '\r']),
            _ => chance.pick(&LETTERS),
        },
        // words with hyphens and spaces that hold them together
        4 => match chance.below(10) {
            0 => ' ',
            1 | 2 => '\u{ad}',
            3 => '\u{a0}',
            _ => chance.pick(&LETTERS),
        },
        // any scalar value
        _ => loop {
            let bits = chance.pick(&[7, 8, 11, 14, 16, 21]);
            if let Some(c) = char::from_u32(chance.below(1 << bits)) {
                return c;
            }
        },
    }
}

/// A text of one of six mixtures: most of them short, one in fifty long.
pub fn text(chance: &mut Chance, text: &mut String) {
    let mix = chance.below(11) / 2;
    let len = match chance.below(50) {
        0 => chance.below(400),
        1..=10 => chance.below(90),
        _ => chance.below(26),
    };
    fill(chance, mix, len, text);
}

/// A text of one of the mixtures, of at most so many bytes.
pub fn text_upto(chance: &mut Chance, bytes: usize, text: &mut String) {
    let mix = chance.below(11) / 2;
    let len = chance.below(26);
    fill(chance, mix, len, text);
    while text.len() > bytes {
        text.pop();
    }
}

/// A text of one of the mixtures, of any length that the scope allows.
pub fn large_text(chance: &mut Chance, text: &mut String) {
    let mix = chance.below(11) / 2;
    let len = chance.below(66_000);
    fill(chance, mix, len, text);
    while text.len() > 65_535 {
        text.pop();
    }
}

/// U+2007 and U+202F keep a text from the crate. So of eight lengths one has them, in place of U+00A0 too, and the others have
/// other white space in their place.
fn by_length(c: char, len: u32, left: u32) -> char {
    match (c, len % 8) {
        ('\u{a0}', 0) => ['\u{a0}', '\u{2007}', '\u{202f}'][left as usize % 3],
        (c, 0) => c,
        ('\u{2007}', _) => '\u{2006}',
        ('\u{202f}', _) => '\u{2029}',
        (c, _) => c,
    }
}

fn fill(chance: &mut Chance, mix: u32, len: u32, text: &mut String) {
    text.clear();
    let mut left = len;
    while left > 0 {
        let c = by_length(character(chance, mix), len, left);
        // now and then the same character many times
        let times = if chance.below(12) == 0 { 1 + chance.below(7).min(left - 1) } else { 1 };
        for _ in 0..times {
            text.push(c);
        }
        left -= times;
    }
}
