//! Holds the scope's rules, and the library where it is linked, to the crate embedded-text 0.7.3.

#![deny(unsafe_code)]

mod antt;
#[cfg(library)]
mod bench;
#[cfg(library)]
mod calls;
#[cfg(library)]
mod columns;
mod compare;
mod counts;
mod definitions;
#[cfg(library)]
mod edits;
mod examples;
#[cfg(library)]
mod files;
#[cfg(library)]
mod frames;
mod glue;
mod inside;
#[cfg(library)]
mod library;
mod model;
#[cfg(library)]
mod pages;
mod random;
mod record;
mod runs;
mod show;
mod tally;
#[cfg(library)]
mod text_boxes;
mod waits;
mod whole;

use compare::Sides;
use shape::Settings;
use std::io::Write;
use tally::Tally;

/// The settings of the scope's examples, in a box 30 wide.
pub const EXAMPLE: Settings = Settings {
    glyph: 6,
    width: 30,
    tab: 24,
    spacing: 10,
    paragraph: 3,
    base: 8,
    height: 40,
    top: -5,
    alignment: 0,
    vertical: 0,
    leading: 1,
    trailing: 0,
    wrap: 0,
};

const USAGE: &str = "\
usage: oracle examples SPECS            the scope's examples, and those of the definitions in the folder SPECS
       oracle scalars                   every scalar value as a text of its own
       oracle short LENGTH              every text of up to LENGTH characters, at every setting of a spread
       oracle longer LENGTH BOXES       every text of LENGTH characters, in some boxes of those where classes meet
       oracle dense LENGTH              every text of up to LENGTH of five kinds of character, in narrow boxes
       oracle glued LENGTH              every text of up to LENGTH of what glues and three others, in the same boxes
       oracle random COUNT SEED         texts and settings by chance
       oracle large COUNT SEED          the same with texts of up to 65,535 bytes
       oracle edits COUNT SEED          edits by chance, laid again by the library and laid afresh
       oracle frames COUNT SEED         lines laid one by one, and from any start and rest, by the library and by the rules
       oracle files COUNT SEED          layout files by chance, whole and damaged, by the library and by a second writer and reader
       oracle pages COUNT SEED          pages, and the choice of a long text or a short one, by the library and by the rules
       oracle columns COUNT SEED        whether a text fits so many lines, and a width for it, by the library and by the rules
       oracle definitions COUNT SEED    a module of cases by chance, for the prover to compute by the definitions
       oracle record CASES SEED         a sample of the crate's answers, a case a line, for a replay with no Rust at hand
       oracle bench WORK NAME BYTES GLYPHS ALIGNMENT TIMES
                                        a piece of work, done so often, for its instructions to be counted
       oracle show TEXT [NAME=NUMBER..] one layout, by the crate and by the rules, and by the rules where words wait if that is
                                        another; \\n, \\t, \\u{ad} and so on in TEXT
";

fn main() {
    // A stop inside the crate is caught and counted; what it says on the way is of no use.
    std::panic::set_hook(Box::new(|info| {
        if std::env::var_os("ORACLE_PANICS").is_some() {
            eprintln!("{info}");
        }
    }));
    let args: Vec<String> = std::env::args().skip(1).collect();
    let words: Vec<&str> = args.iter().map(String::as_str).collect();
    let outcome = std::panic::catch_unwind(|| match words.as_slice() {
        ["examples", specs] => Some(examples::run(specs)),
        ["scalars"] => Some(runs::scalars()),
        ["short", length] => length.parse().ok().map(runs::short),
        ["longer", length, boxes] => {
            length.parse().ok().zip(boxes.parse().ok()).map(|(length, boxes)| runs::longer(length, boxes))
        }
        ["dense", length] => length.parse().ok().map(runs::dense),
        ["glued", length] => length.parse().ok().map(runs::glued),
        ["large", count, seed] => count.parse().ok().zip(seed.parse().ok()).map(|(count, seed)| runs::large(count, seed)),
        ["random", count, seed] => count.parse().ok().zip(seed.parse().ok()).map(|(count, seed)| runs::random(count, seed)),
        ["definitions", count, seed] => {
            count.parse().ok().zip(seed.parse().ok()).map(|(count, seed)| definitions::write(count, seed))
        }
        #[cfg(library)]
        ["edits", count, seed] => count.parse().ok().zip(seed.parse().ok()).map(|(count, seed)| edits::run(count, seed)),
        #[cfg(library)]
        ["frames", count, seed] => count.parse().ok().zip(seed.parse().ok()).map(|(count, seed)| frames::run(count, seed)),
        #[cfg(library)]
        ["pages", count, seed] => count.parse().ok().zip(seed.parse().ok()).map(|(count, seed)| pages::run(count, seed)),
        #[cfg(library)]
        ["columns", count, seed] => count.parse().ok().zip(seed.parse().ok()).map(|(count, seed)| columns::run(count, seed)),
        #[cfg(library)]
        ["files", count, seed] => count.parse().ok().zip(seed.parse().ok()).map(|(count, seed)| files::run(count, seed)),
        #[cfg(library)]
        ["bench", work, name, bytes, glyphs, alignment, times] => bench::run(
            work,
            name,
            bytes.parse().unwrap_or(0),
            glyphs.parse().unwrap_or(0),
            alignment.parse().unwrap_or(0),
            times.parse().unwrap_or(0),
        ),
        ["record", cases, seed] => cases.parse().ok().zip(seed.parse().ok()).map(|(cases, seed)| record::write(cases, seed)),
        ["show", text, settings @ ..] => settings_of(settings).map(|settings| show_one(&unescape(text), &settings)),
        _ => None,
    });
    std::process::exit(match outcome {
        Ok(Some(true)) => 0,
        Ok(Some(false)) => 1,
        Ok(None) => {
            eprint!("{USAGE}");
            2
        }
        Err(cause) => {
            let words = cause.downcast_ref::<String>().map(String::as_str).or(cause.downcast_ref::<&str>().copied());
            eprintln!("oracle: stopped: {}", words.unwrap_or("for a reason that cannot be shown"));
            1
        }
    });
}

/// The examples' settings with some of them changed by name.
fn settings_of(changes: &[&str]) -> Option<Settings> {
    let mut settings = EXAMPLE;
    for change in changes {
        let (name, value) = change.split_once('=')?;
        let number: i32 = value.parse().ok()?;
        if name == "top" {
            settings.top = number;
            continue;
        }
        *match name {
            "glyph" => &mut settings.glyph,
            "box" => &mut settings.width,
            "tab" => &mut settings.tab,
            "spacing" => &mut settings.spacing,
            "paragraph" => &mut settings.paragraph,
            "base" => &mut settings.base,
            "height" => &mut settings.height,
            "alignment" => &mut settings.alignment,
            "vertical" => &mut settings.vertical,
            "leading" => &mut settings.leading,
            _ => return None,
        } = u32::try_from(number).ok()?;
    }
    Some(settings)
}

/// A text with the escapes of the definitions' files.
fn unescape(text: &str) -> String {
    antt::table(&format!("\ntext =\n \"{}\" ∷ []\n", text.replace('"', "\\\"")), "text")[0].text().into()
}

fn show_one(text: &str, settings: &Settings) -> bool {
    println!("{} at {}", show::text(text), show::settings(settings, true));
    if glue::splits(text) {
        println!("the crate takes U+2007 and U+202F for spaces, and is not asked");
    }
    let (mut sides, mut tally) = (Sides::default(), Tally::default());
    sides.tokens(text, &mut tally);
    sides.layout(settings, text, true, &mut tally);
    print!("{}", sides.both());
    if sides.waiting != sides.model {
        print!(" rules, where words wait:\n{}", show::laid(&sides.waiting));
    }
    let good = tally.report();
    std::io::stdout().flush().unwrap();
    good
}
