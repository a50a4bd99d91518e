//! Cases by chance in the form of the definitions' own examples, as a module that the prover computes: so the definitions
//! themselves are held to the crate, with no running code in between.

use crate::runs::ALPHABET;
use crate::{glue, model, random, show, EXAMPLE};
use shape::*;
use std::fmt::Write;

use embedded_text_checked::plugin::probe as checked;

const HEAD: &str = "\
-- Layouts by chance. Those in the domain of the comparison are the crate's own.
use Rattle.std.specs.Prelude.{ℕ, ◌≡◌, refl, List, [], ◌∷◌, map, pos}
use Prim.Native.String.{String}
use Rattle.meaning.specs.Examples.{Example, computed}
use Rattle.meaning.specs.declared.settings.Settings.{Settings}

abbrev sets : (glyph width tab alignment leading wrap : ℕ) → Settings
sets glyph width tab alignment leading wrap =
    record {
      glyph = record { 0 = glyph };
      width = record { 0 = width };
      tab = record { 0 = tab };
      spacing = record { 0 = 0 };
      paragraph = record { 0 = 0 };
      base = record { 0 = 1 };
      height = record { 0 = 0 };
      top = pos 0;
      alignment = alignment;
      vertical = 0;
      leading = leading;
      trailing = 0;
      wrap = wrap;
    }

abbrev example : Settings → String → List (List ℕ) → List (List ℕ) → Example
example s t ls es = record { settings = s; text = t; lines = ls; events = es }

abbrev pub cases : List Example
cases =
";

const TAIL: &str = "
pub cases-hold : map computed cases ≡ cases
unfolding computed
cases-hold = refl
";

/// Values with `∷` between them, and the empty list at last.
fn list(values: impl Iterator<Item = String>) -> String {
    let mut out = String::new();
    for value in values {
        write!(out, "{value} ∷ ").unwrap();
    }
    if out.is_empty() {
        "[]".into()
    } else {
        format!("({out}[])")
    }
}

fn row<const N: usize>(numbers: [u32; N]) -> String {
    list(numbers.iter().map(u32::to_string))
}

fn settings(chance: &mut random::Chance) -> Settings {
    let glyph = [6, 1, 2][chance.below(3) as usize];
    Settings {
        glyph,
        width: chance.below(7 * glyph + 2),
        tab: [0, 4, 9, 24][chance.below(4) as usize],
        alignment: [0, 1, 2, 3, 3][chance.below(5) as usize],
        leading: chance.below(2),
        wrap: chance.below(2),
        ..EXAMPLE
    }
}

/// Up to nine characters of the alphabet; in one text of four U+2007 and U+202F may be among them.
fn text(chance: &mut random::Chance) -> String {
    let more: &[char] = if chance.below(4) == 0 { &['\u{2007}', '\u{202f}'] } else { &[] };
    let alphabet = [&ALPHABET[..], more].concat();
    (0..chance.below(10)).map(|_| chance.pick(&alphabet)).collect()
}

/// Writes a module of some cases to standard output. How many of them are the crate's own goes to standard error; the
/// others are the rules' layouts: where words wait, and where the crate is outside the domain.
pub fn write(count: u64, seed: u64) -> bool {
    let mut chance = random::Chance(seed);
    let mut apart = model::Text::default();
    let (mut rules, mut krate) = (Laid::default(), Laid::default());
    let (mut own, mut other) = (0, 0);
    let mut out = String::from(HEAD);
    for number in 0..count {
        let settings = settings(&mut chance);
        let text = text(&mut chance);
        apart.take_apart(&text);
        let beyond = model::lay(&settings, model::Ways::default(), &apart, &mut Vec::new(), &mut rules);
        let in_domain = settings.wrap == 0 && !beyond && !glue::splits(&text);
        let comparable = in_domain && checked::lay(&settings, &text, true, &mut krate) == Outside::default();
        if comparable && crate::compare::difference(&krate, &rules).is_none() {
            own += 1;
        } else {
            other += 1;
        }
        let Settings { glyph, width, tab, alignment, leading, wrap, .. } = settings;
        let lines = list(rules.entries().map(row));
        let events = list(rules.events.iter().map(|e| row([e.kind, e.start, e.end, e.count, e.width, e.x as u32])));
        let between = if number == 0 { "" } else { "∷ " };
        let sets = format!("sets {glyph} {width} {tab} {alignment} {leading} {wrap}");
        writeln!(
            out,
            "    {between}example ({sets}) {}\n    {lines}\n    {events}",
            show::quoted(&text, |c| matches!(c, ' ' | 'a'..='z'))
        )
        .unwrap();
    }
    println!("{out}    {}[]\n{TAIL}", if count == 0 { "" } else { "∷ " });
    eprintln!("oracle: seed {seed}: {own} layouts of the crate, {other} of the rules alone");
    true
}
