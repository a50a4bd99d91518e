//! The characters before each line (#109). The crate has no such number. The rules' is held to Rust's own count of the text before the
//! line's start, which is the crate's start too wherever the two layouts are the same; and the library's to the rules'.

use crate::compare::Sides;
use crate::show;
use crate::tally::Tally;
use shape::*;

impl Sides {
    pub fn counts(&self, settings: &Settings, text: &str, laid: &Laid, tally: &mut Tally) {
        let (mut from, mut chars) = (0, 0);
        for (line, extent) in laid.lines.iter().zip(&laid.extents) {
            let start = line.start as usize;
            chars += text[from..start].chars().count();
            from = start;
            if extent.chars as usize != chars {
                let key = "a line by the rules counts other characters before it than there are".into();
                Tally::note(&mut tally.unexplained, key, settings, text, || show::laid(laid));
                return;
            }
        }
    }
}
