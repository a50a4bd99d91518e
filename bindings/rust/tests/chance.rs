//! Bytes, settings, tables, edits and files by chance, fed to every function: none panics, and what is answered holds
//! together.

use bisquemop::embedded_text::{Font, Rectangle, TextBox, TextBoxStyleBuilder};
use bisquemop::*;

/// Numbers by chance, the same in every run (xorshift).
struct Chance(u64);

impl Chance {
    fn next(&mut self) -> u64 {
        self.0 ^= self.0 << 13;
        self.0 ^= self.0 >> 7;
        self.0 ^= self.0 << 17;
        self.0.wrapping_mul(0x2545_F491_4F6C_DD1D)
    }

    fn below(&mut self, limit: u64) -> u64 {
        (self.next() >> 16) % limit
    }

    fn pick<T: Copy>(&mut self, from: &[T]) -> T {
        from[self.below(from.len() as u64) as usize]
    }

    /// A number that is small, at an edge, or any.
    fn number(&mut self) -> u32 {
        match self.below(6) {
            0 => self.pick(&[0, 1, 2, 64, 65, 4096, 4097, 65_535, 65_536, 65_537, u32::MAX, 1 << 31]),
            1 => self.next() as u32,
            _ => self.below(40) as u32,
        }
    }

    fn numbers(&mut self, most: u64) -> Vec<u32> {
        (0..self.below(most + 1)).map(|_| self.number()).collect()
    }

    fn bytes(&mut self) -> Vec<u8> {
        let pieces =
            ["a", "bc", " ", "   ", "\n", "\r", "\t", "é", "漢", "\u{ad}", "\u{a0}", "\u{200b}", "\u{202f}", "😀"];
        let mut text: Vec<u8> = (0..self.below(24)).flat_map(|_| self.pick(&pieces).bytes()).collect();
        if self.below(4) == 0 {
            let at = self.below(text.len() as u64 + 1) as usize;
            text.insert(at, self.next() as u8);
        }
        text
    }

    fn settings(&mut self) -> Numbers {
        let mut numbers = Numbers {
            glyph: 1 + self.below(8) as u32,
            width: self.below(60) as u32,
            tab: self.below(30) as u32,
            spacing: self.below(12) as u32,
            paragraph: self.below(4) as u32,
            base: 1 + self.below(9) as u32,
            height: self.below(70) as u32,
            top: self.below(40) as i32 - 20,
            alignment: self.below(4) as u32,
            vertical: self.below(3) as u32,
            leading: self.below(2) as u32,
            trailing: 0,
            wrap: self.below(2) as u32,
        };
        if self.below(8) == 0 {
            let mut array = [0; 13].map(|_| self.number());
            array[7] = self.number().wrapping_sub(20);
            numbers = Numbers::from_array(array);
        }
        numbers
    }

    fn edit(&mut self) -> Edit {
        Edit { a: self.number(), b: self.number(), inserted: self.number() }
    }
}

/// Everything that a layout answers.
fn ask_layout(chance: &mut Chance, layout: &mut Layout<'_>, text: &[u8]) {
    let words = String::from_utf8_lossy(text);
    let (mut ys, mut list) = (vec![0; chance.below(40) as usize], chance.numbers(90));
    let lines: Vec<Line> = layout.lines().collect();
    assert_eq!(lines.len(), layout.line_count());
    for line in &lines {
        let _ = (line.text(&words), line.dropped_text(&words), line.range(), line.numbers());
    }
    let _ = (layout.dropped(), layout.line(chance.number() as usize), layout.line_of_char(chance.number()));
    assert!(layout.height().is_ok());
    assert_eq!(layout.places().map(|places| places.count()), Ok(lines.len()));
    assert!(layout.place(chance.number() as usize).is_ok());
    let (edit, first) = (chance.edit(), chance.number() as usize);
    let mut index = layout.index(&mut ys).ok();
    let mut pages = layout.pages(chance.number(), &mut list).ok();
    if let Some(index) = &mut index {
        let _ = (index.ys().len(), index.line_under(layout, chance.number() as i32));
        assert!(index.again(layout, first).is_ok());
    }
    if let Some(pages) = &mut pages {
        assert!(pages.iter().count() == pages.page_count() && pages.again(layout, first).is_ok());
    }
    if let Ok(other) = Settings::from_numbers(chance.settings()) {
        assert!(layout.stand_by(&other).is_ok());
    }
    let _ = (layout.first_affected(edit), layout.lay_again(edit, text), layout.lay_again_part(edit, chance.bytes()));
    assert!(layout.lines().count() > 0);
    if let Some(index) = &mut index {
        let _ = (index.line_under(layout, chance.number() as i32), index.again(layout, first), index.ys().len());
    }
    if let Some(pages) = &mut pages {
        let _ = (pages.again(layout, first), pages.iter().all(|page| page.range().end < 70_000));
    }
    let mut file = vec![0; chance.below(3000) as usize];
    if let Ok(bytes) = layout.write_file(&mut file) {
        assert!(Layout::read_file(&file[..bytes], &mut vec![0; table_room(layout.line_count())]).is_ok());
    }
}

#[test]
fn types_hold_together() {
    let mut chance = Chance(20_261_116);
    let (mut laid, mut refused) = (0, 0);
    for _ in 0..20_000 {
        let (numbers, text, more) = (chance.settings(), chance.bytes(), chance.bytes());
        let settings = match Settings::from_numbers(numbers) {
            Ok(settings) => settings,
            Err(_) => {
                refused += 1;
                continue;
            }
        };
        let (mut table, mut events) = (chance.numbers(400), chance.numbers(200));
        let h = chance.number();
        let _ = (check_text(&text), tokens(&text, &mut table).map(|tokens| tokens.count()));
        let _ = (columns_fit(&settings, &text, h), choose(&settings, &text, &more, h));
        if chance.below(100) == 0 {
            let _ = columns_plan(&settings, &text, h);
        }
        let stand = Stand { start: chance.number(), rest_end: chance.number(), rest_count: chance.number() };
        let _ = OneLine::resume(settings, &text, stand).map(|lines| lines.count());
        let one_by_one = OneLine::open(settings, &text).map(|lines| lines.count());
        let _ = Layout::lay_pages(settings, &text, h, &mut table, &mut events).map(|(_, pages)| pages.iter().count());
        let _ = Layout::lay_events(settings, &text, &mut table, &mut events).map(|(_, events)| events.count());
        match Layout::lay(settings, &text, &mut table) {
            Ok(mut layout) => {
                assert_eq!(one_by_one, Ok(layout.line_count()));
                ask_layout(&mut chance, &mut layout, &text);
                laid += 1;
            }
            Err(_) => refused += 1,
        }
    }
    assert!(laid > 5_000 && refused > 2_000, "{laid} laid, {refused} refused");
}

#[test]
fn tables_by_chance_are_refused_or_hold_together() {
    let mut chance = Chance(412);
    let mut taken = 0;
    for _ in 0..20_000 {
        let text = chance.bytes();
        let settings = Settings::builder(2, 3).width(chance.below(20) as u32).build().unwrap();
        let mut table = vec![0; table_room(60)];
        let mut lines = chance.below(5) as usize;
        if let Ok(layout) = Layout::lay(settings, &text, &mut table) {
            lines = layout.line_count();
        }
        for _ in 0..chance.below(3) {
            let at = chance.below(table_room(lines + 1) as u64) as usize;
            table[at] = chance.number();
        }
        if let Ok(mut layout) = Layout::from_table(settings, &mut table, lines) {
            ask_layout(&mut chance, &mut layout, &text);
            taken += 1;
        }
    }
    assert!(taken > 2_000, "{taken} taken");
}

#[test]
fn calls_by_numbers_refuse_or_answer() {
    let mut chance = Chance(7);
    for _ in 0..20_000 {
        let (settings, text, part) = (chance.settings(), chance.bytes(), chance.bytes());
        let (mut table, mut more, mut few) = (chance.numbers(60), chance.numbers(60), chance.numbers(14));
        let mut ys: Vec<i32> = chance.numbers(9).into_iter().map(|y| y as i32).collect();
        let (lines, line, h, edit) = (u64::from(chance.number()), chance.next(), chance.number(), chance.edit());
        let from = Stand { start: chance.number(), rest_end: chance.number(), rest_count: chance.number() };
        let _ = (sys::check_settings(&settings), sys::check_text(&text), sys::tokens(&text, &mut more));
        let _ = (sys::open(&settings, &text), sys::one_line(&settings, &text, from, &mut few));
        let _ = (sys::first_affected(&table, lines, edit), sys::height(&settings, &table, lines));
        let _ = (sys::line_y(&settings, &table, lines, line), sys::index(&settings, &table, lines, &mut ys));
        let _ = sys::index_again(&settings, &table, lines, line, &mut ys);
        let _ = (sys::find_line(&table, lines, &ys, h as i32), sys::read_file(&part, &mut few, &mut table));
        let mut file = vec![0; chance.below(400) as usize];
        let _ =
            (sys::write_file(&settings, &table, lines, &mut file), sys::pages_again(&table, lines, h, line, &mut more));
        let _ = (sys::columns_fit(&settings, &text, h), sys::choose(&settings, &text, &part, h));
        let _ = sys::pages(&settings, &text, h, &mut table, &mut more);
        let _ = sys::layout_events(&settings, &text, &mut table, &mut more);
        if let Ok(lines) = sys::layout(&settings, &text, &mut table) {
            let _ = sys::lay_again(&settings, &part, &mut table, lines, edit);
        }
    }
}

#[test]
fn files_by_chance_are_refused_or_read() {
    let mut chance = Chance(104);
    let mut read = 0;
    for _ in 0..20_000 {
        let text = chance.bytes();
        let settings = Settings::builder(2, 3).width(chance.below(20) as u32).build().unwrap();
        let mut table = vec![0; table_room(text.len() + 1)];
        let mut file = chance.numbers(80).into_iter().map(|byte| byte as u8).collect::<Vec<u8>>();
        if let Ok(layout) = Layout::lay(settings, &text, &mut table) {
            file = vec![0; file_room(layout.line_count())];
            layout.write_file(&mut file).unwrap();
        }
        for _ in 0..chance.below(3) {
            let at = chance.below(file.len() as u64 + 1) as usize;
            match chance.below(3) {
                0 => file.truncate(at),
                1 => file.insert(at, chance.next() as u8),
                _ => file.iter_mut().skip(at).take(1).for_each(|byte| *byte = chance.next() as u8),
            }
        }
        if let Ok((mut layout, _)) = Layout::read_file(&file, &mut table) {
            ask_layout(&mut chance, &mut layout, &text);
            read += 1;
        }
    }
    assert!(read > 2_000, "{read} read");
}

#[test]
fn text_boxes_by_chance_draw_or_refuse() {
    let mut chance = Chance(73);
    let mut runs = 0;
    for _ in 0..20_000 {
        let bytes = chance.bytes();
        let text = String::from_utf8_lossy(&bytes);
        let height = if chance.below(2) == 0 { 200 } else { chance.number() };
        let bounds = Rectangle::new(chance.next() as i32, chance.number() as i32, chance.number(), height);
        let font = Font::new(chance.number(), chance.number());
        let style = TextBoxStyleBuilder::new().paragraph_spacing(chance.number()).build();
        let mut text_box = TextBox::with_textbox_style(&text, bounds, font, style);
        let offset = chance.number() as i32;
        text_box.set_vertical_offset(if chance.below(2) == 0 { 0 } else { offset });
        let (mut table, mut events) = (vec![0; 600], vec![0; 6 * chance.below(60) as usize]);
        let mut screen = |run: &str, _: i32, _: i32| runs += run.chars().count();
        let _ = text_box.draw(&mut screen, &mut table, &mut events);
        let _ = text_box.text_height(&mut table);
    }
    assert!(runs > 2_000, "{runs} characters drawn");
}
