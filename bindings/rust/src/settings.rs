//! How a text is laid: the thirteen settings, checked by the library.

use crate::{sys, Refusal};

/// How a line stands between the sides of the box.
#[derive(Clone, Copy, Debug, Default, PartialEq, Eq, Hash)]
pub enum Alignment {
    /// At the left side.
    #[default]
    Left = 0,
    /// As far from one side as from the other.
    Centre = 1,
    /// At the right side.
    Right = 2,
    /// At both sides, by wider spaces, but for the last line of a paragraph.
    Justified = 3,
}

/// How the lines stand between the top and the bottom of the box.
#[derive(Clone, Copy, Debug, Default, PartialEq, Eq, Hash)]
pub enum Vertical {
    /// At the top.
    #[default]
    Top = 0,
    /// In the middle.
    Middle = 1,
    /// At the bottom.
    Bottom = 2,
}

/// What becomes of a word of which no character fits into a line that has no word yet, as after an indent.
#[derive(Clone, Copy, Debug, Default, PartialEq, Eq, Hash)]
pub enum Wrap {
    /// The line drops it, and counts its characters.
    Drop = 0,
    /// It waits for the next line if that has more room. Left aligned and in a box at least a glyph wide, no line of any
    /// text then drops anything: that is proved.
    #[default]
    Wait = 1,
}

/// The thirteen settings as numbers, in the order of the calls. Nothing says that they are good.
#[derive(Clone, Copy, Debug, Default, PartialEq, Eq, Hash)]
pub struct Numbers {
    /// The width of every character: 1 to 64.
    pub glyph: u32,
    /// The width of the box: 0 to 4,096.
    pub width: u32,
    /// Tab stops stand at its multiples, and there are none if it is 0: 0 to 4,096.
    pub tab: u32,
    /// How far below a line the next one stands: 0 to 4,096.
    pub spacing: u32,
    /// How much further, after a line that ends by a new line: 0 to 4,096.
    pub paragraph: u32,
    /// The height of a single line: 1 to 64.
    pub base: u32,
    /// The height of the box: 0 to 4,096.
    pub height: u32,
    /// The y of the box's upper side: -4,096 to 4,096.
    pub top: i32,
    /// The number of an [`Alignment`].
    pub alignment: u32,
    /// The number of a [`Vertical`].
    pub vertical: u32,
    /// Spaces at the start of a line: 0 off, 1 on.
    pub leading: u32,
    /// 0. It was for spaces at the end of a line, and keeps its place.
    pub trailing: u32,
    /// The number of a [`Wrap`].
    pub wrap: u32,
}

impl Numbers {
    /// From thirteen numbers as a layout file has them, the top as 32 bits in two's complement.
    pub const fn from_array(numbers: [u32; 13]) -> Numbers {
        let [glyph, width, tab, spacing, paragraph, base, height, top, alignment, vertical, leading, trailing, wrap] =
            numbers;
        let top = top as i32;
        Numbers {
            glyph,
            width,
            tab,
            spacing,
            paragraph,
            base,
            height,
            top,
            alignment,
            vertical,
            leading,
            trailing,
            wrap,
        }
    }
}

/// Settings that the library has found good.
///
/// ```
/// use bisquemop::{Alignment, Settings};
///
/// # fn main() -> Result<(), bisquemop::Refusal> {
/// let settings = Settings::builder(6, 8).width(72).alignment(Alignment::Justified).build()?;
/// assert_eq!(settings.numbers().tab, 24);
/// let wider = settings.to_builder().width(120).build()?;
/// assert_eq!(wider.numbers().alignment, 3);
/// # Ok(())
/// # }
/// ```
#[derive(Clone, Copy, Debug, PartialEq, Eq, Hash)]
pub struct Settings {
    numbers: Numbers,
}

impl Settings {
    /// Begins with the width of a character and the height of a line, and with these settings: a box as wide and as high
    /// as can be, its top at 0; lines that stand as far apart as they are high, with nothing more between paragraphs; tab
    /// stops at every fourth character; left, at the top; leading spaces on; words wait.
    pub const fn builder(glyph: u32, base: u32) -> SettingsBuilder {
        let numbers = Numbers {
            glyph,
            width: 4096,
            tab: glyph.saturating_mul(4),
            spacing: base,
            paragraph: 0,
            base,
            height: 4096,
            top: 0,
            alignment: Alignment::Left as u32,
            vertical: Vertical::Top as u32,
            leading: 1,
            trailing: 0,
            wrap: Wrap::Wait as u32,
        };
        SettingsBuilder { numbers }
    }

    /// The settings of these numbers, if the library finds them good.
    pub fn from_numbers(numbers: Numbers) -> Result<Settings, Refusal> {
        sys::check_settings(&numbers).map(|()| Settings { numbers })
    }

    /// The numbers.
    pub const fn numbers(&self) -> &Numbers {
        &self.numbers
    }

    /// A builder that begins with these settings.
    pub const fn to_builder(self) -> SettingsBuilder {
        SettingsBuilder { numbers: self.numbers }
    }
}

/// Settings that are being put together. [`SettingsBuilder::build`] has the library check them.
#[derive(Clone, Copy, Debug, PartialEq, Eq, Hash)]
#[must_use]
pub struct SettingsBuilder {
    numbers: Numbers,
}

/// A method that sets a number.
macro_rules! sets {
    ($($(#[$doc:meta])* $name:ident: $kind:ty;)*) => {
        $($(#[$doc])*
        pub const fn $name(mut self, $name: $kind) -> Self {
            self.numbers.$name = $name;
            self
        })*
    };
}

impl SettingsBuilder {
    sets! {
        /// The width of every character: 1 to 64.
        glyph: u32;
        /// The width of the box: 0 to 4,096.
        width: u32;
        /// Tab stops stand at its multiples, and there are none if it is 0: 0 to 4,096.
        tab: u32;
        /// How far below a line the next one stands: 0 to 4,096.
        spacing: u32;
        /// How much further, after a line that ends by a new line: 0 to 4,096.
        paragraph: u32;
        /// The height of a single line: 1 to 64.
        base: u32;
        /// The height of the box: 0 to 4,096.
        height: u32;
        /// The y of the box's upper side: -4,096 to 4,096.
        top: i32;
    }

    /// How a line stands between the sides.
    pub const fn alignment(mut self, alignment: Alignment) -> Self {
        self.numbers.alignment = alignment as u32;
        self
    }

    /// How the lines stand between top and bottom.
    pub const fn vertical(mut self, vertical: Vertical) -> Self {
        self.numbers.vertical = vertical as u32;
        self
    }

    /// Whether spaces at the start of a line have a width.
    pub const fn leading(mut self, leading: bool) -> Self {
        self.numbers.leading = leading as u32;
        self
    }

    /// What becomes of a word that has no room.
    pub const fn wrap(mut self, wrap: Wrap) -> Self {
        self.numbers.wrap = wrap as u32;
        self
    }

    /// The settings, if the library finds them good.
    pub fn build(self) -> Result<Settings, Refusal> {
        Settings::from_numbers(self.numbers)
    }
}
