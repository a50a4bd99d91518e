//! The style of a text box, by the names of embedded-text.

use crate::{Alignment, Vertical, Wrap};

/// Horizontal text alignment.
#[derive(Clone, Copy, Debug, Default, PartialEq, Eq, Hash)]
pub enum HorizontalAlignment {
    /// Left aligned.
    #[default]
    Left,
    /// Centred.
    Center,
    /// Right aligned.
    Right,
    /// Fully justified.
    Justified,
}

impl HorizontalAlignment {
    /// The alignment by this library's name.
    pub const fn alignment(self) -> Alignment {
        match self {
            HorizontalAlignment::Left => Alignment::Left,
            HorizontalAlignment::Center => Alignment::Centre,
            HorizontalAlignment::Right => Alignment::Right,
            HorizontalAlignment::Justified => Alignment::Justified,
        }
    }

    /// Whether leading spaces show where nothing else is said.
    const fn leading_spaces(self) -> bool {
        matches!(self, HorizontalAlignment::Left)
    }
}

/// Vertical text alignment.
#[derive(Clone, Copy, Debug, Default, PartialEq, Eq, Hash)]
pub enum VerticalAlignment {
    /// At the top of the box.
    #[default]
    Top,
    /// In the middle of the box.
    Middle,
    /// At the bottom of the box.
    Bottom,
}

impl VerticalAlignment {
    /// The alignment by this library's name.
    pub const fn vertical(self) -> Vertical {
        match self {
            VerticalAlignment::Top => Vertical::Top,
            VerticalAlignment::Middle => Vertical::Middle,
            VerticalAlignment::Bottom => Vertical::Bottom,
        }
    }
}

/// How far apart tab stops stand. By default it is 4 spaces.
#[derive(Clone, Copy, Debug, PartialEq, Eq, Hash)]
pub enum TabSize {
    /// In pixels.
    Pixels(u16),
    /// In spaces.
    Spaces(u16),
}

impl TabSize {
    /// The pixels, with spaces so wide.
    pub(crate) const fn pixels(self, space: u32) -> u32 {
        match self {
            TabSize::Pixels(pixels) => pixels as u32,
            TabSize::Spaces(count) => space.saturating_mul(count as u32),
        }
    }
}

impl Default for TabSize {
    fn default() -> TabSize {
        TabSize::Spaces(4)
    }
}

/// How far below a line the next one stands. By default it is as much as the font is high.
#[derive(Clone, Copy, Debug, PartialEq, Eq, Hash)]
pub enum LineHeight {
    /// In pixels.
    Pixels(u32),
    /// In hundredths of the font's height.
    Percent(u32),
}

impl LineHeight {
    /// The pixels, with a font so high.
    pub(crate) const fn pixels(self, height: u32) -> u32 {
        match self {
            LineHeight::Pixels(pixels) => pixels,
            LineHeight::Percent(percent) => height.saturating_mul(percent) / 100,
        }
    }
}

impl Default for LineHeight {
    fn default() -> LineHeight {
        LineHeight::Percent(100)
    }
}

/// How the text of a [`TextBox`](super::TextBox) is laid.
#[derive(Clone, Copy, Debug, PartialEq, Eq, Hash)]
#[must_use]
pub struct TextBoxStyle {
    /// Horizontal alignment.
    pub alignment: HorizontalAlignment,
    /// Vertical alignment.
    pub vertical_alignment: VerticalAlignment,
    /// Line height.
    pub line_height: LineHeight,
    /// How much further apart paragraphs stand than lines.
    pub paragraph_spacing: u32,
    /// How far apart tab stops stand.
    pub tab_size: TabSize,
    /// Whether spaces at the start of a line show.
    pub leading_spaces: bool,
    /// What becomes of a word that has no room. The crate knows [`Wrap::Drop`] alone, and does not tell.
    pub wrap: Wrap,
}

impl TextBoxStyle {
    /// A style with an alignment, and else as by default.
    pub const fn with_alignment(alignment: HorizontalAlignment) -> TextBoxStyle {
        TextBoxStyleBuilder::new().alignment(alignment).build()
    }

    /// A style with a vertical alignment, and else as by default.
    pub const fn with_vertical_alignment(alignment: VerticalAlignment) -> TextBoxStyle {
        TextBoxStyleBuilder::new().vertical_alignment(alignment).build()
    }

    /// A style with a line height, and else as by default.
    pub const fn with_line_height(line_height: LineHeight) -> TextBoxStyle {
        TextBoxStyleBuilder::new().line_height(line_height).build()
    }

    /// A style with a paragraph spacing, and else as by default.
    pub const fn with_paragraph_spacing(spacing: u32) -> TextBoxStyle {
        TextBoxStyleBuilder::new().paragraph_spacing(spacing).build()
    }

    /// A style with a tab size, and else as by default.
    pub const fn with_tab_size(tab_size: TabSize) -> TextBoxStyle {
        TextBoxStyleBuilder::new().tab_size(tab_size).build()
    }
}

impl Default for TextBoxStyle {
    fn default() -> TextBoxStyle {
        TextBoxStyleBuilder::new().build()
    }
}

/// A style that is being put together.
#[derive(Clone, Copy, Debug, PartialEq, Eq, Hash)]
#[must_use]
pub struct TextBoxStyleBuilder {
    style: TextBoxStyle,
}

impl TextBoxStyleBuilder {
    /// Left, at the top, lines as far apart as the font is high, tabs of 4 spaces, leading spaces on; and words wait.
    pub const fn new() -> TextBoxStyleBuilder {
        TextBoxStyleBuilder {
            style: TextBoxStyle {
                alignment: HorizontalAlignment::Left,
                vertical_alignment: VerticalAlignment::Top,
                line_height: LineHeight::Percent(100),
                paragraph_spacing: 0,
                tab_size: TabSize::Spaces(4),
                leading_spaces: true,
                wrap: Wrap::Wait,
            },
        }
    }

    /// The alignment, and with it whether leading spaces show: left they do.
    pub const fn alignment(mut self, alignment: HorizontalAlignment) -> Self {
        self.style.alignment = alignment;
        self.style.leading_spaces = alignment.leading_spaces();
        self
    }

    /// The vertical alignment.
    pub const fn vertical_alignment(mut self, alignment: VerticalAlignment) -> Self {
        self.style.vertical_alignment = alignment;
        self
    }

    /// How far below a line the next one stands.
    pub const fn line_height(mut self, line_height: LineHeight) -> Self {
        self.style.line_height = line_height;
        self
    }

    /// How much further apart paragraphs stand than lines.
    pub const fn paragraph_spacing(mut self, spacing: u32) -> Self {
        self.style.paragraph_spacing = spacing;
        self
    }

    /// How far apart tab stops stand.
    pub const fn tab_size(mut self, tab_size: TabSize) -> Self {
        self.style.tab_size = tab_size;
        self
    }

    /// Whether spaces at the start of a line show. It is set after the alignment, which sets it too.
    pub const fn leading_spaces(mut self, leading_spaces: bool) -> Self {
        self.style.leading_spaces = leading_spaces;
        self
    }

    /// What becomes of a word that has no room.
    pub const fn wrap(mut self, wrap: Wrap) -> Self {
        self.style.wrap = wrap;
        self
    }

    /// The style.
    pub const fn build(self) -> TextBoxStyle {
        self.style
    }
}

impl Default for TextBoxStyleBuilder {
    fn default() -> TextBoxStyleBuilder {
        TextBoxStyleBuilder::new()
    }
}
