//! Stands in for the crate's style/builder.rs: the constructors that other files of the crate call.

use super::{HeightMode, TabSize, TextBoxStyle, VerticalOverdraw};
use crate::alignment::{HorizontalAlignment, VerticalAlignment};
use embedded_graphics::text::LineHeight;

/// Makes a style, one setting after the other.
#[must_use]
pub struct TextBoxStyleBuilder {
    style: TextBoxStyle,
}

impl TextBoxStyleBuilder {
    /// Left, top, and everything else as its type has it by default.
    pub const fn new() -> Self {
        let alignment = HorizontalAlignment::Left;
        TextBoxStyleBuilder {
            style: TextBoxStyle {
                alignment,
                vertical_alignment: VerticalAlignment::Top,
                height_mode: HeightMode::Exact(VerticalOverdraw::FullRowsOnly),
                line_height: LineHeight::Percent(100),
                paragraph_spacing: 0,
                tab_size: TabSize::default(),
                leading_spaces: alignment.leading_spaces(),
                trailing_spaces: alignment.trailing_spaces(),
            },
        }
    }

    /// Sets the alignment, and with it whether leading and trailing spaces show.
    pub const fn alignment(mut self, alignment: HorizontalAlignment) -> Self {
        self.style.alignment = alignment;
        self.style.leading_spaces = alignment.leading_spaces();
        self.style.trailing_spaces = alignment.trailing_spaces();
        self
    }

    /// Sets the vertical alignment.
    pub const fn vertical_alignment(mut self, alignment: VerticalAlignment) -> Self {
        self.style.vertical_alignment = alignment;
        self
    }

    /// Sets the height mode.
    pub const fn height_mode(mut self, mode: HeightMode) -> Self {
        self.style.height_mode = mode;
        self
    }

    /// Sets the line height.
    pub const fn line_height(mut self, height: LineHeight) -> Self {
        self.style.line_height = height;
        self
    }

    /// Sets the paragraph spacing.
    pub const fn paragraph_spacing(mut self, spacing: u32) -> Self {
        self.style.paragraph_spacing = spacing;
        self
    }

    /// Sets the tab size.
    pub const fn tab_size(mut self, size: TabSize) -> Self {
        self.style.tab_size = size;
        self
    }

    /// The style.
    pub const fn build(self) -> TextBoxStyle {
        self.style
    }
}
