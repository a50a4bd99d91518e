//! Stands in for the crate's plugin/mod.rs: one held token between the parser and the line, and no plugins.
//!
//! The layout peeks at the next token, and then takes all of it or a part. What is taken of a cut token is not in the
//! crate's given files: rule 9 of the scope is what stands here.

mod private;
pub mod probe;

use crate::{
    parser::{Parser, Token, SPEC_CHAR_ZWSP},
    rendering::{cursor::Cursor, TextBoxProperties},
};
use core::{
    cell::RefCell,
    hash::{Hash, Hasher},
    marker::PhantomData,
};
use embedded_graphics::{
    draw_target::DrawTarget,
    prelude::PixelColor,
    primitives::Rectangle,
    text::renderer::{CharacterStyle, TextRenderer},
};
use private::Plugin;

/// Any plugin.
pub trait PluginMarker<'a, C: PixelColor>: Plugin<'a, C> {}

impl<'a, C: PixelColor, M: Plugin<'a, C>> PluginMarker<'a, C> for M {}

/// No plugin.
#[derive(Clone, Copy, Debug, PartialEq, Eq, Hash)]
pub struct NoPlugin<C>(PhantomData<C>);

impl<C> NoPlugin<C> {
    pub(crate) const fn new() -> Self {
        NoPlugin(PhantomData)
    }
}

/// What tokens are looked at for.
#[derive(Clone, Copy, Debug, PartialEq, Eq)]
pub(crate) enum ProcessingState {
    Measure,
    Render,
}

/// A token, and where it stands: how many bytes of the text there are from its start on, and after its end.
#[derive(Clone, Debug)]
pub(crate) struct Held<'a, C> {
    pub token: Token<'a, C>,
    pub from_start: usize,
    pub from_end: usize,
}

#[derive(Clone, Debug)]
struct Inner<'a, M, C> {
    plugin: M,
    state: ProcessingState,
    held: Option<Held<'a, C>>,
    cut_zero_width: bool,
}

/// The held token, to be changed through a shared reference. A clone is on its own from then on: lookahead and measuring
/// rest on that.
#[derive(Clone, Debug)]
pub(crate) struct PluginWrapper<'a, M, C> {
    inner: RefCell<Inner<'a, M, C>>,
}

impl<M, C> Hash for PluginWrapper<'_, M, C> {
    fn hash<H: Hasher>(&self, _state: &mut H) {}
}

impl<'a, M, C> PluginWrapper<'a, M, C> {
    pub(crate) fn new(plugin: M) -> Self {
        PluginWrapper {
            inner: RefCell::new(Inner { plugin, state: ProcessingState::Measure, held: None, cut_zero_width: false }),
        }
    }

    pub(crate) fn into_inner(self) -> M {
        self.inner.into_inner().plugin
    }

    pub(crate) fn set_state(&self, state: ProcessingState) {
        self.inner.borrow_mut().state = state;
    }

    /// Nothing is held afterwards, and it does not matter whether anything was.
    pub(crate) fn consume_peeked_token(&self) {
        self.inner.borrow_mut().held = None;
    }

    /// Rule 9: takes the first `taken` characters of what is held, and holds the others on. Where there are no others, or
    /// nothing was held, nothing is held afterwards.
    pub(crate) fn consume_partial(&self, taken: usize) {
        let mut inner = self.inner.borrow_mut();
        let Some(held) = inner.held.take() else { return };
        let string = match held.token {
            Token::Whitespace(_, string) | Token::Word(string) => string,
            _ => unreachable!("only a space run and a word are ever cut"),
        };
        let bytes = string.chars().take(taken).map(char::len_utf8).sum();
        let others = &string[bytes..];
        let token = match held.token {
            Token::Whitespace(count, _) => {
                inner.cut_zero_width |= string.contains(SPEC_CHAR_ZWSP);
                Token::Whitespace(count - taken as u32, others)
            }
            _ => Token::Word(others),
        };
        if !others.is_empty() {
            inner.held = Some(Held { token, from_start: held.from_start - bytes, from_end: held.from_end });
        }
    }

    /// Where the held token stands: bytes of the text from its start on, and after its end.
    pub(crate) fn held_place(&self) -> Option<(usize, usize)> {
        self.inner.borrow().held.as_ref().map(|held| (held.from_start, held.from_end))
    }

    /// The count of a held space run.
    pub(crate) fn held_count(&self) -> Option<u32> {
        match self.inner.borrow().held {
            Some(Held { token: Token::Whitespace(count, _), .. }) => Some(count),
            _ => None,
        }
    }

    /// Whether a space run that holds U+200B was ever cut.
    pub(crate) fn has_cut_zero_width(&self) -> bool {
        self.inner.borrow().cut_zero_width
    }
}

impl<'a, M, C> PluginWrapper<'a, M, C>
where
    C: PixelColor,
    M: Plugin<'a, C>,
{
    /// The held token; where none is held, the parser's next one is from then on.
    pub(crate) fn peek_token(&self, parser: &mut Parser<'a, C>) -> Option<Token<'a, C>> {
        let mut inner = self.inner.borrow_mut();
        if inner.held.is_none() {
            let from_start = parser.as_str().len();
            let token = inner.plugin.next_token(|| parser.next());
            let from_end = parser.as_str().len();
            inner.held = token.map(|token| Held { token, from_start, from_end });
        }
        inner.held.as_ref().map(|held| held.token.clone())
    }

    pub(crate) fn render_token(&self, token: Token<'a, C>) -> Option<Token<'a, C>> {
        self.inner.borrow_mut().plugin.render_token(token)
    }

    pub(crate) fn new_line(&self) {
        self.inner.borrow_mut().plugin.new_line();
    }

    pub(crate) fn on_start_render<S: CharacterStyle + TextRenderer>(&self, cursor: &mut Cursor, props: TextBoxProperties<'_, S>) {
        self.inner.borrow_mut().plugin.on_start_render(cursor, &props);
    }

    pub(crate) fn on_rendering_finished(&self) {
        self.inner.borrow_mut().plugin.on_rendering_finished();
    }

    pub(crate) fn post_render<T, D>(
        &self,
        target: &mut D,
        style: &T,
        text: Option<&str>,
        bounds: Rectangle,
    ) -> Result<(), D::Error>
    where
        T: TextRenderer<Color = C>,
        D: DrawTarget<Color = C>,
    {
        self.inner.borrow_mut().plugin.post_render(target, style, text, bounds)
    }
}
