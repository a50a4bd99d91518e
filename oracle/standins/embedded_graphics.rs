//! Stands in for the crate embedded_graphics: the types and traits that the layout names, and no drawing.

pub mod geometry {
    use crate::primitives::Rectangle;
    use core::ops::{Add, AddAssign, Sub};

    /// A place.
    #[derive(Clone, Copy, Debug, Default, PartialEq, Eq, Hash)]
    pub struct Point {
        pub x: i32,
        pub y: i32,
    }

    impl Point {
        #[inline]
        pub const fn new(x: i32, y: i32) -> Self {
            Point { x, y }
        }

        #[inline]
        pub const fn zero() -> Self {
            Point::new(0, 0)
        }
    }

    impl Add for Point {
        type Output = Point;
        #[inline]
        fn add(self, by: Point) -> Point {
            Point::new(self.x + by.x, self.y + by.y)
        }
    }

    impl Sub for Point {
        type Output = Point;
        #[inline]
        fn sub(self, by: Point) -> Point {
            Point::new(self.x - by.x, self.y - by.y)
        }
    }

    impl AddAssign for Point {
        #[inline]
        fn add_assign(&mut self, by: Point) {
            *self = *self + by;
        }
    }

    /// Width and height.
    #[derive(Clone, Copy, Debug, Default, PartialEq, Eq, Hash)]
    pub struct Size {
        pub width: u32,
        pub height: u32,
    }

    impl Size {
        #[inline]
        pub const fn new(width: u32, height: u32) -> Self {
            Size { width, height }
        }
    }

    /// Something that takes up a rectangle.
    pub trait Dimensions {
        fn bounding_box(&self) -> Rectangle;
    }
}

pub mod primitives {
    use crate::geometry::{Point, Size};
    use crate::transform::Transform;

    /// A rectangle by its upper left corner.
    #[derive(Clone, Copy, Debug, Default, PartialEq, Eq, Hash)]
    pub struct Rectangle {
        pub top_left: Point,
        pub size: Size,
    }

    impl Rectangle {
        #[inline]
        pub const fn new(top_left: Point, size: Size) -> Self {
            Rectangle { top_left, size }
        }
    }

    impl Transform for Rectangle {
        fn translate(&self, by: Point) -> Self {
            Rectangle::new(self.top_left + by, self.size)
        }

        fn translate_mut(&mut self, by: Point) -> &mut Self {
            self.top_left += by;
            self
        }
    }
}

pub mod transform {
    use crate::geometry::Point;

    /// Something that can be moved.
    pub trait Transform {
        fn translate(&self, by: Point) -> Self;
        fn translate_mut(&mut self, by: Point) -> &mut Self;
    }
}

pub mod pixelcolor {
    /// A colour.
    pub trait PixelColor: Copy + PartialEq {}
}

pub mod draw_target {
    use crate::{pixelcolor::PixelColor, primitives::Rectangle};
    use core::marker::PhantomData;

    /// Where something is drawn. Nothing is: what is drawn is told by the text renderer.
    pub trait DrawTarget {
        type Color: PixelColor;
        type Error;
    }

    /// A part of another target.
    pub struct Clipped<'t, T: ?Sized> {
        _target: PhantomData<&'t mut T>,
    }

    impl<T: DrawTarget + ?Sized> DrawTarget for Clipped<'_, T> {
        type Color = T::Color;
        type Error = T::Error;
    }

    /// Parts of targets.
    pub trait DrawTargetExt: DrawTarget {
        #[inline]
        fn clipped(&mut self, _area: &Rectangle) -> Clipped<'_, Self> {
            Clipped { _target: PhantomData }
        }
    }

    impl<T: DrawTarget> DrawTargetExt for T {}
}

pub mod text {
    /// Which part of a glyph stands at a given place. The layout knows one.
    #[derive(Clone, Copy, Debug, PartialEq, Eq, Hash)]
    pub enum Baseline {
        Top,
    }

    /// The colour of a decoration.
    #[derive(Clone, Copy, Debug, PartialEq, Eq, Hash)]
    pub enum DecorationColor<C> {
        None,
        TextColor,
        Custom(C),
    }

    /// How far below a line the next one stands.
    #[derive(Clone, Copy, Debug, PartialEq, Eq, Hash)]
    pub enum LineHeight {
        Pixels(u32),
        Percent(u32),
    }

    impl LineHeight {
        /// The same in pixels, for lines of a given height.
        pub const fn to_absolute(self, base: u32) -> u32 {
            match self {
                LineHeight::Pixels(pixels) => pixels,
                LineHeight::Percent(percent) => base * percent / 100,
            }
        }
    }

    pub mod renderer {
        use super::{Baseline, DecorationColor};
        use crate::{draw_target::DrawTarget, geometry::Point, pixelcolor::PixelColor, primitives::Rectangle};

        /// What a string takes up, and where the next one goes.
        #[derive(Clone, Copy, Debug, PartialEq, Eq)]
        pub struct TextMetrics {
            pub bounding_box: Rectangle,
            pub next_position: Point,
        }

        /// Draws and measures text.
        pub trait TextRenderer {
            type Color: PixelColor;

            fn draw_string<D>(&self, text: &str, position: Point, baseline: Baseline, target: &mut D) -> Result<Point, D::Error>
            where
                D: DrawTarget<Color = Self::Color>;

            fn draw_whitespace<D>(
                &self,
                width: u32,
                position: Point,
                baseline: Baseline,
                target: &mut D,
            ) -> Result<Point, D::Error>
            where
                D: DrawTarget<Color = Self::Color>;

            fn measure_string(&self, text: &str, position: Point, baseline: Baseline) -> TextMetrics;

            fn line_height(&self) -> u32;
        }

        /// How characters look. Nothing here looks different from anything else.
        pub trait CharacterStyle: Clone {
            type Color: PixelColor;

            fn set_text_color(&mut self, _color: Option<Self::Color>) {}
            fn set_background_color(&mut self, _color: Option<Self::Color>) {}
            fn set_underline_color(&mut self, _color: DecorationColor<Self::Color>) {}
            fn set_strikethrough_color(&mut self, _color: DecorationColor<Self::Color>) {}
        }
    }
}

/// Something that can be drawn.
pub trait Drawable {
    type Color: pixelcolor::PixelColor;
    type Output;

    fn draw<D>(&self, target: &mut D) -> Result<Self::Output, D::Error>
    where
        D: draw_target::DrawTarget<Color = Self::Color>;
}

pub mod prelude {
    pub use crate::geometry::{Dimensions, Point, Size};
    pub use crate::pixelcolor::PixelColor;
}
