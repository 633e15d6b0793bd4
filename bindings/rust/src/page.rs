use crate::calls::length;
use crate::structs::PageNumbers;
use crate::Mode;

/// The greatest `stride`; the least is 1.
///
/// ```
/// # use thalluskin::{Drawing, Font, Refusal, MAX_STRIDE};
/// # let file = include_bytes!("../../../examples/f.pcf");
/// let font = Font::load(file)?;
/// assert!(font.check("0", 9, Drawing::new(MAX_STRIDE)).is_ok());
/// assert_eq!(font.check("0", 9, Drawing::new(MAX_STRIDE + 1)).unwrap_err().number, Refusal::BAD_ARGUMENT);
/// # Ok::<(), thalluskin::Refusal>(())
/// ```
pub const MAX_STRIDE: u64 = 65_535;

/// The greatest `scale`; the least is 1.
///
/// ```
/// # use thalluskin::{Drawing, Font, Refusal, MAX_SCALE};
/// # let file = include_bytes!("../../../examples/f.pcf");
/// let font = Font::load(file)?;
/// assert!(font.check("0", 9, Drawing::new(3).scale(MAX_SCALE)).is_ok());
/// assert_eq!(font.check("0", 9, Drawing::new(3).scale(0)).unwrap_err().number, Refusal::BAD_ARGUMENT);
/// # Ok::<(), thalluskin::Refusal>(())
/// ```
pub const MAX_SCALE: u64 = 64;

/// The greatest `start`.
///
/// ```
/// # use thalluskin::{Drawing, Font, Refusal, MAX_START};
/// # let file = include_bytes!("../../../examples/f.pcf");
/// let font = Font::load(file)?;
/// assert_eq!(font.check("0", 9, Drawing::new(3).start(MAX_START))?.dropped, 3);
/// assert_eq!(font.check("0", 9, Drawing::new(3).start(MAX_START + 1)).unwrap_err().number, Refusal::BAD_ARGUMENT);
/// # Ok::<(), thalluskin::Refusal>(())
/// ```
pub const MAX_START: u64 = 2_147_483_647;

/// How many bytes a text may have.
///
/// ```
/// # use thalluskin::{Drawing, Font, Refusal, MAX_TEXT};
/// # let file = include_bytes!("../../../examples/f.pcf");
/// let (font, text) = (Font::load(file)?, [b'\n'; 65_536]);
/// assert!(font.check(&text[..MAX_TEXT as usize], 9, Drawing::new(3)).is_ok());
/// assert_eq!(font.check(&text, 9, Drawing::new(3)).unwrap_err().number, Refusal::BAD_TEXT);
/// # Ok::<(), thalluskin::Refusal>(())
/// ```
pub const MAX_TEXT: u64 = 65_535;

/// The greatest width, height or pad that is given: those of a [`Bitmap`](crate::Bitmap) and of a
/// [`GlyphInfo`](crate::GlyphInfo).
///
/// ```
/// # use thalluskin::{Font, GlyphInfo, Mode, Page, Refusal, MAX_BOX};
/// # let file = include_bytes!("../../../examples/f.pcf");
/// let font = Font::load(file)?;
/// let low = GlyphInfo { pad_top: MAX_BOX as u16 + 1, ..font.prep_char('0', Mode::PLAIN)?.0 };
/// assert_eq!(font.draw_glyph(low, &mut Page::new(&mut [], 3)).unwrap_err().number, Refusal::BAD_ARGUMENT);
/// # Ok::<(), thalluskin::Refusal>(())
/// ```
pub const MAX_BOX: u64 = 32_767;

/// The numbers of a drawing, without its pixels: what a dry run needs, and what can be kept for many drawings.
///
/// ```
/// # use thalluskin::{Drawing, Font, Mode};
/// # let file = include_bytes!("../../../examples/f.pcf");
/// let font = Font::vet(file, Mode::PLAIN)?;
/// let large = Drawing::new(14).scale(2);
/// let mut pixels = [0; 14 * 14];
/// font.draw("01", &mut large.on(&mut pixels))?;
/// font.draw("10", &mut large.start(14 * 7).on(&mut pixels))?;
/// # Ok::<(), thalluskin::Refusal>(())
/// ```
#[must_use]
#[derive(Clone, Copy, Debug, PartialEq, Eq)]
pub struct Drawing {
    /// The pixel where it begins, 0 to [`MAX_START`]: the pen at the top of the first line.
    pub start: u64,
    /// How many pixels a line of the page has, 1 to [`MAX_STRIDE`].
    pub stride: u64,
    /// How many pixels each bit of a glyph is wide and high, 1 to [`MAX_SCALE`].
    pub scale: u64,
    /// Where a text's lines end, counted from `start` in pixels. With `None` they end at newlines alone, and so they do
    /// with `Some(u64::MAX)`, which no line reaches.
    pub wrap: Option<u64>,
    /// The value that a coloured pixel gets.
    pub colour: u32,
    /// How codes are looked up.
    pub mode: Mode,
}

impl Drawing {
    /// On lines of `stride` pixels: from pixel 0 on, at scale 1, in colour 1, without wrapping, in [`Mode::PLAIN`].
    ///
    /// ```
    /// # use thalluskin::{Drawing, Mode};
    /// let plain = Drawing { start: 0, stride: 240, scale: 1, wrap: None, colour: 1, mode: Mode::PLAIN };
    /// assert_eq!(Drawing::new(240), plain);
    /// ```
    pub const fn new(stride: u64) -> Drawing {
        Drawing { start: 0, stride, scale: 1, wrap: None, colour: 1, mode: Mode::PLAIN }
    }

    /// The same from another pixel on.
    ///
    /// ```
    /// # use thalluskin::Drawing;
    /// assert_eq!(Drawing::new(240).start(480).start, 480);
    /// ```
    pub const fn start(self, start: u64) -> Drawing {
        Drawing { start, ..self }
    }

    /// The same at another scale.
    ///
    /// ```
    /// # use thalluskin::Drawing;
    /// assert_eq!(Drawing::new(240).scale(2).scale, 2);
    /// ```
    pub const fn scale(self, scale: u64) -> Drawing {
        Drawing { scale, ..self }
    }

    /// The same with lines that end before this pixel. A letter that would end exactly there wraps too: for lines of
    /// 240 pixels it is 241.
    ///
    /// ```
    /// # use thalluskin::Drawing;
    /// assert_eq!(Drawing::new(240).wrap(241).wrap, Some(241));
    /// ```
    pub const fn wrap(self, wrap: u64) -> Drawing {
        Drawing { wrap: Some(wrap), ..self }
    }

    /// The same in another colour.
    ///
    /// ```
    /// # use thalluskin::Drawing;
    /// assert_eq!(Drawing::new(240).colour(0xffffff).colour, 0xffffff);
    /// ```
    pub const fn colour(self, colour: u32) -> Drawing {
        Drawing { colour, ..self }
    }

    /// The same in another mode.
    ///
    /// ```
    /// # use thalluskin::{Drawing, Font, Mode};
    /// # let file = include_bytes!("../../../examples/f.pcf");
    /// let font = Font::vet(file, Mode::PLAIN)?; // its glyphs, of 0 and 1, are 3 by 3
    /// let one_each_line = Drawing::new(3).wrap(4);
    /// assert_eq!(font.check("né", 99, one_each_line)?.height, 3);
    /// assert_eq!(font.check("né", 99, one_each_line.mode(Mode { default: true, ..Mode::PLAIN }))?.height, 6);
    /// # Ok::<(), thalluskin::Refusal>(())
    /// ```
    pub const fn mode(self, mode: Mode) -> Drawing {
        Drawing { mode, ..self }
    }

    /// With the pixels to draw on.
    ///
    /// ```
    /// # use thalluskin::Drawing;
    /// let mut pixels = [0; 240];
    /// assert_eq!(Drawing::new(240).scale(2).on(&mut pixels).drawing.scale, 2);
    /// ```
    pub fn on(self, pixels: &mut [u32]) -> Page<'_> {
        Page { pixels, drawing: self }
    }

    // As they go into a call, where the greatest number is no wrap.
    pub(crate) fn numbers(self) -> PageNumbers {
        let Drawing { start, stride, scale, wrap, colour, mode } = self;
        PageNumbers { start, stride, scale, wrap: wrap.unwrap_or(u64::MAX), colour, mode: mode.into() }
    }
}

/// Pixels to draw on, and how: lines of `stride` pixels, and the other numbers of a [`Drawing`].
///
/// ```
/// # use thalluskin::{Font, Mode, Page};
/// # let file = include_bytes!("../../../examples/f.pcf");
/// let font = Font::vet(file, Mode::PLAIN)?;
/// let mut pixels = [0; 14 * 7];
/// let mut page = Page::new(&mut pixels, 14).scale(2).colour(7);
/// font.draw("01", &mut page)?;
/// assert_eq!(page.pixels[..7], [7, 7, 7, 7, 7, 7, 0]);
/// page.drawing.colour = 8; // for the next text
/// font.draw("1", &mut page)?;
/// assert_eq!(pixels[..7], [7, 7, 8, 8, 7, 7, 0]);
/// # Ok::<(), thalluskin::Refusal>(())
/// ```
#[must_use]
#[derive(Debug, PartialEq, Eq)]
pub struct Page<'p> {
    /// The pixels, line after line.
    pub pixels: &'p mut [u32],
    /// How they are drawn on.
    pub drawing: Drawing,
}

impl<'p> Page<'p> {
    /// Lines of `stride` pixels, drawn on from pixel 0 on, at scale 1, in colour 1, without wrapping,
    /// in [`Mode::PLAIN`].
    ///
    /// ```
    /// # use thalluskin::{Drawing, Page};
    /// let mut pixels = [0; 240 * 2];
    /// assert_eq!(Page::new(&mut pixels, 240).drawing, Drawing::new(240));
    /// ```
    pub fn new(pixels: &'p mut [u32], stride: u64) -> Page<'p> {
        Page { pixels, drawing: Drawing::new(stride) }
    }

    /// The same from another pixel on.
    ///
    /// ```
    /// # use thalluskin::Page;
    /// assert_eq!(Page::new(&mut [0; 480], 240).start(240).drawing.start, 240);
    /// ```
    pub fn start(self, start: u64) -> Page<'p> {
        Page { drawing: self.drawing.start(start), ..self }
    }

    /// The same at another scale.
    ///
    /// ```
    /// # use thalluskin::Page;
    /// assert_eq!(Page::new(&mut [0; 480], 240).scale(2).drawing.scale, 2);
    /// ```
    pub fn scale(self, scale: u64) -> Page<'p> {
        Page { drawing: self.drawing.scale(scale), ..self }
    }

    /// The same with lines of text that end before this pixel. A letter that would end exactly there wraps too: for
    /// lines of 240 pixels it is 241.
    ///
    /// ```
    /// # use thalluskin::Page;
    /// assert_eq!(Page::new(&mut [0; 480], 240).wrap(241).drawing.wrap, Some(241));
    /// ```
    pub fn wrap(self, wrap: u64) -> Page<'p> {
        Page { drawing: self.drawing.wrap(wrap), ..self }
    }

    /// The same in another colour.
    ///
    /// ```
    /// # use thalluskin::Page;
    /// assert_eq!(Page::new(&mut [0; 480], 240).colour(0xffffff).drawing.colour, 0xffffff);
    /// ```
    pub fn colour(self, colour: u32) -> Page<'p> {
        Page { drawing: self.drawing.colour(colour), ..self }
    }

    /// The same in another mode.
    ///
    /// ```
    /// # use thalluskin::{Mode, Page};
    /// let mode = Mode { default: true, ..Mode::PLAIN };
    /// assert_eq!(Page::new(&mut [0; 480], 240).mode(mode).drawing.mode, mode);
    /// ```
    pub fn mode(self, mode: Mode) -> Page<'p> {
        Page { drawing: self.drawing.mode(mode), ..self }
    }

    /// How many pixels there are, as [`Font::check`](crate::Font::check) asks for it.
    ///
    /// ```
    /// # use thalluskin::{Font, Mode, Page};
    /// # let file = include_bytes!("../../../examples/f.pcf");
    /// let font = Font::vet(file, Mode::PLAIN)?;
    /// let mut pixels = [0; 24];
    /// let mut page = Page::new(&mut pixels, 6);
    /// if font.check("01", page.room(), page.drawing)?.dropped == 0 {
    ///     font.draw("01", &mut page)?;
    /// }
    /// # Ok::<(), thalluskin::Refusal>(())
    /// ```
    pub fn room(&self) -> u64 {
        length(self.pixels)
    }
}

/// Bytes to unpack a glyph into, one for each bit, in lines of `stride` bytes.
///
/// ```
/// # use thalluskin::{Cells, Font, Mode};
/// # let file = include_bytes!("../../../examples/f.pcf");
/// let font = Font::load(file)?;
/// let mut bytes = [0; 12];
/// let (nil, _) = font.prep_char('0', Mode::PLAIN)?;
/// font.unpack_glyph(nil, &mut Cells::new(&mut bytes, 4).start(1))?;
/// assert_eq!(bytes, [0, 1, 1, 1, 0, 1, 0, 1, 0, 1, 1, 1]);
/// # Ok::<(), thalluskin::Refusal>(())
/// ```
#[must_use]
#[derive(Debug, PartialEq, Eq)]
pub struct Cells<'p> {
    /// The bytes, line after line.
    pub bytes: &'p mut [u8],
    /// The byte where the glyph begins, 0 to [`MAX_START`].
    pub start: u64,
    /// How many bytes a line has, 1 to [`MAX_STRIDE`].
    pub stride: u64,
    /// How codes are looked up. A glyph is unpacked alike in every mode.
    pub mode: Mode,
}

impl<'p> Cells<'p> {
    /// Lines of `stride` bytes, from byte 0 on, in [`Mode::PLAIN`].
    ///
    /// ```
    /// # use thalluskin::Cells;
    /// let mut bytes = [0; 9];
    /// assert_eq!(Cells::new(&mut bytes, 3).start, 0);
    /// ```
    pub fn new(bytes: &'p mut [u8], stride: u64) -> Cells<'p> {
        Cells { bytes, start: 0, stride, mode: Mode::PLAIN }
    }

    /// The same from another byte on.
    ///
    /// ```
    /// # use thalluskin::Cells;
    /// assert_eq!(Cells::new(&mut [0; 9], 3).start(1).start, 1);
    /// ```
    pub fn start(self, start: u64) -> Cells<'p> {
        Cells { start, ..self }
    }

    /// The same in another mode.
    ///
    /// ```
    /// # use thalluskin::{Cells, Mode};
    /// let mode = Mode { default: true, ..Mode::PLAIN };
    /// assert_eq!(Cells::new(&mut [0; 9], 3).mode(mode).mode, mode);
    /// ```
    pub fn mode(self, mode: Mode) -> Cells<'p> {
        Cells { mode, ..self }
    }

    // As they go into a call.
    pub(crate) fn numbers(&self) -> PageNumbers {
        Drawing::new(self.stride).start(self.start).mode(self.mode).numbers()
    }
}
