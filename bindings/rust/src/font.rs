use crate::calls;
use crate::page::{Cells, Drawing, Page};
use crate::structs::*;
use crate::{Mode, Reason, Refusal};

/// A font: the bytes of its file, and the record that loading gave for them.
///
/// Every call answers for any bytes and any record. Where it refuses, pages are as they were. What it answers of the
/// font's bytes, a name or a property, lives as long as they do.
///
/// # Drawing
///
/// A [`Page`] holds lines of `stride` pixels. Each set bit colours a square of `scale` by `scale` pixels; all others
/// keep their values. Nothing stops a glyph at its line's right end.
///
/// A bitmap's first pixel p is `start` in [`Font::draw_bitmap`]. For a placed glyph `start` is the pen at the top of
/// the line, and the pads are added:
///
/// ```text
/// p = start + stride * scale * pad_top + scale * pad_left
/// m = (pixels.len() - p) / stride, or 0 where p lies beyond the pixels
/// rows drawn = the smaller of height and m / scale * scale
/// ```
///
/// with divisions that round down; the other rows are dropped. m counts strides from p and not lines of the page: at
/// scale 1, on a page that ends with a glyph's last line, only a bitmap that begins at the left end keeps that row. A
/// page with one line more avoids it. A drawn row can still have a pixel to colour beyond the page, at a scale above 1
/// or in a bitmap wider than `stride`; then the call is refused (16).
///
/// `stride` is 1 to [`MAX_STRIDE`](crate::MAX_STRIDE), `scale` 1 to [`MAX_SCALE`](crate::MAX_SCALE), `start` at most
/// [`MAX_START`](crate::MAX_START), a given width, height or pad at most [`MAX_BOX`](crate::MAX_BOX); 15 refuses all
/// else. The [`Mode`] says how codes are looked up; where a glyph is given and no code, all modes are alike. A glyph is
/// without a bitmap if its number is at or above the bitmap count (12).
///
/// # Texts
///
/// A text is UTF-8 of at most [`MAX_TEXT`](crate::MAX_TEXT) bytes, a `&str` or bytes. The pen begins at x = y = 0. A
/// character is drawn as [`Font::draw_glyph`] draws its glyph, with `start + y * stride + x` for `start`; then x grows
/// by the glyph's width times `scale`. A newline sets x to 0 and adds the line height to y, which is `scale` times the
/// height that [`Font::dimensions`] answers.
///
/// A glyph for which x plus its width times `scale` is `wrap` or more goes to a new line first, even at a line's
/// beginning, and by one line at most. So a letter that ends exactly at `wrap` wraps too: on a page 240 pixels wide
/// `wrap` is 241. Without `wrap` lines end at newlines alone.
///
/// A carriage return and a code without a glyph are skipped; in the mode `default` such a code is drawn by the glyph of
/// the font's default code, if that has one. A glyph without a bitmap is no refusal: it draws nothing and drops
/// nothing, but wraps and moves the pen as any other. The answer's height is y and one line height.
///
/// ```
/// # use thalluskin::{Drawing, Font, Mode};
/// # let file = include_bytes!("../../../examples/f.pcf");
/// let font = Font::vet(file, Mode::PLAIN)?; // its glyphs are 3 by 3
/// assert_eq!(font.check("01", 6 * 3, Drawing::new(6))?.dropped, 1);
/// assert_eq!(font.check("01", 6 * 4, Drawing::new(6))?.dropped, 0);
/// assert_eq!(font.check("01", 6 * 7, Drawing::new(6).wrap(6))?.height, 6);
/// assert_eq!(font.check("01", 6 * 7, Drawing::new(6).wrap(7))?.height, 3);
/// # Ok::<(), thalluskin::Refusal>(())
/// ```
#[derive(Clone, Copy, Debug)]
pub struct Font<'a> {
    bytes: &'a [u8],
    record: Record,
}

/// A property of a font: its name and its value, parts of the font's own bytes.
#[derive(Clone, Copy, Debug, PartialEq, Eq)]
pub struct Property<'a> {
    /// The name, which need not be UTF-8.
    pub name: &'a [u8],
    /// The value.
    pub value: Value<'a>,
}

/// The value of a property.
#[derive(Clone, Copy, Debug, PartialEq, Eq)]
pub enum Value<'a> {
    /// A number.
    Number(u32),
    /// A string, which need not be UTF-8.
    String(&'a [u8]),
}

// The value, unless the call was refused.
fn answer<T>(refusal: u32, place: u64, value: T) -> Result<T, Refusal> {
    if refusal == 0 {
        Ok(value)
    } else {
        Err(Refusal { number: refusal, place })
    }
}

impl<'a> Font<'a> {
    /// A font file, loaded. A table's format stands in its directory entry and once more in its own first four bytes.
    /// Where the two differ the table's own counts, and of metrics the directory's. Refused 1, 2, 3, 4; entry by entry
    /// 5, 6 (in a code table 6 for its header, 7, 6 for its entries); 8.
    ///
    /// ```
    /// # let file = include_bytes!("../../../examples/f.pcf");
    /// let font = thalluskin::Font::load(file)?;
    /// assert_eq!(font.record().codes.low2, 0x30);
    /// # Ok::<(), thalluskin::Refusal>(())
    /// ```
    pub fn load(bytes: &'a [u8]) -> Result<Font<'a>, Refusal> {
        let a = calls::load(bytes);
        answer(a.refusal, a.place, Font { bytes, record: a.rec })
    }

    /// The same, of a font in which the two formats of each known table, one of type 1, 2, 4, 8, 32, 128 or 256, have
    /// every bit alike. Where they differ, one of them is wrong, and nothing tells which: such a font is refused.
    /// Refused 1, 2, 3, 4; entry by entry 5, 6 for the table's first four bytes, 27, 6 for the rest (in a code table 6
    /// for its header, 7, 6 for its entries); 8.
    ///
    /// ```
    /// # use thalluskin::{Font, Refusal};
    /// # let mut file = *include_bytes!("../../../examples/f.pcf");
    /// assert!(Font::load_strict(&file).is_ok());
    /// file[0xa4] ^= 4; // the metrics' own format says big-endian now, and that of directory entry 2 does not
    /// assert!(Font::load(&file).is_ok());
    /// let refused = Font::load_strict(&file).unwrap_err();
    /// assert_eq!(refused, Refusal { number: Refusal::TWO_FORMATS, place: 2 });
    /// ```
    pub fn load_strict(bytes: &'a [u8]) -> Result<Font<'a>, Refusal> {
        let a = calls::load_strict(bytes);
        answer(a.refusal, a.place, Font { bytes, record: a.rec })
    }

    /// A font that loads strictly and of which no code's glyph is ever refused for the font's sake: in such a font a
    /// text is refused only for itself (19), for another argument (15), or because a pixel to colour lies beyond the
    /// buffer (16). That holds of texts in every mode, and the answer is the same in each: a glyph that stands in for
    /// another is vetted as its own code's. A font that [`Font::load`] takes and that is refused 27 here is to be made
    /// anew from its source, as by bdftopcf; until then the one that is loaded serves every call, without that promise.
    /// Refused as [`Font::load_strict`]; 13; 11 of the bounds; 18 of a property; code by code 10, 11, 12, 14, 17, 18.
    ///
    /// ```
    /// # use thalluskin::{Font, Mode, Refusal};
    /// # let file = include_bytes!("../../../examples/f.pcf");
    /// assert!(Font::vet(file, Mode::PLAIN).is_ok());
    /// let cut = Font::vet(&file[..file.len() - 1], Mode::PLAIN).unwrap_err();
    /// assert_eq!(cut, Refusal { number: Refusal::BAD_TABLE, place: 5 });
    /// ```
    ///
    /// Two refusals have two causes that the place alone does not tell apart; the loaded font does:
    ///
    /// - 11 at place 0 is of the bounds if [`Font::dimensions`] is refused 11, else of code 0's glyph;
    /// - 18 at place n is of property n if [`Font::property`] with n is refused 18, else of the name of code n's glyph.
    ///
    /// ```
    /// # use thalluskin::{Font, Mode, Refusal};
    /// # let mut file = *include_bytes!("../../../examples/f.pcf");
    /// # (file[0x9e], file[0x9f]) = (255, 255);
    /// // F with maximum bounds that have an ascent of -1
    /// assert_eq!(Font::vet(&file, Mode::PLAIN).unwrap_err(), Refusal { number: Refusal::BAD_METRICS, place: 0 });
    /// assert_eq!(Font::load(&file)?.dimensions().unwrap_err().number, Refusal::BAD_METRICS);
    /// # Ok::<(), thalluskin::Refusal>(())
    /// ```
    pub fn vet(bytes: &'a [u8], mode: Mode) -> Result<Font<'a>, Refusal> {
        let a = calls::vet(bytes, mode.into());
        answer(a.refusal, a.place, Font { bytes, record: a.rec })
    }

    /// Bytes with a record that was kept. Nothing is tested here: each call tests the record, and refuses 6 where it
    /// does not fit the bytes.
    ///
    /// ```
    /// # use thalluskin::{Font, Mode, Refusal};
    /// # let file = include_bytes!("../../../examples/f.pcf");
    /// let kept = *Font::vet(file, Mode::PLAIN)?.record();
    /// assert!(Font::with_record(file, kept).glyph('0', Mode::PLAIN).is_ok());
    /// assert_eq!(Font::with_record(b"", kept).dimensions().unwrap_err().number, Refusal::BAD_TABLE);
    /// # Ok::<(), thalluskin::Refusal>(())
    /// ```
    pub fn with_record(bytes: &'a [u8], record: Record) -> Font<'a> {
        Font { bytes, record }
    }

    /// The bytes of the font's file.
    ///
    /// ```
    /// # let file = include_bytes!("../../../examples/f.pcf");
    /// assert_eq!(thalluskin::Font::load(file)?.bytes(), file);
    /// # Ok::<(), thalluskin::Refusal>(())
    /// ```
    pub fn bytes(&self) -> &'a [u8] {
        self.bytes
    }

    /// What loading kept of the font's tables.
    ///
    /// ```
    /// # let file = include_bytes!("../../../examples/f.pcf");
    /// let font = thalluskin::Font::load(file)?;
    /// assert_eq!((font.record().props.count, font.record().metrics.count), (0, 2));
    /// # Ok::<(), thalluskin::Refusal>(())
    /// ```
    pub fn record(&self) -> &Record {
        &self.record
    }

    // A part of the font's bytes.
    fn part(&self, span: Span) -> Result<&'a [u8], Refusal> {
        let from = |start: u64, len: u64| {
            let rest = self.bytes.get(usize::try_from(start).ok()?..)?;
            rest.get(..usize::try_from(len).ok()?)
        };
        from(span.start, span.len).ok_or(Refusal { number: 0, place: span.start })
    }

    /// The property with this number, from 0. Refused 6, 17, 18.
    ///
    /// ```
    /// # use thalluskin::{Font, Refusal, Value};
    /// # let file = include_bytes!("../../../examples/big_two_byte.pcf");
    /// let font = Font::load(file)?;
    /// let family = font.property(0)?;
    /// assert_eq!((family.name, family.value), (&b"FAMILY"[..], Value::String(b"Meter")));
    /// assert_eq!(font.property(1)?.value, Value::Number(305419896));
    /// assert_eq!(font.property(3).unwrap_err().number, Refusal::NO_NAME);
    /// # Ok::<(), thalluskin::Refusal>(())
    /// ```
    pub fn property(&self, number: u32) -> Result<Property<'a>, Refusal> {
        let a = calls::property(self.bytes, self.record, number);
        answer(a.refusal, a.place, ())?;
        let value = if a.is_string { Value::String(self.part(a.string)?) } else { Value::Number(a.number) };
        Ok(Property { name: self.part(a.name)?, value })
    }

    /// The glyph of a code, which a `char` is too, and the code that supplied it. Refused 6, 9.
    ///
    /// ```
    /// # use thalluskin::{CharCode, Font, GlyphIndex, Mode, Refusal, Supplier};
    /// # let file = include_bytes!("../../../examples/f.pcf");
    /// let font = Font::load(file)?; // its default code is that of 0
    /// let itself = Supplier { code: CharCode(0x31), is_default: false };
    /// assert_eq!(font.glyph('1', Mode::PLAIN)?, (GlyphIndex(1), itself));
    /// assert_eq!(font.glyph(CharCode(0x32), Mode::PLAIN).unwrap_err().number, Refusal::NO_GLYPH);
    /// let instead = Supplier { code: CharCode(0x30), is_default: true };
    /// assert_eq!(font.glyph(CharCode(0x32), Mode { default: true, ..Mode::PLAIN })?, (GlyphIndex(0), instead));
    /// # Ok::<(), thalluskin::Refusal>(())
    /// ```
    pub fn glyph(&self, code: impl Into<CharCode>, mode: Mode) -> Result<(GlyphIndex, Supplier), Refusal> {
        let a = calls::glyph(self.bytes, self.record, code.into(), mode.into());
        answer(a.refusal, a.place, (a.glyph, a.by))
    }

    /// A glyph's name, a part of the font's own bytes. Refused 6, 17, 18.
    ///
    /// ```
    /// # use thalluskin::{Font, GlyphIndex, Refusal};
    /// # let file = include_bytes!("../../../examples/f.pcf");
    /// let font = Font::load(file)?;
    /// assert_eq!(font.name(GlyphIndex(0))?, b"nil");
    /// assert_eq!(font.name(GlyphIndex(2)).unwrap_err().number, Refusal::NO_NAME);
    /// # Ok::<(), thalluskin::Refusal>(())
    /// ```
    pub fn name(&self, glyph: GlyphIndex) -> Result<&'a [u8], Refusal> {
        let a = calls::name(self.bytes, self.record, glyph);
        self.part(answer(a.refusal, a.place, a.name)?)
    }

    /// A glyph's metrics. Refused 6, 10.
    ///
    /// ```
    /// # use thalluskin::{Font, GlyphIndex};
    /// # let file = include_bytes!("../../../examples/f.pcf");
    /// let font = Font::load(file)?;
    /// let one = font.metrics(GlyphIndex(1))?;
    /// assert_eq!((one.width, one.ascent, one.descent), (3, 3, 0));
    /// # Ok::<(), thalluskin::Refusal>(())
    /// ```
    pub fn metrics(&self, glyph: GlyphIndex) -> Result<Metrics, Refusal> {
        let a = calls::metrics(self.bytes, self.record, glyph);
        answer(a.refusal, a.place, a.metrics)
    }

    /// The accelerators: what the file states of the font as a whole. A line's baseline lies `maxbounds.ascent` rows
    /// below its top, before scale. `font_ascent` and `font_descent` are the font's own, as the file states them; texts
    /// do not go by them. Refused 6.
    ///
    /// ```
    /// # use thalluskin::Font;
    /// # let file = include_bytes!("../../../examples/f.pcf");
    /// let font = Font::load(file)?;
    /// let (stride, scale) = (240, 2);
    /// let baseline = i64::from(font.accelerators()?.maxbounds.ascent) * scale * stride; // its first pixel
    /// assert_eq!(baseline, 3 * 2 * 240);
    /// # Ok::<(), thalluskin::Refusal>(())
    /// ```
    pub fn accelerators(&self) -> Result<Accelerators, Refusal> {
        let a = calls::accel(self.bytes, self.record);
        answer(a.refusal, a.place, a.accel)
    }

    /// The height and width of the font's maximum bounds, as its file states them. A glyph may be wider or reach lower,
    /// and a text's lines have this height all the same; that a text fits a page is said by [`Font::check`], whose
    /// `dropped` is 0 then. 11 is for an ascent or width below 0, or a height, which is ascent and descent together,
    /// outside 0 to 32,767. Refused 6, 11.
    ///
    /// ```
    /// # use thalluskin::{Extent, Font};
    /// # let file = include_bytes!("../../../examples/f.pcf");
    /// assert_eq!(Font::load(file)?.dimensions()?, Extent { height: 3, width: 3 });
    /// # Ok::<(), thalluskin::Refusal>(())
    /// ```
    pub fn dimensions(&self) -> Result<Extent, Refusal> {
        let a = calls::dimensions(self.bytes, self.record);
        answer(a.refusal, a.place, a.extent)
    }

    /// A character's glyph, placed, and the code that supplied it. 11 is for a width, ascent or left bearing below 0, a
    /// height, which is ascent and descent together, outside 0 to 32,767, or an ascent above that of the maximum
    /// bounds. Refused 6, 9, 10, 11.
    ///
    /// ```
    /// # use thalluskin::{Font, GlyphIndex, GlyphInfo, Mode};
    /// # let file = include_bytes!("../../../examples/f.pcf");
    /// let placed = GlyphInfo { glyph: GlyphIndex(1), width: 3, height: 3, pad_top: 0, pad_left: 0 };
    /// let (info, by) = Font::load(file)?.prep_char('1', Mode::PLAIN)?;
    /// assert_eq!((info, by.code, by.is_default), (placed, '1'.into(), false));
    /// # Ok::<(), thalluskin::Refusal>(())
    /// ```
    pub fn prep_char(&self, code: impl Into<CharCode>, mode: Mode) -> Result<(GlyphInfo, Supplier), Refusal> {
        let a = calls::prep_char(self.bytes, self.record, code.into(), mode.into());
        answer(a.refusal, a.place, (a.info, a.by))
    }

    /// Draws a glyph's bitmap at `start`. Refused 6, 15, 12, 13, 14, 16.
    ///
    /// ```
    /// # use thalluskin::{Bitmap, Font, GlyphIndex, Page, Rows};
    /// # let file = include_bytes!("../../../examples/f.pcf");
    /// let mut pixels = [0; 9];
    /// let whole = Bitmap { glyph: GlyphIndex(0), width: 3, height: 3 };
    /// let rows = Font::load(file)?.draw_bitmap(whole, &mut Page::new(&mut pixels, 3).colour(7))?;
    /// assert_eq!(rows, Rows { drawn: 3, dropped: 0 });
    /// assert_eq!(pixels, [7, 7, 7, 7, 0, 7, 7, 7, 7]);
    /// # Ok::<(), thalluskin::Refusal>(())
    /// ```
    pub fn draw_bitmap(&self, bitmap: Bitmap, page: &mut Page<'_>) -> Result<Rows, Refusal> {
        let a = calls::draw_bitmap(self.bytes, self.record, bitmap, page.pixels, page.drawing.numbers());
        answer(a.refusal, a.place, a.rows)
    }

    /// Draws a placed glyph. One without a bitmap is no refusal: nothing is drawn, and both numbers of rows are 0.
    /// Refused 6, 15, 13, 14, 16.
    ///
    /// ```
    /// # use thalluskin::{Font, Mode, Page, Rows};
    /// # let file = include_bytes!("../../../examples/f.pcf");
    /// let font = Font::load(file)?;
    /// let mut pixels = [0; 8];
    /// let (nil, _) = font.prep_char('0', Mode::PLAIN)?;
    /// let rows = font.draw_glyph(nil, &mut Page::new(&mut pixels, 3))?;
    /// assert_eq!(rows, Rows { drawn: 2, dropped: 1 });
    /// assert_eq!(pixels, [1, 1, 1, 1, 0, 1, 0, 0]);
    /// # Ok::<(), thalluskin::Refusal>(())
    /// ```
    pub fn draw_glyph(&self, info: GlyphInfo, page: &mut Page<'_>) -> Result<Rows, Refusal> {
        let a = calls::draw_glyph(self.bytes, self.record, info, page.pixels, page.drawing.numbers());
        answer(a.refusal, a.place, a.rows)
    }

    /// Draws a character, and answers its placed glyph too, and the code that supplied it. One whose glyph is without a
    /// bitmap is no refusal: nothing is drawn, and both numbers of rows are 0. Refused 6, 15, 9, 10, 11, 13, 14, 16.
    ///
    /// ```
    /// # use thalluskin::{Font, Mode, Page, Refusal};
    /// # let file = include_bytes!("../../../examples/f.pcf");
    /// let font = Font::load(file)?;
    /// let mut pixels = [0; 24];
    /// let drawn = font.draw_char('0', &mut Page::new(&mut pixels, 6).scale(2));
    /// assert_eq!(drawn.unwrap_err().number, Refusal::BUFFER_SHORT);
    /// assert_eq!(pixels, [0; 24]);
    /// let mode = Mode { default: true, ..Mode::PLAIN };
    /// let (info, rows, by) = font.draw_char('é', &mut Page::new(&mut pixels, 6).mode(mode))?;
    /// assert_eq!((info.glyph.0, rows.drawn, by.is_default), (0, 3, true));
    /// # Ok::<(), thalluskin::Refusal>(())
    /// ```
    pub fn draw_char(
        &self,
        code: impl Into<CharCode>,
        page: &mut Page<'_>,
    ) -> Result<(GlyphInfo, Rows, Supplier), Refusal> {
        let a = calls::draw_char(self.bytes, self.record, code.into(), page.pixels, page.drawing.numbers());
        answer(a.refusal, a.place, (a.info, a.rows, a.by))
    }

    /// Why [`Font::draw_char`] leaves a gap where a character should be, or does not, on a page of `len` pixels: one
    /// [`Reason`], the first in their order that is true of the font, the code and the page. The first four are of the
    /// code asked for, and given only where `draw_char` is refused 9: in the mode `default` where the font's default
    /// code has no glyph either. The others are of the glyph that is drawn, and the [`Supplier`] tells whose that is.
    /// Refused 6, 15.
    ///
    /// ```
    /// # use thalluskin::{Drawing, Font, Mode, Reason, Refusal};
    /// # let file = include_bytes!("../../../examples/f.pcf");
    /// let font = Font::vet(file, Mode::PLAIN)?; // its glyphs, of 0 and 1, are 3 by 3
    /// assert_eq!(font.why('2', 9, Drawing::new(3))?.0, Reason::SecondByte);
    /// assert_eq!(font.why('1', 9, Drawing::new(3))?.0, Reason::Drawn);
    /// assert_eq!(font.why('1', 9, Drawing::new(3).start(1))?.0, Reason::RowsCut(1));
    /// assert_eq!(font.why('1', 9, Drawing::new(0)).unwrap_err().number, Refusal::BAD_ARGUMENT);
    /// let (reason, by) = font.why('2', 9, Drawing::new(3).mode(Mode { default: true, ..Mode::PLAIN }))?;
    /// assert_eq!((reason, by.code, by.is_default), (Reason::Drawn, '0'.into(), true));
    /// # Ok::<(), thalluskin::Refusal>(())
    /// ```
    pub fn why(&self, code: impl Into<CharCode>, len: u64, drawing: Drawing) -> Result<(Reason, Supplier), Refusal> {
        let a = calls::why(self.bytes, self.record, code.into(), len, drawing.numbers());
        let told = answer(a.refusal, a.place, a.reason)?;
        Ok((Reason::of(told).ok_or(Refusal { number: 0, place: 0 })?, a.by))
    }

    /// Stores 1 for each set bit of every whole row byte of a placed glyph, columns past its width included, and
    /// answers how many rows that were. The bit at row r and column c is stored at
    /// `start + stride * pad_top + pad_left + r * stride + c`, and all other bytes keep their values, those of clear
    /// bits too. No row is dropped. A glyph without a bitmap is no refusal: nothing is stored, and the rows are 0.
    /// Refused 6, 15, 13, 14, 16.
    ///
    /// ```
    /// # use thalluskin::{Cells, Font, Mode};
    /// # let file = include_bytes!("../../../examples/f.pcf");
    /// let font = Font::load(file)?;
    /// let mut bits = [9; 9];
    /// let (one, _) = font.prep_char('1', Mode::PLAIN)?;
    /// assert_eq!(font.unpack_glyph(one, &mut Cells::new(&mut bits, 3))?, 3);
    /// assert_eq!(bits, [9, 1, 9, 9, 1, 9, 9, 1, 9]);
    /// # Ok::<(), thalluskin::Refusal>(())
    /// ```
    pub fn unpack_glyph(&self, info: GlyphInfo, cells: &mut Cells<'_>) -> Result<u16, Refusal> {
        let a = calls::unpack_glyph(self.bytes, self.record, info, cells.bytes, cells.numbers());
        answer(a.refusal, a.place, a.rows)
    }

    /// Draws a text, a `&str` or bytes of UTF-8, as [`Font`] says of texts. Refused 6, 15, 19, 11 of the bounds; then
    /// the first character with a refusal decides: 10, 11, 13, 14, 16.
    ///
    /// ```
    /// # use thalluskin::{Font, Mode, Page, TextRows};
    /// # let file = include_bytes!("../../../examples/f.pcf");
    /// let font = Font::vet(file, Mode::PLAIN)?;
    /// let mut pixels = [0; 18];
    /// let rows = font.draw("01", &mut Page::new(&mut pixels, 6))?;
    /// assert_eq!(rows, TextRows { height: 3, dropped: 1 });
    /// assert_eq!(pixels, [1, 1, 1, 0, 1, 0, 1, 0, 1, 0, 1, 0, 1, 1, 1, 0, 0, 0]);
    /// # Ok::<(), thalluskin::Refusal>(())
    /// ```
    pub fn draw(&self, text: impl AsRef<[u8]>, page: &mut Page<'_>) -> Result<TextRows, Refusal> {
        let a = calls::draw_string(self.bytes, self.record, text.as_ref(), page.pixels, page.drawing.numbers());
        answer(a.refusal, a.place, a.rows)
    }

    /// What [`Font::draw`] answers on a page of `len` pixels: a dry run. Refused as that.
    ///
    /// ```
    /// # use thalluskin::{Drawing, Font, Mode, Refusal, TextRows};
    /// # let file = include_bytes!("../../../examples/f.pcf");
    /// let font = Font::vet(file, Mode::PLAIN)?;
    /// let narrow = Drawing::new(6).wrap(6);
    /// assert_eq!(font.check("01", 36, narrow)?, TextRows { height: 6, dropped: 0 });
    /// assert_eq!(font.check(b"0\xff", 36, narrow), Err(Refusal { number: Refusal::BAD_TEXT, place: 1 }));
    /// # Ok::<(), thalluskin::Refusal>(())
    /// ```
    pub fn check(&self, text: impl AsRef<[u8]>, len: u64, drawing: Drawing) -> Result<TextRows, Refusal> {
        let a = calls::text_check(self.bytes, self.record, text.as_ref(), len, drawing.numbers());
        answer(a.refusal, a.place, a.rows)
    }
}

/// The character at byte `i` of a text and where the next one starts, or `None` where `i` is at or past the text's end.
/// The text may have any length here. Refused 19, with `i` as the place.
///
/// ```
/// # use thalluskin::{utf8_step, CharCode, Refusal};
/// assert_eq!(utf8_step("é0", 0)?, Some((CharCode(0xe9), 2)));
/// assert_eq!(utf8_step("é0", 3)?, None);
/// assert_eq!(utf8_step("é0", 1), Err(Refusal { number: Refusal::BAD_TEXT, place: 1 }));
/// # Ok::<(), thalluskin::Refusal>(())
/// ```
pub fn utf8_step(text: impl AsRef<[u8]>, i: u64) -> Result<Option<(CharCode, u64)>, Refusal> {
    let a = calls::utf8_step(text.as_ref(), i);
    answer(a.refusal, a.place, if a.found { Some((a.code, a.next)) } else { None })
}

/// The version of the archive that this crate is for, 0.1.0: 10,000 times its first number, 100 times its second, and
/// its third.
///
/// ```
/// assert_eq!(thalluskin::VERSION, 100);
/// ```
pub const VERSION: u32 = 100;

/// The version of the archive that is linked, which has to be [`VERSION`].
///
/// ```
/// assert_eq!(thalluskin::version(), thalluskin::VERSION);
/// ```
pub fn version() -> u32 {
    calls::version()
}
