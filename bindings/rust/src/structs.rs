//! The numbers that go into the library and come out of it, laid out as C does. Places and lengths have 64 bits on
//! every processor.

// The numbers of modes: none, and a bit for each field. A call with any other bit is refused (15).
pub(crate) const PLAIN: u32 = 0;
pub(crate) const DEFAULT: u32 = 1;

/// A character's code. A `char` becomes one wherever a code is asked for.
#[repr(C)]
#[cfg_attr(test, derive(Default))]
#[derive(Clone, Copy, Debug, PartialEq, Eq, PartialOrd, Ord, Hash)]
pub struct CharCode(pub u32);

impl From<char> for CharCode {
    fn from(c: char) -> CharCode {
        CharCode(c.into())
    }
}

/// The number of a glyph in its font. A code is never taken for one.
#[repr(C)]
#[cfg_attr(test, derive(Default))]
#[derive(Clone, Copy, Debug, PartialEq, Eq, PartialOrd, Ord, Hash)]
pub struct GlyphIndex(pub u16);

/// A glyph's metrics, or the bounds of all glyphs, in pixels.
#[repr(C)]
#[cfg_attr(test, derive(Default))]
#[derive(Clone, Copy, Debug, PartialEq, Eq)]
pub struct Metrics {
    /// The left bearing: where the bitmap begins, counted from the pen.
    pub left: i16,
    /// The right bearing, which drawing does not use.
    pub right: i16,
    /// The character's width, which is the bitmap's and the pen's advance.
    pub width: i16,
    /// Rows above the baseline.
    pub ascent: i16,
    /// Rows below the baseline.
    pub descent: i16,
    /// The attributes, which drawing does not use; 0 in compressed metrics.
    pub attributes: u16,
}

/// Of the property table.
#[repr(C)]
#[cfg_attr(test, derive(Default))]
#[derive(Clone, Copy, Debug, PartialEq, Eq)]
pub struct PropertiesData {
    /// Whether numbers have the most significant byte first.
    pub big: bool,
    /// How many properties there are.
    pub count: u32,
    /// Where their records of 9 bytes begin.
    pub records: u64,
    /// Where the string data begin.
    pub strings: u64,
    /// How many bytes of string data there are.
    pub size: u64,
}

/// The accelerator table as its file has it. Of this drawing looks at `maxbounds` alone.
#[repr(C)]
#[cfg_attr(test, derive(Default))]
#[derive(Clone, Copy, Debug, PartialEq, Eq)]
pub struct Accelerators {
    /// The table's format word.
    pub format: u32,
    /// Not 0 in a font of which no glyph reaches over the next one.
    pub no_overlap: u8,
    /// Not 0 in a font of which all glyphs have the same metrics.
    pub constant_metrics: u8,
    /// Not 0 in a font of which every glyph fills a cell of one size.
    pub terminal_font: u8,
    /// Not 0 in a font of which all glyphs are equally wide.
    pub constant_width: u8,
    /// Not 0 in a font of which no ink lies outside a glyph's width and the font's ascent and descent.
    pub ink_inside: u8,
    /// Not 0 in a font that has ink metrics of its own, which are not read.
    pub ink_metrics: u8,
    /// 0 for left to right, 1 for right to left. Texts are drawn left to right either way.
    pub draw_direction: u8,
    /// A byte without a meaning.
    pub padding: u8,
    /// The font's own rows above the baseline, as its file states them. Lines of text go by `maxbounds` instead.
    pub font_ascent: i32,
    /// The font's own rows below the baseline, as its file states them. Lines of text go by `maxbounds` instead.
    pub font_descent: i32,
    /// By how much a glyph reaches past its width at most.
    pub max_overlap: i32,
    /// The minimum bounds: of each metric the least of all glyphs.
    pub minbounds: Metrics,
    /// The maximum bounds: of each metric the greatest of all glyphs. Placing and texts go by what the file states
    /// here, whatever its glyphs are: a line's baseline lies `maxbounds.ascent` rows below its top, before scale.
    pub maxbounds: Metrics,
}

/// Of the metrics table.
#[repr(C)]
#[cfg_attr(test, derive(Default))]
#[derive(Clone, Copy, Debug, PartialEq, Eq)]
pub struct MetricsData {
    /// Whether numbers have the most significant byte first.
    pub big: bool,
    /// Whether a record has 5 bytes, and not 12.
    pub compressed: bool,
    /// How many glyphs have metrics.
    pub count: u32,
    /// Where the records begin.
    pub records: u64,
}

/// Of the bitmap table.
#[repr(C)]
#[cfg_attr(test, derive(Default))]
#[derive(Clone, Copy, Debug, PartialEq, Eq)]
pub struct BitmapData {
    /// Whether numbers have the most significant byte first.
    pub big: bool,
    /// How many glyphs have a bitmap.
    pub count: u32,
    /// Where their offsets into the bitmap data begin.
    pub offsets: u64,
    /// Where the bitmap data begin.
    pub bits: u64,
    /// How many bytes of bitmap data there are.
    pub size: u64,
    /// A row is padded to a multiple of this many bytes: 1, 2, 4 or 8.
    pub pad: u8,
    /// The format's scan unit code: 0, 1, 2 for units of 1, 2, 4 bytes; any other code, and a unit wider than `pad`,
    /// is refused (13) in drawing.
    pub unit: u8,
    /// Whether a scan unit's top bit is its leftmost; if not, its lowest is.
    pub top: bool,
}

/// Of the code table. A code's first byte is its upper one.
#[repr(C)]
#[cfg_attr(test, derive(Default))]
#[derive(Clone, Copy, Debug, PartialEq, Eq)]
pub struct EncodingData {
    /// Whether numbers have the most significant byte first.
    pub big: bool,
    /// The least second byte; where both bounds of the first are 0, the least code.
    pub low2: u16,
    /// The greatest second byte; where both bounds of the first are 0, the greatest code.
    pub high2: u16,
    /// The least first byte.
    pub low1: u16,
    /// The greatest first byte.
    pub high1: u16,
    /// The default code, whose glyph a code without one has in the mode that [`Mode`](crate::Mode) calls `default`.
    pub default_code: u16,
    /// Where the entries begin, a glyph's number of 2 bytes for each code.
    pub entries: u64,
    /// How many bytes of entries there are.
    pub size: u64,
}

/// Of the name table.
#[repr(C)]
#[cfg_attr(test, derive(Default))]
#[derive(Clone, Copy, Debug, PartialEq, Eq)]
pub struct GlyphNameData {
    /// Whether numbers have the most significant byte first.
    pub big: bool,
    /// How many glyphs have a name.
    pub count: u32,
    /// Where their offsets into the string data begin.
    pub offsets: u64,
    /// Where the string data begin.
    pub strings: u64,
    /// How many bytes of string data there are.
    pub size: u64,
}

/// What loading keeps of a font's six tables. Places count from the start of the font's bytes. Programs have no need to
/// look inside.
#[repr(C)]
#[cfg_attr(test, derive(Default))]
#[derive(Clone, Copy, Debug, PartialEq, Eq)]
pub struct Record {
    /// The properties.
    pub props: PropertiesData,
    /// The accelerators.
    pub accel: Accelerators,
    /// The metrics.
    pub metrics: MetricsData,
    /// The bitmaps.
    pub bitmaps: BitmapData,
    /// The codes.
    pub codes: EncodingData,
    /// The glyphs' names.
    pub names: GlyphNameData,
}

/// The height and width of the font's maximum bounds, in pixels, as its file states them. A glyph may be wider or reach
/// lower.
#[repr(C)]
#[cfg_attr(test, derive(Default))]
#[derive(Clone, Copy, Debug, PartialEq, Eq)]
pub struct Extent {
    /// Ascent and descent together.
    pub height: u64,
    /// The width.
    pub width: u64,
}

/// A placed glyph, in the font's own pixels, before `scale`.
#[repr(C)]
#[cfg_attr(test, derive(Default))]
#[derive(Clone, Copy, Debug, PartialEq, Eq)]
pub struct GlyphInfo {
    /// The glyph's number.
    pub glyph: GlyphIndex,
    /// How wide its bitmap is.
    pub width: u16,
    /// How high its bitmap is.
    pub height: u16,
    /// How far its bitmap stands below the line's top.
    pub pad_top: u16,
    /// How far its bitmap stands right of the pen.
    pub pad_left: u16,
}

/// The code that has a glyph: the one asked for, or, where `is_default`, the font's default code in its place.
#[repr(C)]
#[cfg_attr(test, derive(Default))]
#[derive(Clone, Copy, Debug, PartialEq, Eq)]
pub struct Supplier {
    /// The code whose own glyph it is.
    pub code: CharCode,
    /// Whether it stands in for the code asked for. A code with a glyph of its own is never default, even if it is the
    /// font's default code.
    pub is_default: bool,
}

/// A glyph's bitmap, and how much of it: `width` by `height`, each at most [`MAX_BOX`](crate::MAX_BOX).
///
/// ```
/// # use thalluskin::{Bitmap, Font, GlyphIndex, Page};
/// # let file = include_bytes!("../../../examples/f.pcf");
/// let mut pixels = [0; 9];
/// let top = Bitmap { glyph: GlyphIndex(0), width: 3, height: 1 };
/// Font::load(file)?.draw_bitmap(top, &mut Page::new(&mut pixels, 3))?;
/// assert_eq!(pixels, [1, 1, 1, 0, 0, 0, 0, 0, 0]);
/// # Ok::<(), thalluskin::Refusal>(())
/// ```
#[repr(C)]
#[cfg_attr(test, derive(Default))]
#[derive(Clone, Copy, Debug, PartialEq, Eq)]
pub struct Bitmap {
    /// The glyph's number.
    pub glyph: GlyphIndex,
    /// How many columns, from the left.
    pub width: u64,
    /// How many rows, from the top.
    pub height: u64,
}

/// How many rows of a glyph's bitmap were drawn, and how many were dropped because the buffer ends.
#[repr(C)]
#[cfg_attr(test, derive(Default))]
#[derive(Clone, Copy, Debug, PartialEq, Eq)]
pub struct Rows {
    /// Rows drawn.
    pub drawn: u16,
    /// Rows dropped.
    pub dropped: u16,
}

/// The height that a text takes, and how many rows of its glyphs were dropped because the buffer ends.
#[repr(C)]
#[cfg_attr(test, derive(Default))]
#[derive(Clone, Copy, Debug, PartialEq, Eq)]
pub struct TextRows {
    /// The height in pixels, of all lines.
    pub height: u64,
    /// Rows dropped, of all glyphs together.
    pub dropped: u64,
}

// The numbers of a drawing; `wrap` with every bit set is none. Unpacking looks at `start`, `stride` and `mode` alone.
#[repr(C)]
#[cfg_attr(test, derive(Default))]
#[derive(Clone, Copy)]
pub(crate) struct PageNumbers {
    pub start: u64,
    pub stride: u64,
    pub scale: u64,
    pub wrap: u64,
    pub colour: u32,
    pub mode: u32,
}

// A part of the font's bytes.
#[repr(C)]
#[cfg_attr(test, derive(Default))]
#[derive(Clone, Copy)]
pub(crate) struct Span {
    pub start: u64,
    pub len: u64,
}

// A reason's number, and how many rows were cut.
#[repr(C)]
#[cfg_attr(test, derive(Default))]
#[derive(Clone, Copy)]
pub(crate) struct ReasonNumber {
    pub number: u32,
    pub cut: u16,
}

// The answers: a refusal's number or 0, its place, and the values.

#[repr(C)]
#[cfg_attr(test, derive(Default))]
pub(crate) struct FontAnswer {
    pub refusal: u32,
    pub place: u64,
    pub rec: Record,
}

#[repr(C)]
#[cfg_attr(test, derive(Default))]
pub(crate) struct PropertyAnswer {
    pub refusal: u32,
    pub place: u64,
    pub name: Span,
    pub is_string: bool,
    pub number: u32,
    pub string: Span,
}

#[repr(C)]
#[cfg_attr(test, derive(Default))]
pub(crate) struct GlyphAnswer {
    pub refusal: u32,
    pub place: u64,
    pub glyph: GlyphIndex,
    pub by: Supplier,
}

#[repr(C)]
#[cfg_attr(test, derive(Default))]
pub(crate) struct NameAnswer {
    pub refusal: u32,
    pub place: u64,
    pub name: Span,
}

#[repr(C)]
#[cfg_attr(test, derive(Default))]
pub(crate) struct MetricsAnswer {
    pub refusal: u32,
    pub place: u64,
    pub metrics: Metrics,
}

#[repr(C)]
#[cfg_attr(test, derive(Default))]
pub(crate) struct AccelAnswer {
    pub refusal: u32,
    pub place: u64,
    pub accel: Accelerators,
}

#[repr(C)]
#[cfg_attr(test, derive(Default))]
pub(crate) struct ExtentAnswer {
    pub refusal: u32,
    pub place: u64,
    pub extent: Extent,
}

#[repr(C)]
#[cfg_attr(test, derive(Default))]
pub(crate) struct InfoAnswer {
    pub refusal: u32,
    pub place: u64,
    pub info: GlyphInfo,
    pub by: Supplier,
}

#[repr(C)]
#[cfg_attr(test, derive(Default))]
pub(crate) struct RowsAnswer {
    pub refusal: u32,
    pub place: u64,
    pub rows: Rows,
}

#[repr(C)]
#[cfg_attr(test, derive(Default))]
pub(crate) struct CharAnswer {
    pub refusal: u32,
    pub place: u64,
    pub info: GlyphInfo,
    pub rows: Rows,
    pub by: Supplier,
}

#[repr(C)]
#[cfg_attr(test, derive(Default))]
pub(crate) struct WhyAnswer {
    pub refusal: u32,
    pub place: u64,
    pub reason: ReasonNumber,
    pub by: Supplier,
}

#[repr(C)]
#[cfg_attr(test, derive(Default))]
pub(crate) struct UnpackAnswer {
    pub refusal: u32,
    pub place: u64,
    pub rows: u16,
}

#[repr(C)]
#[cfg_attr(test, derive(Default))]
pub(crate) struct TextAnswer {
    pub refusal: u32,
    pub place: u64,
    pub rows: TextRows,
}

#[repr(C)]
#[cfg_attr(test, derive(Default))]
pub(crate) struct StepAnswer {
    pub refusal: u32,
    pub place: u64,
    pub found: bool,
    pub code: CharCode,
    pub next: u64,
}

// The archive's layout, which repr(C) gives where a u64 stands at a multiple of 8. x86 of 32 bits, AVR and MSP430 have
// another, and there an answer would be written past its end.
const _: () = assert!(
    core::mem::align_of::<u64>() == 8 && core::mem::size_of::<Record>() == 200,
    "thalluskin: another layout than the archive's"
);
