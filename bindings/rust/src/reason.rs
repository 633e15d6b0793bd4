use crate::structs::ReasonNumber;
use core::fmt;

/// Why a character is on the page or not: what [`Font::why`](crate::Font::why) names, in the order in which it looks.
///
/// ```
/// # use thalluskin::{Drawing, Font, Mode, Reason};
/// # let file = include_bytes!("../../../examples/f.pcf");
/// let (cut, _) = Font::vet(file, Mode::PLAIN)?.why('0', 8, Drawing::new(3))?;
/// assert_eq!(cut, Reason::RowsCut(1));
/// assert_eq!(cut.to_string(), "rows cut at the buffer's end: 1");
/// # Ok::<(), thalluskin::Refusal>(())
/// ```
///
/// Further modes are to come, and with them further reasons.
#[derive(Clone, Copy, Debug, PartialEq, Eq)]
#[non_exhaustive]
pub enum Reason {
    /// The code is above 65,535, and no font has a glyph for it.
    AboveCodes,
    /// Its first byte is outside the bounds that the code table has for first bytes, not both 0.
    FirstByte,
    /// Its second byte is outside the bounds for second bytes; or, where those for first bytes are both 0, the whole
    /// code is.
    SecondByte,
    /// The code table's entry for it is 65,535, which says that it has no glyph.
    EmptyEntry,
    /// 10: its glyph's number is at or above the metrics count.
    NoMetrics,
    /// 11: the glyph's metrics are out of range, as [`Font::prep_char`](crate::Font::prep_char) refuses them.
    BadMetrics,
    /// 12: its number is at or above the bitmap count. [`Font::draw_char`](crate::Font::draw_char) draws nothing then
    /// and is not refused.
    NoBitmap,
    /// 13: the font's rows are in no order that can be read.
    BitOrder,
    /// 14: a byte that holds columns of a row to draw lies beyond the bitmap data.
    BitmapShort,
    /// 16: a set bit of a row to draw has a pixel beyond the page.
    BufferShort,
    /// The page's end cuts so many rows; those above them, if there are any, are drawn.
    RowsCut(u16),
    /// All rows are drawn, and none has a set bit, as those of a space.
    Blank,
    /// All rows are drawn, and there is a set bit.
    Drawn,
}

impl Reason {
    // The reason with this number; the library answers no other.
    pub(crate) fn of(told: ReasonNumber) -> Option<Reason> {
        Some(match told.number {
            31 => Reason::AboveCodes,
            32 => Reason::FirstByte,
            33 => Reason::SecondByte,
            34 => Reason::EmptyEntry,
            10 => Reason::NoMetrics,
            11 => Reason::BadMetrics,
            12 => Reason::NoBitmap,
            13 => Reason::BitOrder,
            14 => Reason::BitmapShort,
            16 => Reason::BufferShort,
            35 => Reason::RowsCut(told.cut),
            36 => Reason::Blank,
            37 => Reason::Drawn,
            _ => return None,
        })
    }

    /// What it means.
    ///
    /// ```
    /// # use thalluskin::Reason;
    /// assert_eq!(Reason::EmptyEntry.words(), "the code's entry is empty");
    /// ```
    pub fn words(&self) -> &'static str {
        match self {
            Reason::AboveCodes => "code above 65,535",
            Reason::FirstByte => "the code's first byte is outside its bounds",
            Reason::SecondByte => "the code's second byte, or the whole code, is outside its bounds",
            Reason::EmptyEntry => "the code's entry is empty",
            Reason::NoMetrics => "glyph at or above the metrics count",
            Reason::BadMetrics => "metrics out of range",
            Reason::NoBitmap => "glyph at or above the bitmap count",
            Reason::BitOrder => "scan unit code 3, or a scan unit wider than the row pad",
            Reason::BitmapShort => "a needed bitmap byte lies beyond the bitmap data",
            Reason::BufferShort => "a pixel to colour lies beyond the buffer",
            Reason::RowsCut(_) => "rows cut at the buffer's end",
            Reason::Blank => "drawn, and no bit is set",
            Reason::Drawn => "drawn",
        }
    }
}

impl fmt::Display for Reason {
    fn fmt(&self, f: &mut fmt::Formatter<'_>) -> fmt::Result {
        match self {
            Reason::RowsCut(rows) => write!(f, "{}: {}", self.words(), rows),
            _ => f.write_str(self.words()),
        }
    }
}
