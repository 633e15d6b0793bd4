use core::fmt;

/// Why a call has no result: the refusal's number, and where. The place is the directory entry for 5, 6, 7 and 27 in
/// loading, and so in vetting too; else in vetting the property or the code; in a text the byte where the refusing
/// character starts; for 19 the first byte at which no character starts, or 0 where the text is too long; else 0.
///
/// ```
/// # use thalluskin::{Font, Refusal};
/// let short = Font::load(b"pcf").unwrap_err();
/// assert_eq!(short, Refusal { number: Refusal::FILE_SHORT, place: 0 });
/// assert_eq!(short.to_string(), "refused 1 at 0: file under 8 bytes");
/// ```
///
/// It is a `core::error::Error` from Rust 1.81 on, which was the first to have that outside std.
#[derive(Clone, Copy, Debug, PartialEq, Eq)]
pub struct Refusal {
    /// Which one it is, 1 to 19 or 27: one of the constants below. It would be 0 only if an answer pointed outside the
    /// font's bytes or named no reason, which the proofs exclude.
    pub number: u32,
    /// Where.
    pub place: u64,
}

/// The numbers.
impl Refusal {
    /// File under 8 bytes.
    pub const FILE_SHORT: u32 = 1;
    /// First four bytes not 01 66 63 70.
    pub const NOT_PCF: u32 = 2;
    /// Over 64 directory entries.
    pub const MANY_ENTRIES: u32 = 3;
    /// Directory runs past the file.
    pub const BAD_DIRECTORY: u32 = 4;
    /// An entry's offset exceeds the file length (unknown types too).
    pub const BAD_OFFSET: u32 = 5;
    /// A known table's contents run past its bytes; or, in calls, a record with a region outside the bytes given, a
    /// code minimum above its maximum, a code region without room for all its entries, or a row pad other than 1, 2,
    /// 4, 8.
    pub const BAD_TABLE: u32 = 6;
    /// Code table with a minimum above its maximum.
    pub const CODE_BOUNDS: u32 = 7;
    /// A table is missing.
    pub const NO_TABLE: u32 = 8;
    /// No glyph for this code.
    pub const NO_GLYPH: u32 = 9;
    /// Glyph at or above the metrics count.
    pub const NO_METRICS: u32 = 10;
    /// Metrics out of range.
    pub const BAD_METRICS: u32 = 11;
    /// Glyph at or above the bitmap count.
    pub const NO_BITMAP: u32 = 12;
    /// Scan unit code 3, or a scan unit wider than the row pad.
    pub const BIT_ORDER: u32 = 13;
    /// A needed bitmap byte lies beyond the bitmap data.
    pub const BITMAP_SHORT: u32 = 14;
    /// An argument other than the text outside its limits.
    pub const BAD_ARGUMENT: u32 = 15;
    /// A pixel to colour lies beyond the buffer.
    pub const BUFFER_SHORT: u32 = 16;
    /// Glyph at or above the names count, or property number too high.
    pub const NO_NAME: u32 = 17;
    /// String offset beyond the string data, or no zero byte at or after it.
    pub const BAD_STRING: u32 = 18;
    /// Text too long or not UTF-8.
    pub const BAD_TEXT: u32 = 19;
    /// A known table's format differs from its directory entry's.
    pub const TWO_FORMATS: u32 = 27;
}

impl Refusal {
    /// What the number means.
    ///
    /// ```
    /// # use thalluskin::Refusal;
    /// let none = Refusal { number: Refusal::NO_GLYPH, place: 0 };
    /// assert_eq!(none.reason(), "no glyph for this code");
    /// ```
    pub fn reason(&self) -> &'static str {
        match self.number {
            0 => "the library's answer is none that it can give",
            Refusal::FILE_SHORT => "file under 8 bytes",
            Refusal::NOT_PCF => "first four bytes not 01 66 63 70",
            Refusal::MANY_ENTRIES => "over 64 directory entries",
            Refusal::BAD_DIRECTORY => "directory runs past the file",
            Refusal::BAD_OFFSET => "an entry's offset exceeds the file length",
            Refusal::BAD_TABLE => {
                "a known table's contents run past its bytes; in calls, a record that does not fit the font's bytes"
            }
            Refusal::CODE_BOUNDS => "code table with a minimum above its maximum",
            Refusal::NO_TABLE => "a table is missing",
            Refusal::NO_GLYPH => "no glyph for this code",
            Refusal::NO_METRICS => "glyph at or above the metrics count",
            Refusal::BAD_METRICS => "metrics out of range",
            Refusal::NO_BITMAP => "glyph at or above the bitmap count",
            Refusal::BIT_ORDER => "scan unit code 3, or a scan unit wider than the row pad",
            Refusal::BITMAP_SHORT => "a needed bitmap byte lies beyond the bitmap data",
            Refusal::BAD_ARGUMENT => "an argument other than the text outside its limits",
            Refusal::BUFFER_SHORT => "a pixel to colour lies beyond the buffer",
            Refusal::NO_NAME => "glyph at or above the names count, or property number too high",
            Refusal::BAD_STRING => "string offset beyond the string data, or no zero byte at or after it",
            Refusal::BAD_TEXT => "text too long or not UTF-8",
            Refusal::TWO_FORMATS => "a known table's format differs from its directory entry's",
            _ => "an unknown reason",
        }
    }
}

impl fmt::Display for Refusal {
    fn fmt(&self, f: &mut fmt::Formatter<'_>) -> fmt::Result {
        write!(f, "refused {} at {}: {}", self.number, self.place, self.reason())
    }
}

#[cfg(thalluskin_core_error)]
impl core::error::Error for Refusal {}
