use crate::structs::{DEFAULT, PLAIN};

/// How a call looks codes up. It is taken by itself, or among the numbers of a [`Drawing`](crate::Drawing).
///
/// ```
/// # use thalluskin::{Font, GlyphIndex, Mode, Refusal, Supplier};
/// # let file = include_bytes!("../../../examples/f.pcf");
/// let font = Font::vet(file, Mode::PLAIN)?; // it has glyphs of 0 and 1, and 0 is its default code
/// assert_eq!(font.glyph('é', Mode::PLAIN).unwrap_err().number, Refusal::NO_GLYPH);
/// let mode = Mode { default: true, ..Mode::PLAIN };
/// assert_eq!(font.glyph('é', mode)?, (GlyphIndex(0), Supplier { code: '0'.into(), is_default: true }));
/// # Ok::<(), thalluskin::Refusal>(())
/// ```
///
/// Other fields are to come. What is written with `..Mode::PLAIN` stays as it is then.
#[derive(Clone, Copy, Debug, Default, PartialEq, Eq, Hash)]
pub struct Mode {
    /// Whether a code without a glyph, one above 65,535 too, has that of the font's default code, if that code has one
    /// of its own. In texts a carriage return and a newline are no such codes: they are never looked up.
    pub default: bool,
}

impl Mode {
    /// No field is set: each code is looked up as it is, one without a glyph is refused 9, and texts skip it. It is what
    /// Rust's own default is, too.
    ///
    /// ```
    /// # use thalluskin::Mode;
    /// assert_eq!(Mode::default(), Mode::PLAIN);
    /// assert!(!Mode::PLAIN.default);
    /// ```
    pub const PLAIN: Mode = Mode { default: false };
}

/// The number that the archive has for it: a bit for each field that is set.
///
/// ```
/// # use thalluskin::Mode;
/// assert_eq!(u32::from(Mode::PLAIN), 0);
/// assert_eq!(u32::from(Mode { default: true, ..Mode::PLAIN }), 1);
/// ```
impl From<Mode> for u32 {
    fn from(mode: Mode) -> u32 {
        let Mode { default } = mode;
        PLAIN | if default { DEFAULT } else { 0 }
    }
}
