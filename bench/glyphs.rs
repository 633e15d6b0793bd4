//! Calls with a placed glyph, made for each printable ASCII character.
use crate::calls;
use crate::cases::{numbers, on_cleared, Case, Drawing, Font, Side, COLOUR, NO_WRAP};
use crate::structs::{CharCode, GlyphInfo, PageNumbers, Rows, RowsAnswer, UnpackAnswer, PLAIN};
use std::hint::black_box;

/// The characters as the port and 000 place them. The loops in C take the port's.
struct Placed {
    port: Vec<GlyphInfo>,
    original: Vec<original::GlyphInfo>,
}

impl Placed {
    fn of(font: &'static Font) -> Placed {
        let mut placed = Placed { port: Vec::new(), original: Vec::new() };
        for c in ' '..='~' {
            let one = calls::prep_char(font.bytes, font.rec, CharCode::from(c), PLAIN);
            let other = font.original.prep_char(c).expect("000 has no such glyph");
            assert_eq!(one.refusal, 0, "the port has no such glyph");
            assert_eq!(
                (one.info.glyph.0, one.info.width as usize, one.info.height as usize),
                (other.glyph, other.width, other.height)
            );
            placed.port.push(one.info);
            placed.original.push(other);
        }
        placed
    }
}

/// A call of each side with one glyph and a lent buffer.
pub(crate) trait GlyphCall {
    /// What a buffer consists of.
    type Cell: Clone + Default + PartialEq;
    type Answer;
    /// What the port and the loops in C answer where nothing is refused.
    type Rows: PartialEq;

    fn port(&self, info: GlyphInfo, buffer: &mut [Self::Cell]) -> Self::Answer;
    fn original(&self, info: original::GlyphInfo, buffer: &mut [Self::Cell]);
    fn plain(&self, info: GlyphInfo, buffer: &mut [Self::Cell]) -> Self::Rows;
    /// None where the port refuses or drops rows.
    fn rows(answer: Self::Answer) -> Option<Self::Rows>;
}

/// The call with one character after the other. All sides have the one buffer, never cleared while time is taken.
pub struct EachGlyph<C: GlyphCall> {
    call: C,
    placed: Placed,
    buffer: Vec<C::Cell>,
}

impl<C: GlyphCall> EachGlyph<C> {
    fn with(call: C, font: &'static Font, length: usize) -> EachGlyph<C> {
        EachGlyph { call, placed: Placed::of(font), buffer: vec![C::Cell::default(); length] }
    }
}

impl<C: GlyphCall> Case for EachGlyph<C> {
    fn sides(&self) -> &'static [Side] {
        &[Side::Port, Side::Original, Side::Plain]
    }

    fn port(&mut self) {
        for &info in &self.placed.port {
            black_box(self.call.port(info, &mut self.buffer));
        }
    }

    fn beside(&mut self) {
        for &info in &self.placed.original {
            self.call.original(info, &mut self.buffer);
        }
    }

    fn plain(&mut self) {
        for &info in &self.placed.port {
            black_box(self.call.plain(info, &mut self.buffer));
        }
    }

    fn same(&mut self) -> bool {
        let Some(drawn) = self.drawn() else { return false };
        let (length, placed) = (self.buffer.len(), self.placed.port.iter().zip(&self.placed.original));
        drawn.iter().zip(placed).all(|(port, (&info, &original_info))| {
            let ((), original) = on_cleared(length, |buffer| self.call.original(original_info, buffer));
            let plain = on_cleared(length, |buffer| self.call.plain(info, buffer));
            port.1 == original && *port == plain
        })
    }

    fn per(&self) -> usize {
        self.placed.port.len()
    }
}

impl<C: GlyphCall> Drawing for EachGlyph<C> {
    /// Of each character.
    type Drawn = Vec<(C::Rows, Vec<C::Cell>)>;
    type Cell = C::Cell;

    fn buffer(&mut self) -> &mut Vec<C::Cell> {
        &mut self.buffer
    }

    fn drawn(&self) -> Option<Self::Drawn> {
        let by_port = |&info| {
            let (answer, buffer) = on_cleared(self.buffer.len(), |buffer| self.call.port(info, buffer));
            C::rows(answer).map(|rows| (rows, buffer))
        };
        self.placed.port.iter().map(by_port).collect()
    }
}

// ---- drawing

pub struct Draw {
    font: &'static Font,
    stride: usize,
    scale: usize,
    /// These for the port, made once, so that no call is charged with it.
    numbers: PageNumbers,
}

/// Each character at the start of a page of one letter.
pub type Glyphs = EachGlyph<Draw>;

impl Glyphs {
    pub fn of(font: &'static Font, scale: usize) -> Glyphs {
        let (height, width) = font.extent();
        let stride = width * scale;
        let numbers = numbers(stride, scale, NO_WRAP);
        EachGlyph::with(Draw { font, stride, scale, numbers }, font, stride * scale * (height + 1))
    }
}

impl GlyphCall for Draw {
    type Cell = u32;
    type Answer = RowsAnswer;
    type Rows = Rows;

    fn port(&self, info: GlyphInfo, page: &mut [u32]) -> RowsAnswer {
        let Font { bytes, rec, .. } = self.font;
        calls::draw_glyph(bytes, *rec, info, page, self.numbers)
    }

    fn original(&self, info: original::GlyphInfo, page: &mut [u32]) {
        self.font.original.draw_glyph(info, page, 0, self.stride, self.scale, COLOUR);
    }

    fn plain(&self, info: GlyphInfo, page: &mut [u32]) -> Rows {
        // SAFETY: the port has drawn the same on a page as long.
        unsafe { self.font.plain.draw_glyph(info, page, 0, self.stride, self.scale, COLOUR) }
    }

    fn rows(answer: RowsAnswer) -> Option<Rows> {
        (answer.refusal == 0 && answer.rows.dropped == 0).then_some(answer.rows)
    }
}

// ---- unpacking

pub struct Unpack {
    font: &'static Font,
    stride: usize,
    /// For the port, made once.
    numbers: PageNumbers,
}

/// Each character unpacked to bytes, which in 000 are `bool`s.
pub type Unpacked = EachGlyph<Unpack>;

impl Unpacked {
    pub fn of(font: &'static Font) -> Unpacked {
        let (height, width) = font.extent();
        // whole row bytes are unpacked
        let stride = width.next_multiple_of(8);
        EachGlyph::with(Unpack { font, stride, numbers: numbers(stride, 1, NO_WRAP) }, font, stride * height)
    }
}

impl GlyphCall for Unpack {
    type Cell = u8;
    type Answer = UnpackAnswer;
    type Rows = u16;

    fn port(&self, info: GlyphInfo, unpacked: &mut [u8]) -> UnpackAnswer {
        let Font { bytes, rec, .. } = self.font;
        calls::unpack_glyph(bytes, *rec, info, unpacked, self.numbers)
    }

    fn original(&self, info: original::GlyphInfo, unpacked: &mut [u8]) {
        // SAFETY: a `bool` is a byte of 0 or 1, and there are no others: the buffer was cleared, and all sides store 1.
        let bools = unsafe { &mut *(unpacked as *mut [u8] as *mut [bool]) };
        self.font.original.unpack_glyph(info, bools, 0, self.stride);
    }

    fn plain(&self, info: GlyphInfo, unpacked: &mut [u8]) -> u16 {
        // SAFETY: the port has unpacked the same to a buffer as long.
        unsafe { self.font.plain.unpack_glyph(info, unpacked, 0, self.stride) }
    }

    fn rows(answer: UnpackAnswer) -> Option<u16> {
        (answer.refusal == 0).then_some(answer.rows)
    }
}
