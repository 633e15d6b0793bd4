//! The two sides, asked the same: 000, whose panics are caught, and the port.
use crate::asked::{Call, Function::*};
use crate::calls;
use crate::structs::{Bitmap, CharCode, GlyphIndex, GlyphInfo, Metrics, PageNumbers, Record, Supplier, PLAIN};
use original::plain::{self, Fields};
use original::LoadedPCF;
use std::panic::{catch_unwind, AssertUnwindSafe};
use std::sync::atomic::{AtomicBool, Ordering};

/// A font's bytes on a multiple of 16, and not one byte more.
pub struct Aligned {
    words: Vec<u128>,
    len: usize,
}

impl Aligned {
    pub fn new(bytes: &[u8]) -> Aligned {
        let words = bytes
            .chunks(16)
            .map(|part| {
                let mut word = [0; 16];
                word[..part.len()].copy_from_slice(part);
                u128::from_ne_bytes(word)
            })
            .collect();
        Aligned { words, len: bytes.len() }
    }

    pub fn bytes(&self) -> &[u8] {
        // SAFETY: the words are at least as many bytes, and any byte is a u8.
        unsafe { std::slice::from_raw_parts(self.words.as_ptr().cast(), self.len) }
    }
}

/// The port's copy of a font's bytes, on multiples of 4 and elsewhere by turns: for the port it does not matter.
pub struct Askew {
    bytes: Vec<u8>,
    from: usize,
}

impl Askew {
    pub fn new(bytes: &[u8], turn: u64) -> Askew {
        let from = (turn % 4) as usize;
        Askew { bytes: [&[0xB5; 4][..from], bytes].concat(), from }
    }

    pub fn bytes(&self) -> &[u8] {
        &self.bytes[self.from..]
    }
}

#[derive(Clone, Copy, Debug, PartialEq, Eq)]
pub enum Kind {
    Returned,
    /// None, or Err in loading
    Nothing,
    /// it did not return
    Stopped,
}

/// The numbers of an answer; those that it does not have are 0.
pub type Values = [u64; 6];

#[derive(Clone, Debug, PartialEq, Eq)]
pub struct Their {
    pub kind: Kind,
    pub values: Values,
    pub page: Vec<u32>,
}

#[derive(Clone, Debug, PartialEq, Eq)]
pub struct Our {
    pub refusal: u32,
    pub place: usize,
    pub values: Values,
    /// drawn and dropped; in a text 0 and dropped; in unpacking rows and 0
    pub rows: [u64; 2],
    pub page: Vec<u32>,
}

/// 000's file and what it keeps of it.
#[derive(Clone, Copy)]
pub struct Theirs<'a> {
    pub data: &'a [u8],
    pub font: &'a LoadedPCF<'a>,
}

/// what 000 was given of a font
#[derive(Clone, Copy, Debug, PartialEq, Eq)]
pub enum Given {
    Itself,
    /// other bytes, which it should read as the port reads the font's own
    Twin,
    /// a twin whose rows are in the order that 000 draws
    UsualRows,
}

/// A font loaded by both.
pub struct Pair<'a> {
    pub theirs: Theirs<'a>,
    pub fields: Fields,
    pub ours: &'a [u8],
    pub rec: Record,
    pub given: Given,
}

impl Pair<'_> {
    pub fn twin(&self) -> bool {
        self.given != Given::Itself
    }
}

static ASKING: AtomicBool = AtomicBool::new(false);

/// Panics of 000 say nothing; the harness's own do.
pub fn be_quiet() {
    let usual = std::panic::take_hook();
    std::panic::set_hook(Box::new(move |panic| {
        if !ASKING.load(Ordering::Relaxed) {
            usual(panic)
        }
    }));
}

/// what 000 answers, or None where it did not return
pub fn caught<T>(ask: impl FnOnce() -> T) -> Option<T> {
    ASKING.store(true, Ordering::Relaxed);
    let answer = catch_unwind(AssertUnwindSafe(ask));
    ASKING.store(false, Ordering::Relaxed);
    answer.ok()
}

pub const COLOUR: u32 = 0x00C0_104E;

/// what a pixel is before the call: no two are the same
pub fn before(i: usize) -> u32 {
    0x8000_0000 | i as u32
}

fn page_before(len: usize) -> Vec<u32> {
    (0..len).map(before).collect()
}

pub fn untouched(page: &[u32]) -> bool {
    page.iter().enumerate().all(|(i, &pixel)| pixel == before(i))
}

pub fn measures(m: [i16; 5], attributes: u16) -> Values {
    let [left, right, width, ascent, descent] = m.map(|n| n as i64 as u64);
    [left, right, width, ascent, descent, attributes.into()]
}

pub fn of_metrics(m: &Metrics) -> Values {
    measures([m.left, m.right, m.width, m.ascent, m.descent], m.attributes)
}

fn first(values: &[u64]) -> Values {
    let mut all = [0; 6];
    all[..values.len()].copy_from_slice(values);
    all
}

fn placed(info: original::GlyphInfo) -> Values {
    first(&[info.glyph.into(), info.width as u64, info.height as u64, info.pad_top as u64, info.pad_left as u64])
}

fn character(code: u32) -> char {
    char::from_u32(code).expect("a character")
}

pub fn their(theirs: Theirs, call: &Call) -> Their {
    let (font, data, glyph) = (theirs.font, theirs.data, call.number as u16);
    let info = original::GlyphInfo {
        glyph,
        width: call.width,
        height: call.height,
        pad_top: call.pad_top,
        pad_left: call.pad_left,
    };
    let (start, stride, scale) = (call.start, call.stride, call.scale);
    let mut page = page_before(if call.function.draws() { call.len } else { 0 });
    let mut bits = vec![false; if call.function == UnpackGlyph { call.len } else { 0 }];
    let answer = caught(|| match call.function {
        Load | Vet => panic!("these are compared apart"),
        Property => {
            let (name, value) = plain::property(font, data, call.number as usize);
            let [at, len] = [name.start as u64, name.len as u64];
            Some(match value {
                plain::Value::Number(number) => [at, len, 0, number.into(), 0, 0],
                plain::Value::String(span) => [at, len, 1, 0, span.start as u64, span.len as u64],
            })
        }
        Glyph => plain::glyph(font, character(call.number)).map(|glyph| first(&[glyph.into()])),
        Name => plain::name(font, data, glyph).map(|span| first(&[span.start as u64, span.len as u64])),
        Metrics => plain::metrics(font, glyph).map(|m| {
            let five = [
                m.left_sided_bearing,
                m.right_side_bearing,
                m.character_width,
                m.character_ascent,
                m.character_descent,
            ];
            measures(five, m.character_attributes)
        }),
        Dimensions => {
            let (height, width) = font.dimensions();
            Some(first(&[height as u64, width as u64]))
        }
        PrepChar => font.prep_char(character(call.number)).map(placed),
        DrawBitmap => plain::draw_bitmap(font, glyph, call.width, call.height, &mut page, start, stride, scale, COLOUR)
            .map(|()| [0; 6]),
        DrawGlyph => {
            font.draw_glyph(info, &mut page, start, stride, scale, COLOUR);
            Some([0; 6])
        }
        DrawChar => font.draw_char(character(call.number), &mut page, start, stride, scale, COLOUR).map(placed),
        UnpackGlyph => {
            font.unpack_glyph(info, &mut bits, start, stride);
            Some([0; 6])
        }
        DrawString => {
            let text = std::str::from_utf8(&call.text).expect("a text of characters");
            let wrap = call.wrap.map(|at| at as usize);
            let height = font.draw_string(text, &mut page, start, wrap, stride, scale, COLOUR);
            Some(first(&[height as u64]))
        }
    });
    for i in (0..bits.len()).filter(|&i| bits[i]) {
        page[i] = 1;
    }
    match answer {
        None => Their { kind: Kind::Stopped, values: [0; 6], page },
        Some(None) => Their { kind: Kind::Nothing, values: [0; 6], page },
        Some(Some(values)) => Their { kind: Kind::Returned, values, page },
    }
}

fn of_info(info: &GlyphInfo) -> Values {
    first(&[info.glyph.0.into(), info.width.into(), info.height.into(), info.pad_top.into(), info.pad_left.into()])
}

/// what a byte is before unpacking: never 0 or 1
fn byte_before(i: usize) -> u8 {
    (i % 251) as u8 + 2
}

/// the numbers of a drawing as the port takes them; without a wrap it is the greatest number
pub fn numbers(call: &Call) -> PageNumbers {
    let [start, stride, scale] = [call.start, call.stride, call.scale].map(|n| n as u64);
    PageNumbers { start, stride, scale, wrap: call.wrap.unwrap_or(u64::MAX), colour: COLOUR, mode: PLAIN }
}

/// 000 knows no default code: in plain mode each code that has a glyph supplies it itself, and on a refusal all is 0
fn supplied(refusal: u32, by: Supplier, code: CharCode) {
    let itself = if refusal == 0 { code.0 } else { 0 };
    assert!(by.code.0 == itself && !by.is_default, "code {} has the glyph of code {}", code.0, by.code.0);
}

pub fn our(bytes: &[u8], rec: Record, call: &Call) -> Our {
    let (code, glyph) = (CharCode(call.number), GlyphIndex(call.number as u16));
    let info = GlyphInfo {
        glyph,
        width: call.width as u16,
        height: call.height as u16,
        pad_top: call.pad_top as u16,
        pad_left: call.pad_left as u16,
    };
    let mut page = page_before(if call.function.draws() { call.len } else { 0 });
    let (refusal, place, values, rows) = match call.function {
        Load | Vet => panic!("these are compared apart"),
        Property => {
            let a = calls::property(bytes, rec, call.number);
            let (name, string) = (a.name, a.string);
            let values = [name.start, name.len, a.is_string.into(), a.number.into(), string.start, string.len];
            (a.refusal, a.place, values, [0, 0])
        }
        Glyph => {
            let a = calls::glyph(bytes, rec, code, PLAIN);
            supplied(a.refusal, a.by, code);
            (a.refusal, a.place, first(&[a.glyph.0.into()]), [0, 0])
        }
        Name => {
            let a = calls::name(bytes, rec, glyph);
            (a.refusal, a.place, first(&[a.name.start, a.name.len]), [0, 0])
        }
        Metrics => {
            let a = calls::metrics(bytes, rec, glyph);
            (a.refusal, a.place, of_metrics(&a.metrics), [0, 0])
        }
        Dimensions => {
            let a = calls::dimensions(bytes, rec);
            (a.refusal, a.place, first(&[a.extent.height, a.extent.width]), [0, 0])
        }
        PrepChar => {
            let a = calls::prep_char(bytes, rec, code, PLAIN);
            supplied(a.refusal, a.by, code);
            (a.refusal, a.place, of_info(&a.info), [0, 0])
        }
        DrawBitmap => {
            let bitmap = Bitmap { glyph, width: call.width as u64, height: call.height as u64 };
            let a = calls::draw_bitmap(bytes, rec, bitmap, &mut page, numbers(call));
            (a.refusal, a.place, [0; 6], [a.rows.drawn.into(), a.rows.dropped.into()])
        }
        DrawGlyph => {
            let a = calls::draw_glyph(bytes, rec, info, &mut page, numbers(call));
            (a.refusal, a.place, [0; 6], [a.rows.drawn.into(), a.rows.dropped.into()])
        }
        DrawChar => {
            let a = calls::draw_char(bytes, rec, code, &mut page, numbers(call));
            supplied(a.refusal, a.by, code);
            (a.refusal, a.place, of_info(&a.info), [a.rows.drawn.into(), a.rows.dropped.into()])
        }
        UnpackGlyph => {
            let mut stored: Vec<u8> = (0..call.len).map(byte_before).collect();
            let a = calls::unpack_glyph(bytes, rec, info, &mut stored, numbers(call));
            for i in (0..call.len).filter(|&i| stored[i] != byte_before(i)) {
                page[i] = stored[i].into();
            }
            (a.refusal, a.place, [0; 6], [a.rows.into(), 0])
        }
        DrawString => {
            let a = calls::draw_string(bytes, rec, &call.text, &mut page, numbers(call));
            (a.refusal, a.place, first(&[a.rows.height]), [0, a.rows.dropped])
        }
    };
    Our { refusal, place: place as usize, values, rows, page }
}
