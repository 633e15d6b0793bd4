//! The loops of bench/plain.c, document 01's rule in C, which test nothing.
//!
//! All that the port tests is therefore asked of the caller: a record of those bytes, a glyph of the font, a text in
//! UTF-8, arguments within their limits, a buffer with a place for each pixel. It holds where the port, with the same
//! arguments, has not refused. Rows have to be in the usual order besides.
use crate::structs::{GlyphInfo, Record, Rows, TextRows};

/// A font's tables where they stand in its file.
#[repr(C)]
pub struct Font {
    offsets: *const u8,
    bits: *const u8,
    metrics: *const u8,
    entries: *const u8,
    pad: usize,
    low2: u16,
    high2: u16,
    low1: u16,
    high1: u16,
    ascent: i16,
    descent: i16,
    bitmaps_big: bool,
    metrics_big: bool,
    compressed: bool,
    codes_big: bool,
}

extern "C" {
    fn plain_draw_glyph(
        font: *const Font,
        info: GlyphInfo,
        pixels: *mut u32,
        length: usize,
        start: usize,
        stride: usize,
        scale: usize,
        colour: u32,
    ) -> Rows;
    fn plain_unpack_glyph(font: *const Font, info: GlyphInfo, bytes: *mut u8, start: usize, stride: usize) -> u16;
    fn plain_draw_string(
        font: *const Font,
        text: *const u8,
        text_length: usize,
        pixels: *mut u32,
        length: usize,
        start: usize,
        wrap: u64,
        stride: usize,
        scale: usize,
        colour: u32,
    ) -> TextRows;
}

impl Font {
    pub fn of(bytes: &'static [u8], rec: &Record) -> Font {
        let Record { accel, metrics, bitmaps, codes, .. } = rec;
        let at = |place: u64| bytes[place as usize..].as_ptr();
        Font {
            offsets: at(bitmaps.offsets),
            bits: at(bitmaps.bits),
            metrics: at(metrics.records),
            entries: at(codes.entries),
            pad: bitmaps.pad.into(),
            low2: codes.low2,
            high2: codes.high2,
            low1: codes.low1,
            high1: codes.high1,
            ascent: accel.maxbounds.ascent,
            descent: accel.maxbounds.descent,
            bitmaps_big: bitmaps.big,
            metrics_big: metrics.big,
            compressed: metrics.compressed,
            codes_big: codes.big,
        }
    }

    pub unsafe fn draw_glyph(
        &self,
        info: GlyphInfo,
        buf: &mut [u32],
        start: usize,
        stride: usize,
        scale: usize,
        colour: u32,
    ) -> Rows {
        plain_draw_glyph(self, info, buf.as_mut_ptr(), buf.len(), start, stride, scale, colour)
    }

    pub unsafe fn unpack_glyph(&self, info: GlyphInfo, buf: &mut [u8], start: usize, stride: usize) -> u16 {
        plain_unpack_glyph(self, info, buf.as_mut_ptr(), start, stride)
    }

    pub unsafe fn draw_string(
        &self,
        text: &[u8],
        buf: &mut [u32],
        start: usize,
        wrap: u64,
        stride: usize,
        scale: usize,
        colour: u32,
    ) -> TextRows {
        let (letters, pixels) = (text.as_ptr(), buf.as_mut_ptr());
        plain_draw_string(self, letters, text.len(), pixels, buf.len(), start, wrap, stride, scale, colour)
    }
}
