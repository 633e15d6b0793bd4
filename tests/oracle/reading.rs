//! What stands in a font's bytes at the places of a record, read once more and apart from both sides: the predicates
//! have to know it.
use crate::orders;
use crate::sides::Values;
use crate::structs::{Metrics, Record};

pub fn u16_at(b: &[u8], i: usize, big: bool) -> u16 {
    let two = [b[i], b[i + 1]];
    if big {
        u16::from_be_bytes(two)
    } else {
        u16::from_le_bytes(two)
    }
}

pub fn u32_at(b: &[u8], i: usize, big: bool) -> u32 {
    let four = [b[i], b[i + 1], b[i + 2], b[i + 3]];
    if big {
        u32::from_be_bytes(four)
    } else {
        u32::from_le_bytes(four)
    }
}

/// the bytes from one place of a record up to another
pub fn part(b: &[u8], from: u64, to: u64) -> &[u8] {
    &b[from as usize..to as usize]
}

// ---- the directory

/// type, format, size and offset
pub fn directory_entry(b: &[u8], e: usize) -> [u32; 4] {
    [0, 4, 8, 12].map(|k| u32_at(b, 8 + 16 * e + k, false))
}

/// a type of table that is read
pub fn is_known(kind: u32) -> bool {
    matches!(kind, 1 | 2 | 4 | 8 | 32 | 128 | 256)
}

// ---- codes

pub fn is_char_mode(rec: &Record) -> bool {
    rec.codes.low1 == 0 && rec.codes.high1 == 0
}

pub fn entries(rec: &Record) -> u64 {
    let codes = &rec.codes;
    (u64::from(codes.high2 - codes.low2) + 1) * (u64::from(codes.high1 - codes.low1) + 1)
}

#[derive(Clone, Copy, Debug, PartialEq, Eq)]
pub enum Slot {
    /// below the first code of a table of one-byte codes
    Below,
    Outside,
    At(u64),
}

/// of a code up to 65,535
pub fn slot(rec: &Record, code: u32) -> Slot {
    let (low1, high1) = (u32::from(rec.codes.low1), u32::from(rec.codes.high1));
    let (low2, high2) = (u32::from(rec.codes.low2), u32::from(rec.codes.high2));
    if is_char_mode(rec) {
        return match code {
            _ if code < low2 => Slot::Below,
            _ if code > high2 => Slot::Outside,
            _ => Slot::At((code - low2).into()),
        };
    }
    let (byte1, byte2) = (code >> 8, code & 255);
    if byte1 < low1 || byte1 > high1 || byte2 < low2 || byte2 > high2 {
        return Slot::Outside;
    }
    Slot::At(u64::from(byte1 - low1) * u64::from(high2 - low2 + 1) + u64::from(byte2 - low2))
}

/// the glyph of an entry
pub fn entry(b: &[u8], rec: &Record, slot: u64) -> Option<u16> {
    let at = rec.codes.entries + 2 * slot;
    Some(u16_at(b, at as usize, rec.codes.big)).filter(|&glyph| glyph != 65_535)
}

/// the glyph of a code
pub fn glyph(b: &[u8], rec: &Record, code: u32) -> Option<u16> {
    match slot(rec, code) {
        Slot::At(slot) if code <= 65_535 => entry(b, rec, slot),
        _ => None,
    }
}

// ---- metrics

fn twelve_bytes(b: &[u8], at: usize, big: bool) -> Metrics {
    let [left, right, width, ascent, descent] = [0, 2, 4, 6, 8].map(|k| u16_at(b, at + k, big) as i16);
    Metrics { left, right, width, ascent, descent, attributes: u16_at(b, at + 10, big) }
}

/// a glyph's metrics, 12-byte ones from so many bytes before the record's place
pub fn metrics(b: &[u8], rec: &Record, glyph: u16, sooner: u64) -> Option<Metrics> {
    let m = &rec.metrics;
    if u32::from(glyph) >= m.count {
        return None;
    }
    if !m.compressed {
        return Some(twelve_bytes(b, (m.records - sooner + 12 * u64::from(glyph)) as usize, m.big));
    }
    let at = (m.records + 5 * u64::from(glyph)) as usize;
    let [left, right, width, ascent, descent] = [0, 1, 2, 3, 4].map(|k| i16::from(b[at + k]) - 128);
    Some(Metrics { left, right, width, ascent, descent, attributes: 0 })
}

/// whether refusal 11 lets the bounds pass
pub fn bounds_hold(max: &Metrics) -> bool {
    let sum = i32::from(max.ascent) + i32::from(max.descent);
    max.ascent >= 0 && max.width >= 0 && (0..=32_767).contains(&sum)
}

/// whether refusal 11 lets a glyph's metrics pass
pub fn in_range(m: &Metrics, max: &Metrics) -> bool {
    let sum = i32::from(m.ascent) + i32::from(m.descent);
    m.width >= 0 && m.ascent >= 0 && m.left >= 0 && (0..=32_767).contains(&sum) && m.ascent <= max.ascent
}

/// What 000 makes of any metrics, negative numbers as huge ones: glyph, width, height and pads, or None where its
/// arithmetic overflows.
pub fn placed(glyph: u16, m: &Metrics, max: &Metrics) -> Option<Values> {
    let wide = |n: i16| n as i64 as u64;
    let height = m.ascent.checked_add(m.descent)?;
    let pad_top = wide(max.ascent).checked_sub(wide(m.ascent))?;
    Some([glyph.into(), wide(m.width), wide(height), pad_top, wide(m.left), 0])
}

// ---- bitmaps

/// a glyph's bitmap as it is to be drawn; `at` is its first pixel
#[derive(Clone, Copy, Debug)]
pub struct Drawing {
    pub glyph: u16,
    pub width: usize,
    pub height: usize,
    pub at: usize,
}

pub fn rows_drawn(d: &Drawing, len: usize, stride: usize, scale: usize) -> usize {
    let whole = len.saturating_sub(d.at) / stride;
    d.height.min(whole / scale * scale)
}

/// Of a glyph with a bitmap and so many rows, not 0: the place in the bitmap data after the last byte needed, and the
/// place that 000 asserts to be there.
pub fn last_bytes(b: &[u8], rec: &Record, d: &Drawing, rows: usize) -> (u64, u64) {
    let stride = d.width.div_ceil(8).next_multiple_of(rec.bitmaps.pad.into());
    let offset = u32_at(b, rec.bitmaps.offsets as usize + 4 * usize::from(d.glyph), rec.bitmaps.big);
    let row = u64::from(offset) + (rows as u64 - 1) * stride as u64;
    (if d.width == 0 { 0 } else { row + orders::needed(rec, d.width) }, row + d.width as u64 / 8)
}

/// whether so many rows of a glyph with a bitmap need a byte that is not there
pub fn lacks_data(b: &[u8], rec: &Record, d: &Drawing, rows: usize) -> bool {
    rows > 0 && last_bytes(b, rec, d, rows).0 > rec.bitmaps.size
}

pub fn has_bitmap(rec: &Record, glyph: u16) -> bool {
    u32::from(glyph) < rec.bitmaps.count
}

/// the number with which a drawing of so many rows is refused that 000 does not return from
pub fn number_of_drawing(b: &[u8], rec: &Record, d: &Drawing, rows: usize) -> u32 {
    match (orders::refused(rec), lacks_data(b, rec, d, rows)) {
        (true, _) => 13,
        (_, true) => 14,
        _ => 16,
    }
}
