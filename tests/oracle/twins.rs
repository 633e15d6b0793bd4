//! Twins: a font rewritten so that 000 should read in it what the port reads in the font itself. Each table's format in
//! the directory is its own.
use crate::fonts::{accelerators, font, four, narrow_metrics, two, word, Table, BIG, COMPRESSED};
use crate::orders;
use crate::reading::{entries, is_char_mode, metrics, part};
use crate::sides::{Given, Theirs};
use crate::structs::{Metrics, Record};
use original::plain::Fields;

fn form(big: bool) -> u32 {
    if big {
        BIG
    } else {
        0
    }
}

/// The code table with as many empty entries more: 000 takes the number of entries for that of bytes.
fn doubled_codes(b: &[u8], rec: &Record) -> Option<Table> {
    let (codes, form) = (&rec.codes, form(rec.codes.big));
    let mut bytes = part(b, codes.entries - 14, codes.entries + codes.size).to_vec();
    let (at, last, more) = if is_char_mode(rec) {
        (6, codes.high2, entries(rec))
    } else {
        (10, codes.high1, u64::from(codes.high1 - codes.low1) + 1)
    };
    let last = u16::try_from(u64::from(last) + more).ok()?;
    bytes[at..at + 2].copy_from_slice(&two(form, last));
    bytes.resize(bytes.len() + codes.size as usize, 0xFF);
    Some(Table::as_it_says(32, bytes))
}

fn fits(m: &Metrics) -> bool {
    let five = [m.left, m.right, m.width, m.ascent, m.descent];
    m.attributes == 0 && five.iter().all(|n| (-128..128).contains(n))
}

/// 12-byte metrics with the first left bearing left out: 000 reads them from byte 6, where half of the count stands for
/// that bearing. Where it is another number, 5-byte metrics.
fn moved_metrics(b: &[u8], rec: &Record) -> Option<Table> {
    let (m, form) = (&rec.metrics, form(rec.metrics.big));
    if m.compressed {
        let rest = part(b, m.records - 2, m.records + 5 * u64::from(m.count));
        let bytes = [&word(form | COMPRESSED)[..], rest].concat();
        return Some(Table::as_it_says(4, padded(bytes)));
    }
    let head = [&word(form)[..], &four(form, m.count)].concat();
    if m.count == 0 {
        return Some(Table::as_it_says(4, head));
    }
    let records = part(b, m.records, m.records + 12 * u64::from(m.count));
    if records[..2] == head[6..8] {
        return Some(Table::as_it_says(4, [&head[..], &records[2..]].concat()));
    }
    let all: Vec<Metrics> = (0..m.count.min(65_536)).filter_map(|g| metrics(b, rec, g as u16, 0)).collect();
    (m.count < 65_536 && all.iter().all(fits)).then(|| narrow_metrics(form, &all))
}

/// to the 8 bytes that 000 wants of a header
fn padded(mut bytes: Vec<u8>) -> Vec<u8> {
    bytes.resize(bytes.len().max(8), 0);
    bytes
}

/// what 000 is given of a font: None where there is no such twin, or where that is the font itself
pub fn given(given: Given, b: &[u8], rec: &Record) -> Option<Vec<u8>> {
    match given {
        Given::Itself => None,
        Given::Twin => twin(b, rec),
        Given::UsualRows => with_bitmaps(b, rec, orders::in_usual_order(b, rec)),
    }
}

/// None where there is no such font
pub fn twin(b: &[u8], rec: &Record) -> Option<Vec<u8>> {
    let (from, to) = (rec.bitmaps.offsets - 8, rec.bitmaps.bits + rec.bitmaps.size);
    with_bitmaps(b, rec, Table::as_it_says(8, part(b, from, to).to_vec()))
}

pub fn with_bitmaps(b: &[u8], rec: &Record, bitmaps: Table) -> Option<Vec<u8>> {
    let a = &rec.accel;
    let flags = [
        a.no_overlap,
        a.constant_metrics,
        a.terminal_font,
        a.constant_width,
        a.ink_inside,
        a.ink_metrics,
        a.draw_direction,
        a.padding,
    ];
    let three = [a.font_ascent, a.font_descent, a.max_overlap];
    let copied = |kind, from: u64, to: u64| Table::as_it_says(kind, part(b, from - 8, to).to_vec());
    let tables = [
        copied(1, rec.props.records, rec.props.strings + rec.props.size),
        accelerators(2, a.format, flags, three, &a.minbounds, &a.maxbounds),
        moved_metrics(b, rec)?,
        bitmaps,
        doubled_codes(b, rec)?,
        copied(128, rec.names.offsets, rec.names.strings + rec.names.size),
    ];
    Some(font(&tables, || 0))
}

/// 000's font with so many more bytes after the bitmaps
pub fn extended(theirs: Theirs, fields: &Fields, more: usize) -> Vec<u8> {
    let (b, bitmaps) = (theirs.data, &fields.bitmaps);
    let mut made = b.to_vec();
    made.resize(made.len().next_multiple_of(4), 0);
    let (from, end) = (bitmaps.at - 8, bitmaps.data.start + bitmaps.data.len);
    let mut moved = b[from..end].to_vec();
    let size = bitmaps.at + 4 * bitmaps.count + 4 * usize::from(fields.pad_mode) - from;
    moved[size..size + 4].copy_from_slice(&four(form(bitmaps.big), (bitmaps.data.len + more) as u32));
    moved.resize(moved.len() + more, 0);
    let entries = u32::from_le_bytes(b[4..8].try_into().unwrap()) as usize;
    let entry = (0..entries).map(|e| 8 + 16 * e).filter(|&e| b[e..e + 4] == word(8)).last().expect("bitmaps");
    made[entry + 8..entry + 12].copy_from_slice(&word(moved.len() as u32));
    let offset = word(made.len() as u32);
    made[entry + 12..entry + 16].copy_from_slice(&offset);
    made.extend(moved);
    made
}
