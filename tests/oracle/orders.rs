//! Rows in other orders than 000's, which has one-byte units, top bit leftmost. A row is units from its start, each a
//! number in the table's byte order; its leftmost pixel is the top bit, or the lowest one.
use crate::fonts::{four, word, Table, BIG, TOP};
use crate::reading::{part, u32_at};
use crate::structs::Record;

/// the order of a bitmap table's rows; `unit` in bytes
#[derive(Clone, Copy)]
pub struct Order {
    pub big: bool,
    pub top: bool,
    pub unit: usize,
}

impl Order {
    pub fn of(rec: &Record) -> Order {
        Order { big: rec.bitmaps.big, top: rec.bitmaps.top, unit: 1 << rec.bitmaps.unit }
    }

    fn form(self, pad: u8) -> u32 {
        let bit = |set: bool, bit: u32| if set { bit } else { 0 };
        bit(self.big, BIG) | bit(self.top, TOP) | self.unit.trailing_zeros() << 4 | pad.trailing_zeros()
    }

    /// the pixels of units, eight to a byte, top bit leftmost; a last unit is filled up
    fn pictured(self, data: &[u8]) -> Vec<u8> {
        let picture = |bytes: &[u8]| self.turned(digits(number(bytes, self.unit, self.big), self.unit, self.top));
        data.chunks(self.unit).flat_map(picture).collect()
    }

    /// such pixels as units
    fn written(self, pixels: &[u8]) -> Vec<u8> {
        let write = |bytes: &[u8]| {
            let turned = self.turned(bytes.to_vec());
            digits(number(&turned, self.unit, self.top), self.unit, self.big)
        };
        pixels.chunks(self.unit).flat_map(write).collect()
    }

    fn turned(self, bytes: Vec<u8>) -> Vec<u8> {
        bytes.into_iter().map(|byte| if self.top { byte } else { byte.reverse_bits() }).collect()
    }
}

/// the number of so many bytes, the most or the least significant first; those that are not there are 0
fn number(bytes: &[u8], count: usize, most_first: bool) -> u32 {
    let at = |k: usize| u32::from(*bytes.get(k).unwrap_or(&0)) << significance(k, count, most_first);
    (0..count).map(at).sum()
}

fn digits(number: u32, count: usize, most_first: bool) -> Vec<u8> {
    (0..count).map(|k| (number >> significance(k, count, most_first)) as u8).collect()
}

fn significance(k: usize, count: usize, most_first: bool) -> usize {
    8 * if most_first { count - 1 - k } else { k }
}

/// the orders, but for 000's, whose units are not wider than a row pad
pub fn others(pad: u8) -> Vec<Order> {
    let all = [1, 2, 4].into_iter().filter(|&unit| unit <= usize::from(pad)).flat_map(|unit| {
        [(false, false), (false, true), (true, false), (true, true)].map(|(big, top)| Order { big, top, unit })
    });
    all.filter(|order| order.unit > 1 || !order.top).collect()
}

/// whether 000 draws such rows
pub fn usual(rec: &Record) -> bool {
    rec.bitmaps.unit == 0 && rec.bitmaps.top
}

/// whether the port refuses to draw them, 13
pub fn refused(rec: &Record) -> bool {
    rec.bitmaps.unit == 3 || 1 << rec.bitmaps.unit > rec.bitmaps.pad
}

/// whether the port draws them and 000 does not
pub fn other(rec: &Record) -> bool {
    !usual(rec) && !refused(rec)
}

/// How many bytes of a row there are up to the last that holds a column. In units whose bytes stand from right to left
/// the first column's is the last one.
pub fn needed(rec: &Record, width: usize) -> u64 {
    let Order { big, top, unit } = Order::of(rec);
    (if big == top { width.div_ceil(8) } else { width.div_ceil(8).next_multiple_of(unit) }) as u64
}

fn bitmaps(rec: &Record, form: u32, offsets: &[u32], data: &[u8]) -> Table {
    let size = [rec.bitmaps.pad; 4].map(|_| four(form, data.len() as u32)).concat();
    let offsets: Vec<u8> = offsets.iter().flat_map(|&offset| four(form, offset)).collect();
    let count = four(form, rec.bitmaps.count);
    Table { kind: 8, form, bytes: [&word(form)[..], &count, &offsets, &size, data].concat() }
}

fn parts<'a>(b: &'a [u8], rec: &Record) -> (Vec<u32>, &'a [u8]) {
    let t = &rec.bitmaps;
    let offsets = (0..t.count as usize).map(|g| u32_at(b, t.offsets as usize + 4 * g, t.big)).collect();
    (offsets, part(b, t.bits, t.bits + t.size))
}

/// The bitmap table with its rows in 000's order. A glyph's units begin with its offset, so the data stand there once
/// for each place in a unit that an offset may have. Some bytes follow, so that departure 5 does not matter.
pub fn in_usual_order(b: &[u8], rec: &Record) -> Table {
    let order = Order::of(rec);
    let (offsets, data) = parts(b, rec);
    let (mut made, mut starts) = (Vec::new(), Vec::new());
    for first in 0..order.unit.min(data.len()) {
        starts.push(made.len() as u32);
        made.extend(order.pictured(&data[first..]));
    }
    made.extend([0; 8]);
    let moved = |&offset: &u32| match starts.get(offset as usize % order.unit) {
        Some(start) if offset as usize <= data.len() => start + offset / order.unit as u32 * order.unit as u32,
        _ => 0,
    };
    let usual = Order { top: true, unit: 1, ..order };
    bitmaps(rec, usual.form(rec.bitmaps.pad), &offsets.iter().map(moved).collect::<Vec<u32>>(), &made)
}

/// The bitmap table of a font in 000's order with its rows in another one; every row begins on a multiple of the unit.
pub fn in_order(b: &[u8], rec: &Record, order: Order) -> Table {
    let (offsets, data) = parts(b, rec);
    bitmaps(rec, order.form(rec.bitmaps.pad), &offsets, &order.written(data))
}
