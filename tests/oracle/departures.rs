//! Where 000 and the port may differ: one predicate for each way. A predicate looks at the font and the arguments, not
//! at the answers; compare.rs and texts.rs say what has to hold where it applies.
use crate::orders;
use crate::reading::{
    self, directory_entry, has_bitmap, is_known, last_bytes, rows_drawn, u16_at, u32_at, Drawing, Slot,
};
use crate::sides::Pair;
use crate::structs::{Metrics, Record};

#[derive(Clone, Copy, Debug, PartialEq, Eq)]
pub enum Departure {
    HalfUnseen,
    OddCount,
    ShortCodes,
    FromSix,
    ShortMetrics,
    Folded,
    UnitShift,
    BytePast,
    ManyEntries,
    BoundsOutside,
    MetricsOutside,
    BelowFirst,
    OtherOrder,
    ShortCompressed,
    Unaligned,
}
use Departure::*;

/// with the number in docs/DIFFERENCES.md, or a dash for what it says in words
pub const DEPARTURES: [(Departure, &str); 15] = [
    (HalfUnseen, "1 a code in the half of the table that 000 does not see"),
    (OddCount, "1 an odd number of entries, over which 000 panics"),
    (ShortCodes, "1 a code table with room for half of its entries, which 000 loads"),
    (FromSix, "2 12-byte metrics, which 000 reads from byte 6"),
    (ShortMetrics, "2 a table of 12-byte metrics 2 bytes short, which 000 loads"),
    (Folded, "3 a code above 65,535 in two-byte mode"),
    (UnitShift, "4 scan unit bits"),
    (BytePast, "5 a row of whole bytes at the end of the bitmaps"),
    (ManyEntries, "6 a directory of over 64 entries"),
    (BoundsOutside, "- bounds that refusal 11 refuses"),
    (MetricsOutside, "- metrics that refusal 11 refuses"),
    (BelowFirst, "- a text with a code below the table's first"),
    (OtherOrder, "- rows in an order that 000 does not draw"),
    (ShortCompressed, "- compressed metrics without a record in 6 or 7 bytes"),
    (Unaligned, "- a known table that is not on a multiple of 4"),
];

impl Departure {
    /// whether 000 panics over it in loading
    pub fn stops_loading(self) -> bool {
        matches!(self, OddCount | ShortCompressed | Unaligned)
    }
}

// ---- loading

/// All that applies to a font's loading, each with the number of its directory entry.
pub fn of_loading(b: &[u8]) -> Vec<(Departure, usize)> {
    let mut found = Vec::new();
    if b.len() < 8 || b[..4] != *b"\x01fcp" {
        return found;
    }
    let count = u32_at(b, 4, false) as usize;
    if count > 64 {
        found.push((ManyEntries, 0));
    }
    if count > (b.len() - 8) / 16 {
        return found;
    }
    for e in 0..count {
        let [kind, form, size, offset] = directory_entry(b, e);
        let Some(from) = b.get(offset as usize..) else { break };
        let table = &from[..from.len().min(size as usize)];
        if is_known(kind) && offset % 4 != 0 {
            found.push((Unaligned, e));
        }
        let of_table = match kind {
            4 => of_metrics(table, form),
            32 => of_codes(table),
            _ => None,
        };
        found.extend(of_table.map(|departure| (departure, e)));
    }
    found
}

/// whether loading may be refused so, as far as the header and the directory tell
pub fn may_refuse(b: &[u8], number: u32, place: usize) -> bool {
    let count = || u32_at(b, 4, false) as usize;
    let header = match b.len() {
        0..=7 => 1,
        _ if b[..4] != *b"\x01fcp" => 2,
        _ if count() > 64 => 3,
        len if 8 + 16 * count() > len => 4,
        _ => 0,
    };
    if header != 0 || number < 5 {
        return (number, place) == (header, 0);
    }
    let kind = |e: usize| directory_entry(b, e)[0];
    let within = |e: usize| directory_entry(b, e)[3] as usize <= b.len();
    let kinds = |known: &[u32]| (0..count()).any(|e| known.contains(&kind(e)));
    let complete = [&[1][..], &[2, 256], &[4], &[8], &[32], &[128]].into_iter().all(kinds);
    match number {
        8 => place == 0 && (0..count()).all(within) && !complete,
        _ if place >= count() || !(0..place).all(within) => false,
        5 => !within(place),
        6 => within(place) && is_known(kind(place)),
        7 => within(place) && kind(place) == 32,
        _ => false,
    }
}

fn of_metrics(table: &[u8], form: u32) -> Option<Departure> {
    let (big, len) = (form & 4 != 0, table.len() as u64);
    if form & 256 != 0 {
        return (matches!(len, 6 | 7) && u16_at(table, 4, big) == 0).then_some(ShortCompressed);
    }
    let records = 12 * u64::from(if len >= 8 { u32_at(table, 4, big) } else { return None });
    (6 + records <= len && len < 8 + records).then_some(ShortMetrics)
}

fn of_codes(table: &[u8]) -> Option<Departure> {
    let len = table.len() as u64;
    if len < 16 {
        return None;
    }
    let big = table[0] & 4 != 0;
    let [low2, high2, low1, high1] = [4, 6, 8, 10].map(|k| u64::from(u16_at(table, k, big)));
    if low2 > high2 || low1 > high1 {
        return None;
    }
    let entries = (high2 - low2 + 1) * (high1 - low1 + 1);
    match entries % 2 {
        1 => Some(OddCount),
        _ => (14 + entries <= len && len < 14 + 2 * entries).then_some(ShortCodes),
    }
}

/// which 000 keeps as twice the code
pub fn unit_shift(rec: &Record) -> bool {
    rec.bitmaps.unit != 0
}

// ---- codes

/// how 000 sees a code
#[derive(Clone, Copy, Debug, PartialEq, Eq)]
pub enum Sight {
    AsThePort,
    /// it panics
    Below,
    /// it has no glyph
    Unseen,
    /// it takes the lower 16 bits
    Folded,
}

pub fn sight(pair: &Pair, code: u32) -> Sight {
    let folded = code > 65_535 && !reading::is_char_mode(&pair.rec);
    let slot = match reading::slot(&pair.rec, if folded { code & 0xFFFF } else { code }) {
        Slot::Below => return Sight::Below,
        Slot::Outside => return Sight::AsThePort,
        Slot::At(slot) => slot,
    };
    let seen = pair.twin() || slot < reading::entries(&pair.rec) / 2;
    match (reading::entry(pair.ours, &pair.rec, slot).is_some(), seen, folded) {
        (true, true, true) => Sight::Folded,
        (true, false, false) => Sight::Unseen,
        _ => Sight::AsThePort,
    }
}

// ---- metrics

/// a twin's have been moved
pub fn from_six(pair: &Pair, glyph: u16) -> bool {
    !pair.twin() && !pair.rec.metrics.compressed && u32::from(glyph) < pair.rec.metrics.count
}

pub fn bounds_outside(pair: &Pair) -> bool {
    !reading::bounds_hold(&pair.rec.accel.maxbounds)
}

pub fn metrics_outside(pair: &Pair, m: &Metrics) -> bool {
    !reading::in_range(m, &pair.rec.accel.maxbounds)
}

// ---- bitmaps

/// whether the port draws the glyph's rows, and 000 would not, if it was given them as they are
pub fn other_order(pair: &Pair, glyph: u16) -> bool {
    orders::other(&pair.rec) && has_bitmap(&pair.rec, glyph)
}

/// Whether 000 asserts a byte past a row of whole bytes that is not there, though every needed byte is: how many bytes
/// more it wants.
pub fn byte_past(pair: &Pair, d: &Drawing, rows: usize) -> Option<u64> {
    if rows == 0 || d.width % 8 != 0 || !has_bitmap(&pair.rec, d.glyph) || !orders::usual(&pair.rec) {
        return None;
    }
    let (needed, asserted) = last_bytes(pair.ours, &pair.rec, d, rows);
    let size = pair.rec.bitmaps.size;
    (needed <= size && asserted >= size).then(|| asserted - size + 1)
}

/// the same for the rows that fit
pub fn byte_past_drawn(pair: &Pair, d: &Drawing, len: usize, stride: usize, scale: usize) -> Option<u64> {
    byte_past(pair, d, rows_drawn(d, len, stride, scale))
}
