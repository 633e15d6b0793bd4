//! Makers of fonts. A table is built by the function of its kind; bit 4 of its format says big-endian.
use crate::structs::Metrics;

pub const BIG: u32 = 4;
pub const TOP: u32 = 8;
pub const COMPRESSED: u32 = 256;
pub const NO_GLYPH: u16 = 65_535;

/// font F of document 01
pub const F: &[u8] = include_bytes!("../../examples/f.pcf");

pub fn bytes_of_hex(digits: &str) -> Vec<u8> {
    let digits: Vec<u32> = digits.chars().map(|c| c.to_digit(16).expect("a hexadecimal digit")).collect();
    digits.chunks(2).map(|two| (two[0] * 16 + two[1]) as u8).collect()
}

/// `form` is the directory's
#[derive(Clone)]
pub struct Table {
    pub kind: u32,
    pub form: u32,
    pub bytes: Vec<u8>,
}

impl Table {
    /// whose format in the directory is the one that its bytes begin with
    pub fn as_it_says(kind: u32, bytes: Vec<u8>) -> Table {
        Table { kind, form: u32::from_le_bytes(bytes[..4].try_into().unwrap()), bytes }
    }
}

// ---- numbers

pub fn word(n: u32) -> [u8; 4] {
    n.to_le_bytes()
}

pub fn two(form: u32, n: u16) -> [u8; 2] {
    if form & BIG != 0 {
        n.to_be_bytes()
    } else {
        n.to_le_bytes()
    }
}

pub fn four(form: u32, n: u32) -> [u8; 4] {
    if form & BIG != 0 {
        n.to_be_bytes()
    } else {
        n.to_le_bytes()
    }
}

fn table(kind: u32, form: u32, parts: &[&[u8]]) -> Table {
    Table { kind, form, bytes: [&word(form)[..], &parts.concat()].concat() }
}

// ---- tables

/// a record is a name's offset, the string flag and the value
pub fn properties(form: u32, records: &[(u32, u8, u32)], strings: &[u8]) -> Table {
    let mut made = table(1, form, &[&four(form, records.len() as u32)]);
    for &(name, flag, value) in records {
        made.bytes.extend([&four(form, name)[..], &[flag], &four(form, value)].concat());
    }
    made.bytes.resize(made.bytes.len().next_multiple_of(4), 0);
    made.bytes.extend(four(form, strings.len() as u32));
    made.bytes.extend(strings);
    made
}

pub fn twelve_bytes(form: u32, m: &Metrics) -> Vec<u8> {
    let five = [m.left, m.right, m.width, m.ascent, m.descent].map(|n| two(form, n as u16));
    [&five.concat()[..], &two(form, m.attributes)].concat()
}

pub fn accelerators(kind: u32, form: u32, flags: [u8; 8], three: [i32; 3], min: &Metrics, max: &Metrics) -> Table {
    let numbers = three.map(|n| four(form, n as u32)).concat();
    table(kind, form, &[&flags, &numbers, &twelve_bytes(form, min), &twelve_bytes(form, max)])
}

/// each number from -128 to 127
pub fn narrow_metrics(form: u32, all: &[Metrics]) -> Table {
    let mut made = table(4, form | COMPRESSED, &[&two(form, all.len() as u16)]);
    for m in all {
        made.bytes.extend([m.left, m.right, m.width, m.ascent, m.descent].map(|n| (n + 128) as u8));
    }
    made
}

pub fn wide_metrics(form: u32, all: &[Metrics]) -> Table {
    let records: Vec<u8> = all.iter().flat_map(|m| twelve_bytes(form, m)).collect();
    table(4, form, &[&four(form, all.len() as u32), &records])
}

/// `size` is the one that the format's row pad picks
pub fn bitmaps(form: u32, offsets: &[u32], size: u32, bits: &[u8]) -> Table {
    let mut made = table(8, form, &[&four(form, offsets.len() as u32)]);
    made.bytes.extend(offsets.iter().flat_map(|&n| four(form, n)));
    for pick in 0..4 {
        let other = size.wrapping_mul(3).wrapping_add(pick);
        made.bytes.extend(four(form, if pick == form & 3 { size } else { other }));
    }
    made.bytes.extend(bits);
    made
}

pub fn codes(form: u32, second: [u16; 2], first: [u16; 2], entries: &[u16]) -> Table {
    let header = [second[0], second[1], first[0], first[1], second[0]].map(|n| two(form, n)).concat();
    let entries: Vec<u8> = entries.iter().flat_map(|&n| two(form, n)).collect();
    table(32, form, &[&header, &entries])
}

pub fn names(form: u32, offsets: &[u32], strings: &[u8]) -> Table {
    let mut made = table(128, form, &[&four(form, offsets.len() as u32)]);
    made.bytes.extend(offsets.iter().flat_map(|&n| four(form, n)));
    made.bytes.extend(four(form, strings.len() as u32));
    made.bytes.extend(strings);
    made
}

// ---- a font

/// the directory, then the tables in its order, each on a multiple of 4 after a gap
pub fn font(tables: &[Table], mut gap: impl FnMut() -> usize) -> Vec<u8> {
    let mut body = Vec::new();
    let mut made = [&b"\x01fcp"[..], &word(tables.len() as u32)].concat();
    let from = made.len() + 16 * tables.len();
    for table in tables {
        body.resize(body.len().next_multiple_of(4) + gap(), 0xA7);
        made.extend([table.kind, table.form, table.bytes.len() as u32, (from + body.len()) as u32].map(word).concat());
        body.extend(&table.bytes);
    }
    made.extend(body);
    made
}

/// F with so many entries of an unknown type added to its directory
pub fn more_entries(count: usize) -> Vec<u8> {
    let mut made = F[..104].to_vec();
    made[4] += count as u8;
    for e in 0..6 {
        let offset = u32::from_le_bytes(made[20 + 16 * e..24 + 16 * e].try_into().unwrap()) + 16 * count as u32;
        made[20 + 16 * e..24 + 16 * e].copy_from_slice(&word(offset));
    }
    made.resize(104 + 16 * count, 0);
    made.extend(&F[104..]);
    made
}
