//! Random fonts: most are whole, some have what refusals and departures are about.
use crate::fonts::{accelerators, bitmaps, codes, font, names, narrow_metrics, properties, wide_metrics, word, Table};
use crate::fonts::{BIG, NO_GLYPH, TOP};
use crate::random::Random;
use crate::structs::Metrics;

fn form(random: &mut Random) -> u32 {
    BIG * random.below(2) as u32
}

/// zero-ended strings, and an offset for each of so many users; some offsets are not a string's first
fn strings(random: &mut Random, users: usize) -> (Vec<u8>, Vec<u32>) {
    let mut all = Vec::new();
    let mut starts = Vec::new();
    for _ in 0..users.max(1) {
        starts.push(all.len() as u32);
        let len = random.below(6);
        all.extend((0..len).map(|_| b'a' + random.below(26) as u8));
        all.push(0);
    }
    let mut offsets: Vec<u32> = (0..users).map(|_| random.pick(&starts)).collect();
    if random.once_in(6) && users > 0 {
        let at = random.below(users);
        offsets[at] = random.below(all.len() + 3) as u32;
    }
    if random.once_in(12) {
        all.pop();
    }
    (all, offsets)
}

fn random_properties(random: &mut Random) -> Table {
    let form = form(random);
    let count = random.below(8);
    let (all, offsets) = strings(random, 2 * count);
    let records: Vec<_> = (0..count)
        .map(|k| {
            let flag = random.pick(&[0, 1, 2, 255]);
            let number = random.next() as u32;
            (offsets[2 * k], flag, if flag == 0 { number } else { offsets[2 * k + 1] })
        })
        .collect();
    properties(form, &records, &all)
}

fn random_metrics(random: &mut Random, odd: bool) -> Metrics {
    let ascent = random.between(0, 12) as i16;
    let mut m = Metrics {
        left: random.pick(&[0, 0, 0, 1, 2, 5]),
        right: random.between(-3, 40) as i16,
        width: random.pick(&[0, 1, 3, 5, 7, 8, 8, 9, 12, 16, 17, 24, 31, 40]),
        ascent,
        descent: random.between(-i64::from(ascent).min(2), 4) as i16,
        attributes: 0,
    };
    if odd {
        match random.below(5) {
            0 => m.left = -1 - random.below(3) as i16,
            1 => m.width = -1,
            2 => m.ascent = -2,
            3 => m.descent = -m.ascent - 1,
            _ => m.ascent = 99,
        }
    }
    m
}

fn random_accelerators(random: &mut Random, all: &[Metrics]) -> Table {
    let (form, kind) = (form(random) | random.pick(&[0, 256, 512]), random.pick(&[2, 256]));
    let flags = [0; 8].map(|_: u8| random.byte());
    let three = [0; 3].map(|_: i32| random.next() as i32);
    let in_sight = all.iter().map(|m| m.ascent).filter(|&ascent| ascent < 50);
    let mut max = Metrics {
        left: random.between(-5, 5) as i16,
        right: random.between(-5, 50) as i16,
        width: random.between(0, 41) as i16,
        ascent: in_sight.max().unwrap_or(3).max(0) + random.pick(&[0, 0, 0, 1, 4]),
        descent: random.between(0, 4) as i16,
        attributes: random.next() as u16,
    };
    if random.once_in(8) {
        match random.below(5) {
            0 => max.ascent -= 3,
            1 => max.width = -1,
            2 => max.descent = -max.ascent - 1,
            3 => (max.ascent, max.descent) = (32_000, 768),
            _ => (max.ascent, max.descent) = (20_000, 12_767),
        }
    }
    let min = Metrics { left: -9, descent: random.next() as i16, ..max };
    accelerators(kind, form, flags, three, &min, &max)
}

fn random_bitmaps(random: &mut Random, all: &[Metrics]) -> Table {
    let pad = random.below(4) as u32;
    let mut form = form(random) | pad | TOP;
    if random.once_in(4) {
        form = form & !TOP | TOP * random.below(2) as u32 | random.pick(&[0, 0, 16, 16, 32, 32, 48]);
    }
    let (mut bits, mut offsets) = (random.bytes(2), Vec::new());
    for m in all {
        offsets.push(bits.len() as u32);
        let stride = (m.width.max(0) as usize).div_ceil(8).next_multiple_of(1 << pad);
        let rows = (m.ascent + m.descent).max(0) as usize;
        let dense = random.once_in(2);
        for _ in 0..rows * stride {
            let byte = random.byte();
            bits.push(if dense { byte } else { byte & random.byte() & random.byte() });
        }
    }
    if random.once_in(5) && !offsets.is_empty() {
        let at = random.below(offsets.len());
        offsets[at] = random.pick(&[0, 1, bits.len() as u32, bits.len() as u32 + 1, u32::MAX]);
    }
    if random.once_in(2) {
        bits.push(random.byte());
    }
    let size = bits.len() as u32;
    bits.resize(bits.len() + random.below(2), 0xFF);
    bitmaps(form, &offsets, size, &bits)
}

fn random_codes(random: &mut Random, glyphs: usize) -> Table {
    let form = form(random);
    let (second, first) = if random.once_in(2) {
        let low = random.pick(&[0, 1, 0x20, 0x30, 0x41, 0xE0, 0x3B1, 0x20A0, 0xFF00]);
        ([low, low + random.below(2 * glyphs + 3) as u16], [0, 0])
    } else {
        let (low2, low1) = (random.pick(&[0, 0x20, 0x30, 0x41, 0xF0]), random.pick(&[0, 0, 1, 0x20, 0xD7, 0xFE]));
        ([low2, low2 + random.below(8) as u16], [low1, low1 + 1 + random.below(2) as u16])
    };
    let count = usize::from(second[1] - second[0] + 1) * usize::from(first[1] - first[0] + 1);
    let mut entries: Vec<u16> = (0..count)
        .map(|_| match random.below(14) {
            0 => NO_GLYPH,
            1 => random.pick(&[glyphs as u16, 0, 65_534]),
            _ => random.below(glyphs.max(1)) as u16,
        })
        .collect();
    if random.once_in(2) {
        return codes(form, second, first, &entries);
    }
    // so that 000, which reads half of the table, sees all of them
    entries.resize(2 * count, NO_GLYPH);
    let (width, height) = (second[1] - second[0] + 1, first[1] - first[0] + 1);
    if first == [0, 0] {
        return codes(form, [second[0], second[1].saturating_add(width)], first, &entries);
    }
    codes(form, second, [first[0], first[1] + height], &entries)
}

fn random_names(random: &mut Random, glyphs: usize) -> Table {
    let form = form(random);
    let (all, offsets) = strings(random, glyphs);
    names(form, &offsets, &all)
}

fn random_tables(random: &mut Random) -> Vec<Table> {
    let glyphs = 1 + random.below(9);
    let odd = random.once_in(3);
    let mut all: Vec<Metrics> = (0..glyphs)
        .map(|_| {
            let this_one = odd && random.once_in(4);
            random_metrics(random, this_one)
        })
        .collect();
    let fewer = |random: &mut Random| if random.once_in(6) { random.below(glyphs + 1) } else { glyphs };
    let (measured, drawn, named) = (fewer(random), fewer(random), fewer(random));
    let (properties, accelerators) = (random_properties(random), random_accelerators(random, &all));
    let (bitmaps, codes) = (random_bitmaps(random, &all[..drawn]), random_codes(random, glyphs));
    let form = form(random);
    let metrics = if random.once_in(4) {
        // 000 reads half of the count for the first left bearing
        all[0].left = if form & BIG != 0 { measured as i16 } else { 0 };
        all.iter_mut().for_each(|m| m.attributes = random.next() as u16);
        wide_metrics(form, &all[..measured])
    } else {
        narrow_metrics(form, &all[..measured])
    };
    vec![properties, accelerators, metrics, bitmaps, codes, random_names(random, named)]
}

/// Tables of any byte order in any order, some of them repeated with other contents, unknown ones between them.
pub fn random_font(random: &mut Random) -> Vec<u8> {
    let mut tables = random_tables(random);
    if random.once_in(3) {
        let others = random_tables(random);
        let some: Vec<Table> = others.into_iter().filter(|_| random.once_in(3)).collect();
        tables.extend(some);
    }
    for _ in 0..random.below(3) {
        let kind = random.pick(&[0, 3, 16, 64, 512, 0x8000_0001]);
        let len = random.below(9);
        tables.push(Table { kind, form: random.next() as u32, bytes: random.bytes(len) });
    }
    random.shuffle(&mut tables);
    for table in &mut tables {
        // the format word that does not count
        if random.once_in(8) {
            match table.kind {
                4 => table.bytes[..4].copy_from_slice(&word(random.next() as u32)),
                _ => table.form = random.next() as u32,
            }
        }
    }
    let gaps = random.pick(&[0, 0, 4, 12]);
    let mut made = font(&tables, || gaps);
    if random.once_in(8) {
        // sizes larger than the file are cut at its end
        let at = 8 + 16 * random.below(tables.len()) + 8;
        made[at..at + 4].copy_from_slice(&word(u32::MAX));
    }
    let more = random.pick(&[0, 0, 1, 7]);
    made.resize(made.len() + more, 0);
    made
}
