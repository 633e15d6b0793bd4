//! The calls that are made with a font.
use crate::asked::{Call, Function::*};
use crate::random::Random;
use crate::reading::{self, Slot};
use crate::sides::Pair;

/// codes in the table and around it, and some that are always asked for
pub fn codes(pair: &Pair) -> Vec<char> {
    let c = &pair.rec.codes;
    let (low2, high2) = (u32::from(c.low2), u32::from(c.high2));
    let ends = |low: u32, high: u32, most: u32| -> Vec<u32> {
        let from = low.saturating_sub(1);
        (from..=(high + 1).min(from + most)).chain(high.saturating_sub(1).max(from)..=high + 1).collect()
    };
    let mut codes = vec![0, 10, 13, 0x30, 0x31, 0x32, 0xFF, 0x130, 0xFFFF, 0x10000, 0x10030, 0x10041, 0x10_FFFF];
    if reading::is_char_mode(&pair.rec) {
        codes.extend(ends(low2, high2, 24));
    } else {
        for byte1 in ends(c.low1.into(), c.high1.into(), 5) {
            codes.extend(ends(low2, high2, 9).iter().map(|byte2| 256 * byte1 + byte2));
            codes.push(0x1_0000 + 256 * byte1 + low2);
        }
    }
    codes.sort_unstable();
    codes.dedup();
    codes.into_iter().filter_map(char::from_u32).collect()
}

/// every code that may have a glyph, and some above
pub fn all_codes() -> impl Iterator<Item = char> {
    (0..=0x10100).chain([0x10_0030, 0x10_0041, 0x10_FFFF]).filter_map(char::from_u32)
}

/// the codes that the port has a glyph for
pub fn found(pair: &Pair) -> Vec<char> {
    let of_table = |&c: &char| matches!(reading::slot(&pair.rec, c as u32), Slot::At(_));
    codes(pair).into_iter().filter(|&c| c as u32 <= 65_535).filter(of_table).collect()
}

/// all that is asked without a buffer, but for the codes
pub fn tables(pair: &Pair, most: u32) -> Vec<Call> {
    let mut made = vec![Call::new(Dimensions, 0)];
    let around = |count: u32| (0..(count + 2).min(most)).chain([count.wrapping_sub(1), count, 65_535]);
    made.extend(around(pair.rec.props.count).map(|number| Call::new(Property, number)));
    made.extend(around(pair.rec.names.count).map(|number| Call::new(Name, number & 0xFFFF)));
    made.extend(around(pair.rec.metrics.count).map(|number| Call::new(Metrics, number & 0xFFFF)));
    made
}

/// width, height and pads of a glyph, where they are in range
fn box_of(pair: &Pair, glyph: u16) -> [usize; 4] {
    let max = &pair.rec.accel.maxbounds;
    match reading::metrics(pair.ours, &pair.rec, glyph, 0) {
        Some(m) if reading::in_range(&m, max) => {
            let small = |n: i16| (n as usize).min(200);
            [small(m.width), small(m.ascent + m.descent), small(max.ascent - m.ascent), small(m.left)]
        }
        _ => [3, 3, 0, 0],
    }
}

/// the five functions on one glyph and one code, with buffers that have what is needed or a little less
pub fn draws(pair: &Pair, random: &mut Random, codes: &[char]) -> Vec<Call> {
    let glyphs = pair.rec.bitmaps.count.min(200) as usize + 2;
    let glyph = random.below(glyphs) as u16;
    let [width, height, pad_top, pad_left] = box_of(pair, glyph);
    let scale = random.pick(&[1, 1, 1, 2, 2, 3, 5]);
    let stride = match random.below(4) {
        0 => 1 + random.below(width + 2),
        1 => width * scale + 1,
        _ => width * scale + 1 + random.below(9),
    };
    let start = random.pick(&[0, 0, 1, 7, stride]);
    let at = start + stride * scale * pad_top + scale * pad_left;
    let needed = at + stride * (height * scale).max(1) + scale;
    let len = match random.below(5) {
        0 => random.below(needed + 1),
        1 => needed + stride * scale,
        2 => (at + stride * height).saturating_sub(random.below(3)),
        _ => needed + stride - random.below(4).min(stride),
    };
    let shape = |function, number| {
        Call::new(function, number).boxed(width, height, pad_top, pad_left).on(len.min(60_000), start, stride, scale)
    };
    let mut made = vec![
        shape(DrawBitmap, glyph.into()),
        shape(DrawGlyph, glyph.into()),
        shape(UnpackGlyph, glyph.into()).on(len.min(60_000) + 8, start, stride, 1),
    ];
    if !codes.is_empty() {
        made.push(shape(DrawChar, random.pick(codes) as u32));
    }
    if random.once_in(3) {
        let [width, height] = [random.below(42), random.below(20)];
        made.push(shape(DrawBitmap, glyph.into()).boxed(width, height, 0, 0));
        made.push(shape(UnpackGlyph, glyph.into()).boxed(width, height, random.below(3), random.below(3)));
    }
    made
}

/// a text on a page that is large enough, or a little too small
pub fn text(pair: &Pair, random: &mut Random, codes: &[char], most: usize) -> Call {
    let max = &pair.rec.accel.maxbounds;
    let line = (i32::from(max.ascent) + i32::from(max.descent)).clamp(1, 60) as usize;
    let scale = random.pick(&[1, 1, 1, 2, 3]);
    let stride = random.pick(&[1, 20, 40, 64, 100]) * if random.once_in(3) { scale } else { 1 };
    let lines = 1 + random.below(5);
    let len = match random.below(5) {
        0 => random.below(stride * line + 1),
        _ => stride * line * scale * lines + random.below(2 * stride * scale + 1),
    };
    let wrap = match random.below(5) {
        0 | 1 => None,
        2 => Some(random.pick(&[0, 1, u64::MAX, u64::MAX - 1, 1 << 32])),
        _ => Some(random.below(stride + 2) as u64),
    };
    let start = random.pick(&[0, 0, 0, 1, stride, 300]);
    Call::text(&random_text(random, codes, most), wrap).on(len.min(60_000), start, stride, scale)
}

/// arguments at and around every limit, one or two of them at a time
pub fn limits(pair: &Pair, glyph: u16, code: char) -> Vec<Call> {
    let [width, height, pad_top, pad_left] = box_of(pair, glyph);
    let len = 64 * (pad_top + height + 2);
    let mut bases: Vec<Call> =
        [DrawBitmap, DrawGlyph, UnpackGlyph].map(|function| Call::new(function, glyph.into())).to_vec();
    bases.push(Call::new(DrawChar, code as u32));
    bases.push(Call::text(&format!("{code}\n{code}{code}"), None));
    let mut made = Vec::new();
    for base in bases {
        let base = base.boxed(width, height, pad_top, pad_left).on(len, 0, 64, 1);
        let with = |change: &dyn Fn(&mut Call)| {
            let mut call = base.clone();
            change(&mut call);
            call
        };
        for n in [0, 1, 2, 65_534, 65_535, 65_536, usize::MAX] {
            made.push(with(&|call| call.stride = n));
            made.push(with(&|call| (call.stride, call.len) = (n, 140_000)));
            made.push(with(&|call| (call.stride, call.len) = (n, 0)));
        }
        for n in [0, 1, 2, 63, 64, 65, 1 << 32, usize::MAX] {
            made.push(with(&|call| call.scale = n));
            made.push(with(&|call| (call.scale, call.stride, call.len) = (n, 64 * 8, 64 * 64 * 8 * 5)));
        }
        for n in [1, len, len + 1, 2_147_483_647, 2_147_483_648, 1 << 32, usize::MAX - 1, usize::MAX] {
            made.push(with(&|call| call.start = n));
            made.push(with(&|call| (call.start, call.stride, call.scale) = (n, 65_535, 64)));
        }
        let largest = if base.function == DrawBitmap { usize::MAX } else { 65_535 };
        for n in [0, 1, 8, 32_766, 32_767, 32_768, 65_535, largest] {
            made.push(with(&|call| call.width = n));
            made.push(with(&|call| (call.width, call.height) = (n, 0)));
            made.push(with(&|call| call.height = n));
            made.push(with(&|call| (call.height, call.width, call.stride, call.len) = (n, 0, 1, 40_000)));
            made.push(with(&|call| call.pad_top = n.min(65_535)));
            made.push(with(&|call| call.pad_left = n.min(65_535)));
            made.push(with(&|call| (call.pad_top, call.len, call.stride) = (n.min(65_535), 33_000, 1)));
        }
        let needed = pad_left + 64 * (pad_top + height);
        for n in needed.saturating_sub(70)..needed + 70 {
            made.push(with(&|call| call.len = n));
            made.push(with(&|call| (call.len, call.scale, call.stride) = (2 * n, 2, 40)));
        }
        for n in 0..=(3 * width as u64 + 2).min(140) {
            made.push(with(&|call| (call.wrap, call.len) = (Some(n), 64 * 4 * (pad_top + height + 1))));
        }
        for n in [u64::MAX - 1, u64::MAX, 1 << 63] {
            made.push(with(&|call| call.wrap = Some(n)));
        }
    }
    made.dedup();
    made
}

/// characters of the font, others, and line ends
pub fn random_text(random: &mut Random, of_font: &[char], most: usize) -> String {
    const OTHERS: [char; 16] = [
        '\r',
        '\n',
        '\n',
        ' ',
        '0',
        '1',
        'A',
        '~',
        '\u{0}',
        '\u{1f}',
        '\u{e9}',
        '\u{7ff}',
        '\u{20ac}',
        '\u{ffff}',
        '\u{10041}',
        '\u{10ffff}',
    ];
    let plain = random.once_in(2);
    let count = random.below(most + 1);
    (0..count)
        .map(|_| match random.below(8) {
            0 if !plain => random.pick(&OTHERS),
            1 => random.pick(&['\n', '\r', '\n']),
            _ if of_font.is_empty() => random.pick(&OTHERS),
            _ => random.pick(of_font),
        })
        .collect()
}
