// Answers calls with 000: reads a file of crates/replay/data, which tests/replay/calls.py describes, and writes a line
// for each of its fonts and calls: what 000 did, the numbers that it answered, and of a call that draws which pixels of
// the buffer have the colour afterwards. The first word is the file of calls, the second the file to write.
use original::plain::{self, Fields, Span, Table, Value};
use original::{load_pcf, AcceleratorUnpacked, GlyphInfo, LoadedPCF, MetricsUnpacked};
use std::panic::{catch_unwind, set_hook, AssertUnwindSafe};

const CALL: usize = 64;

/// the kinds by their numbers; 0, 6 and 8, which are not the original's, are not asked
const KINDS: [&str; 15] = [
    "", "draw_bitmap", "draw_glyph", "draw_char", "unpack_glyph", "prep_char", "", "draw_string", "", "load_pcf",
    "prop_at", "get_glyph", "get_name", "get_metrics", "dimensions",
];

// ---- numbers of a call

fn u16_at(bytes: &[u8], at: usize) -> u16 {
    u16::from_le_bytes(bytes[at..at + 2].try_into().unwrap())
}

fn u32_at(bytes: &[u8], at: usize) -> u32 {
    u32::from_le_bytes(bytes[at..at + 4].try_into().unwrap())
}

fn size_at(bytes: &[u8], at: usize) -> usize {
    u64::from_le_bytes(bytes[at..at + 8].try_into().unwrap()) as usize
}

fn length_at(bytes: &[u8], at: usize) -> usize {
    u32_at(bytes, at) as usize
}

// ---- values

type Values = Vec<i64>;

fn numbers(all: &[usize]) -> Values {
    all.iter().map(|&n| i64::try_from(n).unwrap()).collect()
}

fn of_table(t: Table) -> Values {
    numbers(&[t.big as usize, t.at, t.count, t.data.start, t.data.len])
}

fn of_metrics(m: &MetricsUnpacked) -> Values {
    let signed = [
        m.left_sided_bearing,
        m.right_side_bearing,
        m.character_width,
        m.character_ascent,
        m.character_descent,
    ];
    let mut all: Values = signed.iter().map(|&n| n.into()).collect();
    all.push(m.character_attributes.into());
    all
}

fn of_accelerators(a: &AcceleratorUnpacked) -> Values {
    let mut all = vec![a.format.0.into()];
    all.extend([a.noOverlap, a.constantMetrics, a.terminalFont, a.constantWidth].map(i64::from));
    all.extend([a.inkInside, a.inkMetrics, a.drawDirection, a.padding].map(i64::from));
    all.extend([a.fontAscent, a.fontDescent, a.maxOverlap].map(i64::from));
    all.extend(of_metrics(&a.minbounds));
    all.extend(of_metrics(&a.maxbounds));
    all
}

/// the order that run.py has; the count of code entries is left out
fn of_fields(f: Fields, accelerators: &AcceleratorUnpacked) -> Values {
    let (m, c) = (f.metrics, f.codes);
    let big = m.big.unwrap_or(false) as usize;
    let mut all = of_table(f.props);
    all.extend(numbers(&[m.compressed as usize, big, m.at, m.count]));
    all.extend(of_table(f.bitmaps));
    all.extend(numbers(&[f.pad_mode as usize, f.size_mode as usize, f.least_bit_first as usize]));
    all.extend(numbers(&[c.big as usize, c.char_mode as usize]));
    all.extend([c.low2, c.high2, c.low1, c.high1].map(i64::from));
    all.push(c.at as i64);
    all.extend(of_table(f.names));
    all.extend(of_accelerators(accelerators));
    all
}

fn of_span(s: Span) -> Values {
    numbers(&[s.start, s.len])
}

fn of_property((name, value): (Span, Value)) -> Values {
    let mut all = of_span(name);
    all.extend(match value {
        Value::Number(n) => vec![0, n.into()],
        Value::String(s) => numbers(&[1, s.start, s.len]),
    });
    all
}

fn of_info(i: GlyphInfo) -> Values {
    numbers(&[i.glyph as usize, i.width, i.height, i.pad_top, i.pad_left])
}

// ---- answers in words

/// what came of a call: the values; nothing, which is None or Err; or that it did not return
enum Outcome {
    Returned(Values),
    Nothing,
    Stopped,
}

fn asked(call: impl FnOnce() -> Option<Values>) -> Outcome {
    match catch_unwind(AssertUnwindSafe(call)) {
        Ok(Some(values)) => Outcome::Returned(values),
        Ok(None) => Outcome::Nothing,
        Err(_) => Outcome::Stopped,
    }
}

fn words(outcome: &Outcome) -> String {
    match outcome {
        Outcome::Returned(values) => values.iter().fold("returned".to_string(), |all, n| format!("{all} {n}")),
        Outcome::Nothing => "answered nothing".to_string(),
        Outcome::Stopped => "did not return".to_string(),
    }
}

/// of the marked pixels the first and the last of each run, as 0-2,4
fn runs(marks: &[bool]) -> String {
    let mut all: Vec<String> = Vec::new();
    let mut i = 0;
    while i < marks.len() {
        let first = i;
        while i < marks.len() && marks[i] {
            i += 1;
        }
        match i - first {
            0 => i += 1,
            1 => all.push(first.to_string()),
            _ => all.push(format!("{first}-{}", i - 1)),
        }
    }
    if all.is_empty() { "none".to_string() } else { all.join(",") }
}

/// what is in the buffer of a call that does not return is not kept
fn with_buffer(outcome: Outcome, marks: Vec<bool>) -> String {
    match outcome {
        Outcome::Stopped => words(&outcome),
        _ => format!("{}; pixels {}", words(&outcome), runs(&marks)),
    }
}

fn pixel_before(i: usize) -> u32 {
    100 + (i % 7) as u32
}

/// a pixel has either its value from before, or the colour
fn mark(i: usize, pixel: u32, colour: u32) -> bool {
    assert!(pixel == colour || pixel == pixel_before(i), "000 left another value");
    pixel == colour
}

/// a call that is lent so many pixels
fn drawn(c: &[u8], call: impl FnOnce(&mut [u32]) -> Option<Values>) -> String {
    let colour = u32_at(c, 28);
    let mut buffer: Vec<u32> = (0..size_at(c, 32)).map(pixel_before).collect();
    let outcome = asked(|| call(&mut buffer));
    with_buffer(outcome, buffer.iter().enumerate().map(|(i, &pixel)| mark(i, pixel, colour)).collect())
}

/// the same with booleans, of which every third is set before
fn unpacked(c: &[u8], call: impl FnOnce(&mut [bool])) -> String {
    let mut buffer: Vec<bool> = (0..size_at(c, 32)).map(|i| i % 3 == 0).collect();
    let outcome = asked(|| {
        call(&mut buffer);
        Some(Values::new())
    });
    with_buffer(outcome, buffer)
}

fn read(call: impl FnOnce() -> Option<Values>) -> String {
    words(&asked(call))
}

// ---- calls

/// 000 has its properties as a list without an answer for a number that is too high: the list ends
fn property(font: &LoadedPCF, data: &[u8], number: usize) -> Option<Values> {
    if plain::fields(font, data).props.count <= number {
        return None;
    }
    Some(of_property(plain::property(font, data, number)))
}

fn info_at(c: &[u8]) -> GlyphInfo {
    GlyphInfo {
        glyph: u16_at(c, 2),
        width: size_at(c, 8),
        height: size_at(c, 16),
        pad_top: u16_at(c, 24) as usize,
        pad_left: u16_at(c, 26) as usize,
    }
}

fn of_font(font: &LoadedPCF, data: &[u8], c: &[u8], lent: &[u8]) -> String {
    let info = info_at(c);
    let code = || char::from_u32(u32_at(c, 4)).unwrap();
    let (colour, start) = (u32_at(c, 28), size_at(c, 40));
    let (stride, scale) = (size_at(c, 48), size_at(c, 56));
    match KINDS[c[0] as usize] {
        "prop_at" => read(|| property(font, data, length_at(c, 4))),
        "get_glyph" => read(|| Some(vec![plain::glyph(font, code())?.into()])),
        "get_name" => read(|| Some(of_span(plain::name(font, data, info.glyph)?))),
        "get_metrics" => read(|| Some(of_metrics(&plain::metrics(font, info.glyph)?))),
        "dimensions" => read(|| {
            let (height, width) = font.dimensions();
            Some(numbers(&[height, width]))
        }),
        "prep_char" => read(|| Some(of_info(font.prep_char(code())?))),
        "draw_bitmap" => drawn(c, |buffer| {
            let (width, height) = (info.width, info.height);
            plain::draw_bitmap(font, info.glyph, width, height, buffer, start, stride, scale, colour)?;
            Some(Values::new())
        }),
        "draw_glyph" => drawn(c, |buffer| {
            font.draw_glyph(info, buffer, start, stride, scale, colour);
            Some(Values::new())
        }),
        "draw_char" => drawn(c, |buffer| {
            Some(of_info(font.draw_char(code(), buffer, start, stride, scale, colour)?))
        }),
        "unpack_glyph" => unpacked(c, |buffer| font.unpack_glyph(info, buffer, start, stride)),
        "draw_string" => drawn(c, |buffer| {
            let from = length_at(c, 4);
            let bytes = &lent[from..from + info.height];
            let text = std::str::from_utf8(bytes).expect("a call with a text that is not UTF-8");
            let wrap = (c[2] != 0).then_some(info.width);
            Some(numbers(&[font.draw_string(text, buffer, start, wrap, stride, scale, colour)]))
        }),
        _ => panic!("a call of kind {}", c[0]),
    }
}

fn answered(data: &[u8], c: &[u8], lent: &[u8]) -> String {
    if KINDS[c[0] as usize] == "load_pcf" {
        return read(|| {
            let font = load_pcf(data).ok()?;
            Some(of_fields(plain::fields(&font, data), &font.accelerator_data))
        });
    }
    let font = load_pcf(data).ok().expect("a call on a font that 000 does not load");
    of_font(&font, data, c, lent)
}

// ---- files

/// the bytes on a multiple of 4, where 000 wants them
struct Aligned {
    room: Vec<u8>,
    at: usize,
    size: usize,
}

impl Aligned {
    fn new(bytes: &[u8]) -> Aligned {
        let mut room = vec![0; bytes.len() + 4];
        let at = room.as_ptr().align_offset(4);
        room[at..at + bytes.len()].copy_from_slice(bytes);
        Aligned { room, at, size: bytes.len() }
    }

    fn bytes(&self) -> &[u8] {
        &self.room[self.at..self.at + self.size]
    }
}

fn with_answers(calls: &[u8]) -> String {
    let (mut made, mut at) = (String::new(), 0);
    while at < calls.len() {
        let (size, texts, count) = (length_at(calls, at), length_at(calls, at + 4), length_at(calls, at + 8));
        let lent = &calls[at + 12..at + 12 + size + texts];
        let font = Aligned::new(&lent[..size]);
        made += &format!("font of {size} bytes\n");
        at += 12 + lent.len();
        for c in calls[at..at + CALL * count].chunks(CALL) {
            made += &format!("{:<12} {}\n", KINDS[c[0] as usize], answered(font.bytes(), c, lent));
        }
        at += CALL * count;
    }
    made
}

fn main() {
    let words: Vec<String> = std::env::args().collect();
    let calls = std::fs::read(&words[1]).expect("the file of calls");
    // 000's panics are answers; those of this program are told at the end
    set_hook(Box::new(|_| {}));
    match catch_unwind(|| with_answers(&calls)) {
        Ok(made) => std::fs::write(&words[2], made).expect("the file to write"),
        Err(why) => {
            let text = why.downcast_ref::<String>().cloned();
            eprintln!("{}", text.or(why.downcast_ref::<&str>().map(|s| s.to_string())).unwrap_or_default());
            std::process::exit(1);
        }
    }
}
