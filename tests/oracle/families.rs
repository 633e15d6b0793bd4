//! The families of inputs. A difference is made smaller and printed, and ends the program.
use crate::asked::{Call, Function::*};
use crate::compare::{self, Verdict};
use crate::fonts::{self, F};
use crate::random::Random;
use crate::sides::{Given, Pair};
use crate::tally::Tally;
use crate::{calls, damage, listed, loading, orders, questions, random_fonts, reading, smallest, twins, utf8, words};
use std::process::exit;

/// the calls that a font is asked
type Questions<'a> = &'a mut dyn FnMut(&Pair) -> Vec<Call>;

/// One font and its twins, with all calls; a difference ends the program.
fn try_font(bytes: &[u8], tally: &mut Tally, twin: bool, questions: Questions) {
    for given in [Given::Itself, Given::Twin, Given::UsualRows] {
        if given == Given::Twin && !twin {
            continue;
        }
        let mut at = Call::new(Load, 0);
        let mut ask = |pair: &Pair, tally: &mut Tally| -> Verdict {
            let vetting = if pair.twin() { Some(Call::new(Vet, 0)) } else { None };
            for call in questions(pair).into_iter().chain(vetting) {
                if let Err(said) = compare::call(pair, &call, tally) {
                    at = call;
                    return Err(said);
                }
            }
            Ok(())
        };
        if let Err(said) = loading::given(given, bytes, tally, &mut ask) {
            let (bytes, call) = smallest::smallest(bytes, &at, given, &said);
            words::difference(&bytes, &call, given, &said);
            exit(1);
        }
    }
}

fn read_calls(pair: &Pair) -> Vec<Call> {
    let mut made = questions::tables(pair, 6);
    made.extend(questions::codes(pair).iter().flat_map(|&c| [Glyph, PrepChar].map(|f| Call::new(f, c as u32))));
    made
}

/// for the many small changes of F: a fixed list
fn few_calls(pair: &Pair) -> Vec<Call> {
    let mut made = questions::tables(pair, 3);
    for code in [0x2F, 0x30, 0x31, 0x32, 0x33, 0x130, 0x10030] {
        made.push(Call::new(Glyph, code));
    }
    for code in [0x30, 0x31, 0x32] {
        made.push(Call::new(PrepChar, code));
        made.push(Call::new(DrawChar, code).on(12, 0, 3, 1));
    }
    for glyph in [0, 1, 2] {
        made.push(Call::new(DrawBitmap, glyph).boxed(3, 3, 0, 0).on(10, 0, 3, 1));
        made.push(Call::new(DrawGlyph, glyph).boxed(8, 3, 1, 1).on(40, 0, 8, 1));
        made.push(Call::new(UnpackGlyph, glyph).boxed(3, 3, 0, 1).on(16, 0, 3, 1));
    }
    for text in ["01", "1\n0", "0\u{e9}1\r\n2"] {
        made.push(Call::text(text, Some(7)).on(50, 0, 6, 1));
    }
    made.push(Call::text("0110", Some(13)).on(200, 1, 13, 2));
    made
}

pub fn changes_of_f(tally: &mut Tally) {
    for at in 0..F.len() {
        for value in (0..=255).filter(|&value| value != F[at]) {
            let mut bytes = F.to_vec();
            bytes[at] = value;
            try_font(&bytes, tally, value % 3 == 0, &mut few_calls);
        }
    }
    tally.family("F with one byte changed");
}

pub fn lengths_of_f(tally: &mut Tally) {
    for len in 0..=F.len() {
        try_font(&F[..len], tally, true, &mut few_calls);
    }
    for more in 1..=64 {
        for value in [0, 0xFF] {
            let mut bytes = F.to_vec();
            bytes.resize(F.len() + more, value);
            try_font(&bytes, tally, true, &mut few_calls);
        }
    }
    for more in 55..=62 {
        try_font(&fonts::more_entries(more), tally, true, &mut few_calls);
    }
    tally.family("F cut at every length, F with bytes and directory entries added");
}

pub fn all_of_f(tally: &mut Tally, random: &mut Random) {
    let mut ask = |pair: &Pair| {
        let mut made = read_calls(pair);
        made.extend(questions::all_codes().flat_map(|c| [Glyph, PrepChar].map(|f| Call::new(f, c as u32))));
        for (glyph, code) in [(0, '0'), (1, '1'), (2, '2')] {
            made.extend(questions::limits(pair, glyph, code));
        }
        for _ in 0..1500 {
            made.extend(questions::draws(pair, random, &['/', '0', '1', '2']));
            made.push(questions::text(pair, random, &['0', '1'], 14));
        }
        made.extend(long_texts("01"));
        made
    };
    try_font(F, tally, true, &mut ask);
    tally.family("F, all codes, arguments around every limit, texts");
}

/// up to the 65,535 bytes that a text may have, and one more
fn long_texts(letters: &str) -> Vec<Call> {
    [65_534, 65_535, 65_536]
        .iter()
        .flat_map(|&n| {
            let text: String = letters.chars().cycle().take(n).collect();
            [None, Some(60), Some(0)].map(|wrap| Call::text(&text, wrap).on(3000, 0, 64, 1))
        })
        .collect()
}

fn random_font(tally: &mut Tally, random: &mut Random, damage: bool) {
    let good = random_fonts::random_font(random);
    let bytes = if damage { damage::damaged(random, &good) } else { good };
    let all_codes = random.once_in(if damage { 300 } else { 40 });
    let limits = random.once_in(if damage { 100 } else { 25 });
    let mut ask = |pair: &Pair| {
        let mut made = read_calls(pair);
        let codes = questions::codes(pair);
        let mut found = questions::found(pair);
        if found.is_empty() {
            found = codes.clone();
        }
        if all_codes {
            made.extend(questions::all_codes().map(|c| Call::new(Glyph, c as u32)));
        }
        if limits {
            let glyph = random.below(pair.rec.bitmaps.count.min(100) as usize + 1) as u16;
            made.extend(questions::limits(pair, glyph, random.pick(&found)));
        }
        for k in 0..if damage { 6 } else { 16 } {
            made.extend(questions::draws(pair, random, if k % 4 == 0 { &codes } else { &found }));
            made.push(questions::text(pair, random, &found, 14));
        }
        made
    };
    try_font(&bytes, tally, true, &mut ask);
}

pub fn random_fonts(tally: &mut Tally, random: &mut Random, count: usize) {
    for _ in 0..count {
        random_font(tally, random, false);
    }
    tally.family("random fonts");
    for _ in 0..3 * count {
        random_font(tally, random, true);
    }
    tally.family("random fonts, damaged");
}

pub fn not_only_utf8(tally: &mut Tally, random: &mut Random) {
    let mut all = utf8::edges();
    all.extend((0..=255u8).flat_map(|a| (0..=255u8).map(move |b| vec![a, b])));
    for _ in 0..3000 {
        let mut text = questions::random_text(random, &['0', '\u{e9}', '\u{20ac}', '\u{1d11e}'], 12).into_bytes();
        if !text.is_empty() {
            let at = random.below(text.len());
            text[at] = random.byte();
        }
        all.push(text);
    }
    for text in &all {
        if let Err(said) = utf8::steps(text, tally) {
            println!("oracle: {said}");
            exit(1);
        }
    }
    all.push([&[b'0'; 65_535][..], b"\xFF"].concat());
    let texts = || all.iter().map(|text| Call { text: text.clone(), ..Call::text("", None).on(9, 0, 3, 1) });
    try_font(F, tally, false, &mut |_| texts().collect());
    tally.family("UTF-8 and what is not");
}

/// a real font, and its twin with a byte after the bitmaps given to both sides
fn real_font(bytes: &[u8], tally: &mut Tally, random: &mut Random) {
    let loaded = calls::load(bytes);
    assert_eq!(loaded.refusal, 0, "a real font");
    try_font(bytes, tally, false, &mut |pair| {
        let mut made = questions::tables(pair, 40);
        made.extend(questions::codes(pair).iter().map(|&c| Call::new(Glyph, c as u32)));
        made
    });
    let Some(twin) = twins::twin(bytes, &loaded.rec) else { return tally.not_compared("the font has no twin") };
    let mut both = Vec::new();
    try_font(&twin, tally, false, &mut |pair| {
        both = twins::extended(pair.theirs, &pair.fields, 1);
        Vec::new()
    });
    let mut ask = |pair: &Pair| {
        let mut made = questions::tables(pair, 65_535);
        made.push(Call::new(Vet, 0));
        let has_glyph = |&c: &char| reading::glyph(pair.ours, &pair.rec, c as u32).is_some();
        let found: Vec<char> = questions::all_codes().filter(has_glyph).collect();
        made.extend(questions::all_codes().map(|c| Call::new(Glyph, c as u32)));
        made.extend(found.iter().map(|&c| Call::new(PrepChar, c as u32)));
        for scale in 1..=3 {
            for _ in 0..40 {
                let code = random.pick(&found);
                made.push(Call::new(DrawChar, code as u32).on(60 * scale * 50 * scale, 3, 60 * scale, scale));
            }
            for _ in 0..6 {
                let text = questions::random_text(random, &found, 24);
                let wrap = random.pick(&[None, Some(120 * scale as u64 + 1)]);
                made.push(Call::text(&text, wrap).on(120 * scale * 150 * scale, 0, 120 * scale, scale));
            }
        }
        for _ in 0..60 {
            made.extend(questions::draws(pair, random, &found));
        }
        made
    };
    try_font(&both, tally, false, &mut ask);
}

/// a real font with its rows in another order, for the port; 000 has them in the usual one
fn real_font_in_order(bytes: &[u8], turn: usize, tally: &mut Tally, random: &mut Random) {
    let rec = calls::load(bytes).rec;
    let others = orders::others(rec.bitmaps.pad);
    let table = orders::in_order(bytes, &rec, others[turn % others.len()]);
    let Some(made) = twins::with_bitmaps(bytes, &rec, table) else { return tally.not_compared("the font has no twin") };
    let mut ask = |pair: &Pair| {
        let has_glyph = |&c: &char| reading::glyph(pair.ours, &pair.rec, c as u32).is_some();
        let found: Vec<char> = questions::all_codes().filter(has_glyph).collect();
        let mut made = Vec::new();
        for scale in [1, 1, 2, 3] {
            for _ in 0..10 {
                let code = random.pick(&found) as u32;
                made.push(Call::new(DrawChar, code).on(60 * scale * 50 * scale, 3, 60 * scale, scale));
            }
            let text = questions::random_text(random, &found, 24);
            made.push(Call::text(&text, Some(120 * scale as u64 + 1)).on(120 * scale * 150, 0, 120 * scale, scale));
        }
        for _ in 0..10 {
            made.extend(questions::draws(pair, random, &found));
        }
        made
    };
    try_font(&made, tally, false, &mut ask);
}

pub fn real_fonts(folder: &str, tally: &mut Tally, random: &mut Random) {
    let files = std::fs::read_dir(folder).expect("the folder with fonts").flatten();
    let mut paths: Vec<_> = files.map(|file| file.path()).collect();
    paths.sort();
    let fonts: Vec<Vec<u8>> = paths.iter().map(|path| std::fs::read(path).expect("a font file")).collect();
    fonts.iter().for_each(|font| real_font(font, tally, random));
    tally.family(&format!("{} real fonts", fonts.len()));
    fonts.iter().enumerate().for_each(|(turn, font)| real_font_in_order(font, turn, tally, random));
    tally.family(&format!("{} real fonts, their rows in other orders by turns", fonts.len()));
}

pub fn listed_inputs(tally: &mut Tally) {
    for one in listed::all() {
        try_font(&listed::bytes_of(one.font), tally, true, &mut |_| match one.call.function {
            Load => Vec::new(),
            _ => vec![one.call.clone()],
        });
    }
    let untrue = listed::untrue();
    untrue.iter().for_each(|line| println!("oracle: departures.txt: {line}"));
    if !untrue.is_empty() {
        exit(1);
    }
    tally.family("the listed departures, each with the answers that departures.txt has");
}
