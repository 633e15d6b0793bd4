//! The lines of each table, with how a line's case is made.
use crate::cases::{Case, Drawing, Font};
use crate::glyphs::{Glyphs, Unpacked};
use crate::orders::InOrder;
use crate::reading::{Load, Lookup, NoBytes, Vet};
use crate::texts::{Text, TextCheck};
use std::collections::{BTreeSet, HashMap};

/// 60 characters as a meter's panel may have them.
const READING: &str = "Meter 12 345.678 kWh; water 3.07 m3; heating 21 C; total 948";
const SIZES: [&str; 3] = ["6x12", "8x16", "16x32"];
const SCALES: [usize; 4] = [1, 2, 4, 8];

type Fonts = HashMap<String, &'static Font>;
type Make = Box<dyn Fn(&Fonts) -> Box<dyn Case>>;

pub struct Line {
    pub table: &'static str,
    pub call: &'static str,
    pub font: String,
    /// The scale, 0 for a call that has none; in the tables of growth what grows.
    pub at: usize,
    pub make: Make,
}

impl Line {
    /// What tells it from the others, with tabs between its parts.
    pub fn key(&self) -> String {
        format!("{}\t{}\t{}\t{}", self.table, self.call, self.font, self.at)
    }
}

fn line(table: &'static str, call: &'static str, font: &str, at: usize, make: impl CaseOf) -> Line {
    let name = font.to_string();
    let make: Make = Box::new(move |fonts| make(fonts[&name]));
    Line { table, call, font: font.to_string(), at, make }
}

trait CaseOf: Fn(&'static Font) -> Box<dyn Case> + 'static {}
impl<F: Fn(&'static Font) -> Box<dyn Case> + 'static> CaseOf for F {}

fn text_of(length: usize) -> String {
    READING.chars().cycle().take(length).collect()
}

fn drawing(all: &mut Vec<Line>) {
    for size in SIZES {
        for scale in 1..=8 {
            all.push(line("calls", "draw_glyph", size, scale, move |f| Box::new(Glyphs::of(f, scale))));
        }
    }
    for size in SIZES {
        for scale in SCALES {
            all.push(line("calls", "draw_string", size, scale, move |f| Box::new(Text::on_a_line(f, READING, scale))));
        }
    }
    for size in SIZES {
        for scale in [1, 2] {
            all.push(line("calls", "draw_string, wrapped", size, scale, move |f| {
                Box::new(Text::wrapped(f, READING, 20, scale))
            }));
        }
    }
    for size in SIZES {
        all.push(line("calls", "draw_string, spaces", size, 1, |f| Box::new(Text::on_a_line(f, &" ".repeat(60), 1))));
    }
    for size in SIZES {
        all.push(line("calls", "text_check", size, 1, |f| Box::new(TextCheck(Text::on_a_line(f, READING, 1)))));
    }
    for size in SIZES {
        all.push(line("calls", "unpack_glyph", size, 0, |f| Box::new(Unpacked::of(f))));
    }
}

fn reading(all: &mut Vec<Line>) {
    for font in ["8x16", "unifont"] {
        all.push(line("calls", "load", font, 0, |f| Box::new(Load(f))));
    }
    for font in ["8x16", "unifont"] {
        all.push(line("calls", "lookup", font, 0, |f| Box::new(Lookup::of(f, 65536))));
    }
    all.push(line("calls", "lookup, no bytes", "unifont", 0, |f| Box::new(NoBytes(Lookup::of(f, 65536)))));
    for font in ["8x16", "unifont"] {
        all.push(line("calls", "vet", font, 0, |f| Box::new(Vet(f))));
    }
}

/// `sizes` and `codes` name the fonts made for them, with what grows.
fn growth(all: &mut Vec<Line>, sizes: &[(String, usize)], codes: &[(String, usize)]) {
    for length in [1, 10, 100, 1000, 10000] {
        all.push(line("length", "draw_string", "8x16", length, move |f| {
            Box::new(Text::wrapped(f, &text_of(length), 40, 1))
        }));
    }
    for scale in 1..=8 {
        all.push(line("scale", "draw_string", "8x16", scale, move |f| Box::new(Text::on_a_line(f, READING, scale))));
    }
    for (font, pixels) in sizes {
        all.push(line("size", "draw_glyph", font, *pixels, |f| Box::new(Glyphs::of(f, 1))));
    }
    for (font, count) in codes {
        let count = *count;
        all.push(line("codes", "load", font, count, |f| Box::new(Load(f))));
        all.push(line("codes", "lookup", font, count, move |f| Box::new(Lookup::of(f, count as u32))));
        all.push(line("codes", "vet", font, count, |f| Box::new(Vet(f))));
    }
}

/// A call with the font of a size in another order, beside the same with that font in the usual one.
fn line_in_order<C: Drawing + 'static>(
    call: &'static str,
    size: &str,
    order: &str,
    at: usize,
    case: impl Fn(&'static Font) -> C + 'static,
) -> Line {
    let (font, usual) = (format!("{size}, {order}"), size.to_string());
    let other = font.clone();
    let make: Make = Box::new(move |fonts| Box::new(InOrder::of(fonts[&other], fonts[&usual], &case)));
    Line { table: "orders", call, font, at, make }
}

fn other_order(all: &mut Vec<Line>, order: &str) {
    for size in SIZES {
        for scale in SCALES {
            let case = move |f| Text::on_a_line(f, READING, scale);
            all.push(line_in_order("draw_string", size, order, scale, case));
        }
    }
    for size in SIZES {
        all.push(line_in_order("draw_glyph", size, order, 1, |f| Glyphs::of(f, 1)));
    }
    for size in SIZES {
        all.push(line_in_order("unpack_glyph", size, order, 0, Unpacked::of));
    }
}

/// All lines. A font that is named by its size, as 8x16, stands in the table of sizes; one named by its size and an
/// order of rows, with a comma, in the table of orders; one named by a number of codes, as unifont-256, in the table of
/// codes.
pub fn lines(fonts: &Fonts) -> Vec<Line> {
    let mut sizes = Vec::new();
    let mut orders = BTreeSet::new();
    let mut codes = Vec::new();
    for (name, font) in fonts {
        if let Some((_, order)) = name.split_once(", ") {
            orders.insert(order);
        } else if let Some((_, count)) = name.split_once('-') {
            codes.push((name.clone(), count.parse().expect("a number of codes")));
        } else if name.contains('x') {
            let (height, width) = font.extent();
            sizes.push((name.clone(), width * height));
        }
    }
    sizes.sort_by_key(|(_, pixels)| *pixels);
    codes.sort_by_key(|(_, count)| *count);
    let mut all = Vec::new();
    drawing(&mut all);
    reading(&mut all);
    for order in orders {
        other_order(&mut all, order);
    }
    growth(&mut all, &sizes, &codes);
    all
}
