//! What is asked of a font without drawing.
use crate::calls;
use crate::cases::{Case, Font, Side};
use crate::structs::{CharCode, PLAIN};
use original::{plain, LoadedPCF};
use std::hint::black_box;

pub struct Load(pub &'static Font);

impl Case for Load {
    fn sides(&self) -> &'static [Side] {
        &[Side::Port, Side::Original]
    }

    fn port(&mut self) {
        black_box(calls::load(black_box(self.0.bytes)));
    }

    fn beside(&mut self) {
        let _ = black_box(original::load_pcf(black_box(self.0.bytes)));
    }

    fn same(&mut self) -> bool {
        // each side's count of glyphs with metrics, bitmaps and names
        let fields = plain::fields(&self.0.original, self.0.bytes);
        let rec = calls::load(self.0.bytes).rec;
        let counts = [rec.metrics.count, rec.bitmaps.count, rec.names.count].map(|count| count as usize);
        counts == [fields.metrics.count, fields.bitmaps.count, fields.names.count]
    }
}

/// Vetting, which 000 does not have.
pub struct Vet(pub &'static Font);

impl Case for Vet {
    fn sides(&self) -> &'static [Side] {
        &[Side::Port]
    }

    fn port(&mut self) {
        black_box(calls::vet(black_box(self.0.bytes), PLAIN));
    }

    fn same(&mut self) -> bool {
        calls::vet(self.0.bytes, PLAIN).refusal == 0
    }
}

/// Each of a font's first codes that is a `char`, since 000 takes no other.
pub struct Lookup {
    font: &'static Font,
    codes: Vec<char>,
}

impl Lookup {
    pub fn of(font: &'static Font, count: u32) -> Lookup {
        Lookup { font, codes: (0..count).filter_map(char::from_u32).collect() }
    }
}

/// As far from its caller as the port's function is.
#[inline(never)]
fn original_glyph(font: &LoadedPCF, code: char) -> Option<u16> {
    plain::glyph(font, code)
}

impl Case for Lookup {
    fn sides(&self) -> &'static [Side] {
        &[Side::Port, Side::Original]
    }

    fn port(&mut self) {
        let Font { bytes, rec, .. } = self.font;
        for &code in &self.codes {
            black_box(calls::glyph(bytes, *rec, CharCode::from(code), PLAIN));
        }
    }

    fn beside(&mut self) {
        for &code in &self.codes {
            black_box(original_glyph(&self.font.original, code));
        }
    }

    fn same(&mut self) -> bool {
        let Font { bytes, rec, original, .. } = self.font;
        self.codes.iter().all(|&code| {
            let found = calls::glyph(bytes, *rec, CharCode::from(code), PLAIN);
            let glyph = (found.refusal == 0).then_some(found.glyph.0);
            glyph == plain::glyph(original, code) && (glyph.is_some() || found.refusal == 9)
        })
    }

    fn per(&self) -> usize {
        self.codes.len()
    }
}

/// A lookup with no bytes, which the test of the record refuses: what a call with a record takes at least.
pub struct NoBytes(pub Lookup);

impl Case for NoBytes {
    fn sides(&self) -> &'static [Side] {
        &[Side::Port]
    }

    fn port(&mut self) {
        for &code in &self.0.codes {
            black_box(calls::glyph(&[], self.0.font.rec, CharCode::from(code), PLAIN));
        }
    }

    fn same(&mut self) -> bool {
        calls::glyph(&[], self.0.font.rec, CharCode::from('0'), PLAIN).refusal == 6
    }

    fn per(&self) -> usize {
        self.0.codes.len()
    }
}
