//! A text, drawn.
use crate::calls;
use crate::cases::{numbers, on_cleared, Case, Drawing, Font, Side, COLOUR, NO_WRAP};
use crate::structs::{TextAnswer, TextRows};
use std::hint::black_box;

/// All sides draw on the one page, which is never cleared while time is taken.
pub struct Text {
    call: TextCall,
    page: Vec<u32>,
}

struct TextCall {
    font: &'static Font,
    text: String,
    wrap: u64,
    stride: usize,
    scale: usize,
}

impl TextCall {
    fn port(&self, page: &mut [u32]) -> TextAnswer {
        let Font { bytes, rec, .. } = self.font;
        calls::draw_string(bytes, *rec, self.text.as_bytes(), page, numbers(self.stride, self.scale, self.wrap))
    }

    fn original(&self, page: &mut [u32]) -> usize {
        let wrap = (self.wrap != NO_WRAP).then_some(self.wrap as usize);
        self.font.original.draw_string(&self.text, page, 0, wrap, self.stride, self.scale, COLOUR)
    }

    fn plain(&self, page: &mut [u32]) -> TextRows {
        let text = self.text.as_bytes();
        // SAFETY: the port has drawn the same on a page as long.
        unsafe { self.font.plain.draw_string(text, page, 0, self.wrap, self.stride, self.scale, COLOUR) }
    }
}

impl Text {
    /// On one line, on a page as wide as the text.
    pub fn on_a_line(font: &'static Font, text: &str, scale: usize) -> Text {
        let (_, width) = font.extent();
        Text::on_a_page(font, text, width * text.chars().count() * scale, NO_WRAP, 1, scale)
    }

    /// Wrapped after so many characters of a font in which all are equally wide.
    pub fn wrapped(font: &'static Font, text: &str, columns: usize, scale: usize) -> Text {
        let (_, width) = font.extent();
        let stride = width * columns * scale;
        let lines = text.chars().count().div_ceil(columns);
        Text::on_a_page(font, text, stride, stride as u64 + 1, lines, scale)
    }

    /// The page has some rows more than its lines take, so that none is dropped.
    fn on_a_page(font: &'static Font, text: &str, stride: usize, wrap: u64, lines: usize, scale: usize) -> Text {
        let (height, _) = font.extent();
        let page = vec![0; stride * scale * (height * lines + 1)];
        Text { call: TextCall { font, text: text.to_string(), wrap, stride, scale }, page }
    }
}

impl Case for Text {
    fn sides(&self) -> &'static [Side] {
        &[Side::Port, Side::Original, Side::Plain]
    }

    fn port(&mut self) {
        black_box(self.call.port(&mut self.page));
    }

    fn beside(&mut self) {
        black_box(self.call.original(&mut self.page));
    }

    fn plain(&mut self) {
        black_box(self.call.plain(&mut self.page));
    }

    fn same(&mut self) -> bool {
        let Some(drawn) = self.drawn() else { return false };
        let inked = self.call.text.trim().is_empty() || drawn.1.contains(&COLOUR);
        let (height, page) = on_cleared(self.page.len(), |page| self.call.original(page));
        // 000 does not say how many rows it dropped
        let original = (TextRows { height: height as u64, dropped: 0 }, page);
        let plain = on_cleared(self.page.len(), |page| self.call.plain(page));
        inked && drawn == original && drawn == plain
    }
}

impl Drawing for Text {
    type Drawn = (TextRows, Vec<u32>);
    type Cell = u32;

    fn buffer(&mut self) -> &mut Vec<u32> {
        &mut self.page
    }

    fn drawn(&self) -> Option<Self::Drawn> {
        let (answer, page) = on_cleared(self.page.len(), |page| self.call.port(page));
        (answer.refusal == 0 && answer.rows.dropped == 0).then_some((answer.rows, page))
    }
}

/// The port's first walk over a text alone, the one for the answer, which 000 does not have.
pub struct TextCheck(pub Text);

impl TextCheck {
    fn check(&self) -> TextAnswer {
        let Text { call: TextCall { font, text, wrap, stride, scale }, page } = &self.0;
        let numbers = numbers(*stride, *scale, *wrap);
        calls::text_check(font.bytes, font.rec, text.as_bytes(), page.len() as u64, numbers)
    }
}

impl Case for TextCheck {
    fn sides(&self) -> &'static [Side] {
        &[Side::Port]
    }

    fn port(&mut self) {
        black_box(self.check());
    }

    fn same(&mut self) -> bool {
        self.check().refusal == 0
    }
}
