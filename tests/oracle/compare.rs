//! Compares the answers. Where 000 returns, the port equals it; where 000 answers None, the port has the number for it;
//! where 000 does not return, the port refuses; and a refusal leaves the buffer as it was. Else a departure applies.
use crate::asked::{Call, Function, Function::*};
use crate::departures::{self as departing, Departure, Sight};
use crate::reading::{self, rows_drawn, Drawing};
use crate::sides::{caught, of_metrics, our, their, untouched, Aligned, Given, Kind, Our, Pair, Their, Theirs, Values};
use crate::structs::Record;
use crate::tally::Tally;
use crate::{calls, texts, twins, utf8, vetting};

/// what is wrong
pub type Verdict = Result<(), String>;

pub fn wrong<T>(what: &str) -> Result<T, String> {
    Err(what.to_string())
}

pub fn hold(true_: bool, what: &str) -> Verdict {
    if true_ {
        Ok(())
    } else {
        wrong(what)
    }
}

// ---- the rule

/// what the port answers where 000 answers None
fn number_of_none(function: Function) -> u32 {
    match function {
        Glyph | PrepChar | DrawChar => 9,
        Name => 17,
        Metrics => 10,
        DrawBitmap => 12,
        _ => 0,
    }
}

/// what the port may answer where 000 does not return
fn numbers_of_stopped(function: Function) -> &'static [u32] {
    match function {
        Property => &[17, 18],
        Name => &[18],
        Dimensions => &[11],
        PrepChar => &[9, 10, 11],
        DrawBitmap | DrawGlyph | UnpackGlyph => &[13, 14, 16],
        DrawChar => &[9, 10, 11, 13, 14, 16],
        DrawString => &[10, 13, 14, 16],
        _ => &[],
    }
}

pub fn same(function: Function, their: &Their, our: &Our) -> Verdict {
    if our.refusal != 0 {
        hold(untouched(&our.page), "a refusal touched the buffer")?;
        hold(our.values == [0; 6] && our.rows == [0, 0], "a refusal with values")?;
    } else {
        hold(our.place == 0, "a place without a refusal")?;
    }
    match their.kind {
        Kind::Returned => {
            hold(our.refusal == 0, "000 returned, the port refused")?;
            hold(their.values == our.values, "the answers differ")?;
            hold(their.page == our.page, "the buffers differ")
        }
        Kind::Nothing => {
            hold((our.refusal, our.place) == (number_of_none(function), 0), "000 answered None, the port otherwise")
        }
        Kind::Stopped => {
            hold(our.refusal != 0, "000 did not return, the port did")?;
            hold(numbers_of_stopped(function).contains(&our.refusal), "a number that this refusal cannot have")?;
            hold(our.place == 0 || function == DrawString, "a place outside a text")
        }
    }
}

fn refused(our: &Our, number: u32, place: usize) -> Verdict {
    hold((our.refusal, our.place) == (number, place), "the port's refusal is another one")?;
    hold(untouched(&our.page), "a refusal touched the buffer")?;
    hold(our.values == [0; 6] && our.rows == [0, 0], "a refusal with values")
}

/// One call on both sides.
pub fn call(pair: &Pair, call: &Call, tally: &mut Tally) -> Verdict {
    if call.function == Vet {
        return vetting::compare(pair, tally);
    }
    let our = our(pair.ours, pair.rec, call);
    if !call.within_limits() {
        tally.outside += 1;
        return refused(&our, 15, 0);
    }
    if call.function == DrawString {
        if let Some(place) = utf8::not_a_text(&call.text) {
            tally.utf8 += 1;
            return refused(&our, 19, place);
        }
    }
    let mut their = their(pair.theirs, call);
    tally.called(call.function, their.kind);
    if their.kind == Kind::Returned && !untouched(&their.page) {
        tally.coloured(call.function);
    }
    in_our_places(pair, call.function, &mut their.values, their.kind);
    let asked = Asked { pair, call, their: &their, our: &our };
    match call.function {
        Glyph => asked.glyph(tally),
        Metrics => asked.metrics(tally),
        Dimensions => asked.dimensions(tally),
        PrepChar | DrawChar => asked.character(tally),
        DrawBitmap => asked.drawing(asked.given(call.start), tally),
        DrawGlyph => {
            let pads = call.stride * call.scale * call.pad_top + call.scale * call.pad_left;
            asked.drawing(asked.given(call.start + pads), tally)
        }
        UnpackGlyph => asked.unpacking(tally),
        Property => {
            same(call.function, &their, &our)?;
            let number = if call.number < pair.rec.props.count { 18 } else { 17 };
            hold(our.refusal == 0 || our.refusal == number, "a property's refusal is another one")
        }
        DrawString => texts::compare(pair, call, &their, &our, tally),
        _ => same(call.function, &their, &our),
    }
}

/// a twin's strings stand elsewhere
fn in_our_places(pair: &Pair, function: Function, values: &mut Values, kind: Kind) {
    let moved = |at: u64, from: usize, to: u64| at.wrapping_sub(from as u64).wrapping_add(to);
    let (t, o) = (&pair.fields, &pair.rec);
    match function {
        Name if kind == Kind::Returned => values[0] = moved(values[0], t.names.data.start, o.names.strings),
        Property if kind == Kind::Returned => {
            values[0] = moved(values[0], t.props.data.start, o.props.strings);
            if values[2] == 1 {
                values[4] = moved(values[4], t.props.data.start, o.props.strings);
            }
        }
        _ => (),
    }
}

struct Asked<'a> {
    pair: &'a Pair<'a>,
    call: &'a Call,
    their: &'a Their,
    our: &'a Our,
}

impl Asked<'_> {
    fn same(&self) -> Verdict {
        same(self.call.function, self.their, self.our)
    }

    fn rec(&self) -> &Record {
        &self.pair.rec
    }

    fn nothing(&self) -> Verdict {
        hold(self.their.kind == Kind::Nothing, "000 finds a glyph that it should not see")?;
        hold(untouched(&self.their.page), "000 drew a glyph that it does not see")
    }

    /// departure 3: 000 answers for the lower 16 bits
    fn folded(&self, tally: &mut Tally) -> Verdict {
        tally.used(Departure::Folded);
        refused(self.our, 9, 0)?;
        let low = Call { number: self.call.number & 0xFFFF, ..self.call.clone() };
        if self.call.function == Glyph {
            let glyph = reading::glyph(self.pair.ours, self.rec(), low.number).map(u64::from);
            hold(glyph == Some(self.their.values[0]), "000's glyph is not that of the lower 16 bits")?;
        }
        if char::from_u32(low.number).is_none() {
            if self.call.function != Glyph {
                tally.not_compared("the lower 16 bits are no character");
            }
            return Ok(());
        }
        hold(their(self.pair.theirs, &low) == *self.their, "000 does not take the lower 16 bits")
    }

    fn glyph(&self, tally: &mut Tally) -> Verdict {
        match departing::sight(self.pair, self.call.number) {
            Sight::AsThePort => {
                hold(self.their.kind != Kind::Stopped, "000 did not return")?;
                self.same()
            }
            Sight::Below => {
                hold(self.their.kind == Kind::Stopped, "000 returned below the first code")?;
                refused(self.our, 9, 0)
            }
            Sight::Unseen => {
                tally.used(Departure::HalfUnseen);
                self.nothing()?;
                let glyph = reading::glyph(self.pair.ours, self.rec(), self.call.number).map(u64::from);
                let found = self.our.refusal == 0 && glyph == Some(self.our.values[0]);
                hold(found, "the port's glyph is not the entry's")
            }
            Sight::Folded => self.folded(tally),
        }
    }

    fn metrics(&self, tally: &mut Tally) -> Verdict {
        let glyph = self.call.number as u16;
        if !departing::from_six(self.pair, glyph) {
            return self.same();
        }
        tally.used(Departure::FromSix);
        let read = |sooner| reading::metrics(self.pair.ours, self.rec(), glyph, sooner).map(|m| of_metrics(&m));
        hold(Some(self.their.values) == read(2), "000's metrics are not those from byte 6")?;
        hold(self.our.refusal == 0 && Some(self.our.values) == read(0), "the port's are not those from byte 8")
    }

    fn dimensions(&self, tally: &mut Tally) -> Verdict {
        if !departing::bounds_outside(self.pair) {
            return self.same();
        }
        if self.their.kind == Kind::Returned {
            tally.used(Departure::BoundsOutside);
        }
        let max = &self.rec().accel.maxbounds;
        let wide = |n: i16| n as i64 as u64;
        match max.ascent.checked_add(max.descent) {
            None => hold(self.their.kind == Kind::Stopped, "000 adds bounds without a panic")?,
            Some(sum) => hold(self.their.values[..2] == [wide(sum), wide(max.width)], "000's dimensions")?,
        }
        refused(self.our, 11, 0)
    }

    /// prep_char and draw_char
    fn character(&self, tally: &mut Tally) -> Verdict {
        match departing::sight(self.pair, self.call.number) {
            Sight::AsThePort => (),
            Sight::Below => {
                hold(self.their.kind == Kind::Stopped, "000 returned below the first code")?;
                return refused(self.our, 9, 0);
            }
            Sight::Unseen => {
                tally.used(Departure::HalfUnseen);
                return self.nothing();
            }
            Sight::Folded => return self.folded(tally),
        }
        let Some(glyph) = reading::glyph(self.pair.ours, self.rec(), self.call.number) else {
            hold(self.their.kind == Kind::Nothing, "000 finds a glyph where there is none")?;
            return self.same();
        };
        let Some(m) = reading::metrics(self.pair.ours, self.rec(), glyph, 0) else {
            hold(self.their.kind == Kind::Stopped, "000 returned for a glyph without metrics")?;
            return refused(self.our, 10, 0);
        };
        if departing::from_six(self.pair, glyph) {
            tally.used(Departure::FromSix);
            return self.as_000_places(glyph, 2);
        }
        if departing::metrics_outside(self.pair, &m) {
            if self.their.kind == Kind::Returned {
                tally.used(Departure::MetricsOutside);
            }
            self.as_000_places(glyph, 0)?;
            return refused(self.our, 11, 0);
        }
        if self.call.function == PrepChar {
            return self.same();
        }
        let (stride, scale) = (self.call.stride, self.call.scale);
        let pad_top = (self.rec().accel.maxbounds.ascent - m.ascent) as usize;
        let at = self.call.start + stride * scale * pad_top + scale * m.left as usize;
        let drawing = Drawing { glyph, width: m.width as usize, height: (m.ascent + m.descent) as usize, at };
        self.drawing(drawing, tally)
    }

    /// 000's placing of metrics that the port reads elsewhere or refuses
    fn as_000_places(&self, glyph: u16, sooner: u64) -> Verdict {
        let m = reading::metrics(self.pair.ours, self.rec(), glyph, sooner).expect("metrics");
        let placed = reading::placed(glyph, &m, &self.rec().accel.maxbounds);
        match (self.their.kind, placed) {
            (Kind::Returned, Some(values)) => hold(self.their.values == values, "000 places otherwise"),
            (Kind::Stopped, None) => Ok(()),
            (Kind::Stopped, Some(_)) => hold(self.call.function == DrawChar, "000 did not return from placing"),
            _ => wrong("000 placed what it should not"),
        }
    }

    fn given(&self, at: usize) -> Drawing {
        Drawing { glyph: self.call.number as u16, width: self.call.width, height: self.call.height, at }
    }

    /// the number where 000 does not return
    fn number(&self, d: &Drawing, rows: usize) -> Verdict {
        let number = || reading::number_of_drawing(self.pair.ours, self.rec(), d, rows);
        hold(self.their.kind != Kind::Stopped || self.our.refusal == number(), "a drawing's refusal is another one")
    }

    fn unpacking(&self, tally: &mut Tally) -> Verdict {
        let d = self.given(0);
        let rows = if reading::has_bitmap(self.rec(), d.glyph) { d.height } else { 0 };
        hold(self.our.refusal != 0 || self.our.rows == [rows as u64, 0], "the rows are not those asked for")?;
        if departing::other_order(self.pair, d.glyph) {
            return self.in_other_order(&d, rows, tally);
        }
        self.same()?;
        self.number(&d, rows)
    }

    /// Rows that the port alone draws: 000 does not return. Given them in the usual order it answers as the port does,
    /// where the data suffice.
    fn in_other_order(&self, d: &Drawing, rows: usize, tally: &mut Tally) -> Verdict {
        let lacks = reading::lacks_data(self.pair.ours, self.rec(), d, rows);
        if self.pair.given != Given::UsualRows {
            tally.used(Departure::OtherOrder);
            undrawn(self.their)?;
        }
        if lacks {
            return refused(self.our, 14, 0);
        }
        if self.pair.given != Given::UsualRows {
            return hold(matches!(self.our.refusal, 0 | 16), "a number that this refusal cannot have");
        }
        self.same()?;
        self.number(d, rows)?;
        as_in_usual_rows(self.pair, self.call, self.our, tally)
    }

    fn drawing(&self, d: Drawing, tally: &mut Tally) -> Verdict {
        let (len, stride, scale) = (self.call.len, self.call.stride, self.call.scale);
        let drawn = if reading::has_bitmap(self.rec(), d.glyph) { rows_drawn(&d, len, stride, scale) } else { 0 };
        let height = if reading::has_bitmap(self.rec(), d.glyph) { d.height } else { 0 };
        let rows = [drawn as u64, (height - drawn) as u64];
        hold(self.our.refusal != 0 || self.our.rows == rows, "the rows are not those that fit")?;
        if departing::other_order(self.pair, d.glyph) {
            return self.in_other_order(&d, drawn, tally);
        }
        match departing::byte_past_drawn(self.pair, &d, len, stride, scale) {
            None => {
                self.same()?;
                self.number(&d, drawn)
            }
            Some(more) => {
                tally.used(Departure::BytePast);
                hold(self.their.kind == Kind::Stopped, "000 returned without the byte past the row")?;
                match with_more(self.pair, self.call, more, tally) {
                    Some(their) => same(self.call.function, &their, self.our),
                    None => hold(self.our.refusal == 0 && untouched(&self.our.page), "a row without bytes"),
                }
            }
        }
    }
}

/// 000 does not return, and has coloured nothing, where rows are in another order than its own
pub fn undrawn(their: &Their) -> Verdict {
    hold(their.kind == Kind::Stopped && untouched(&their.page), "000 draws rows in another order")
}

/// The port answers for the twin in the usual order, which 000 was given, what it answers for the font itself. Not so
/// where metrics of 12 bytes are where 000 looks for them.
pub fn as_in_usual_rows(pair: &Pair, call: &Call, our_: &Our, tally: &mut Tally) -> Verdict {
    tally.in_usual_rows(!untouched(&our_.page));
    let rec = calls::load(pair.theirs.data).rec;
    let same = !rec.metrics.compressed || our(pair.theirs.data, rec, call) == *our_;
    hold(same, "the port answers otherwise for the same rows in the usual order")
}

/// 000's answer with so many more bytes after the bitmaps, or None if they are too many
pub fn with_more(pair: &Pair, call: &Call, more: u64, tally: &mut Tally) -> Option<Their> {
    if more > 1 << 20 {
        return None;
    }
    let made = Aligned::new(&twins::extended(pair.theirs, &pair.fields, more as usize));
    let font = caught(|| original::load_pcf(made.bytes())).expect("a font").expect("a font");
    let answer = their(Theirs { data: made.bytes(), font: &font }, call);
    tally.called(call.function, answer.kind);
    Some(answer)
}
