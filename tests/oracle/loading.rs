//! Compares loading: what both sides keep of a font. The pair of them is what calls are made with.
use crate::asked::Function::Load;
use crate::compare::{hold, wrong, Verdict};
use crate::departures::{self as departing, Departure};
use crate::reading;
use crate::sides::{caught, Aligned, Askew, Given, Kind, Pair, Theirs};
use crate::structs::Accelerators;
use crate::tally::Tally;
use crate::{calls, orders, strict, twins};
use original::plain;

/// what is done with a pair
pub type Then<'a> = &'a mut dyn FnMut(&Pair, &mut Tally) -> Verdict;

/// Loads a font on both sides; where both do, the pair is used further.
fn both(bytes: &[u8], tally: &mut Tally, then: Then) -> Verdict {
    tally.fonts += 1;
    let aligned = Aligned::new(bytes);
    let their = caught(|| original::load_pcf(aligned.bytes()));
    let kind = match &their {
        None => Kind::Stopped,
        Some(Err(())) => Kind::Nothing,
        Some(Ok(_)) => Kind::Returned,
    };
    tally.called(Load, kind);
    let askew = Askew::new(bytes, tally.fonts);
    let our = calls::load(askew.bytes());
    strict::compare(askew.bytes(), &our, tally)?;
    let applying = departing::of_loading(bytes);
    for &(departure, _) in &applying {
        let differs = if departure.stops_loading() { our.refusal == 0 } else { kind == Kind::Returned };
        if differs {
            tally.used(departure);
        }
    }
    let short = applying.iter().find(|(d, _)| matches!(d, Departure::ShortCodes | Departure::ShortMetrics));
    let many = applying.contains(&(Departure::ManyEntries, 0));
    if applying.iter().any(|(departure, _)| departure.stops_loading()) {
        hold(kind == Kind::Stopped, "000 loads a font over which it should panic")?;
    }
    if many {
        hold((our.refusal, our.place) == (3, 0), "the port does not refuse many entries")?;
    } else if let Some(&(_, entry)) = short {
        // an entry before it can be refused too, but then 000 does not return
        let at_it = our.refusal == 6 && our.place == entry as u64;
        let sooner = kind == Kind::Stopped && (5..=7).contains(&our.refusal) && our.place <= entry as u64;
        hold(at_it || sooner || our.refusal == 4, "the port does not refuse a short table")?;
    }
    let departs = many || short.is_some();
    match (their, our.refusal) {
        (Some(Ok(font)), 0) => {
            let theirs = Theirs { data: aligned.bytes(), font: &font };
            let fields = plain::fields(&font, aligned.bytes());
            let pair = Pair { theirs, fields, ours: askew.bytes(), rec: our.rec, given: Given::Itself };
            hold(our.place == 0, "a place without a refusal")?;
            same_fields(&pair, tally)?;
            then(&pair, tally)
        }
        (Some(Ok(_)), _) => hold(departs, "000 loads, the port refuses"),
        (Some(Err(())), number) => hold((number, our.place) == (2, 0), "000 answers Err, the port not 2"),
        (None, 0) => hold(applying.iter().any(|(d, _)| d.stops_loading()), "the port loads, 000 does not return"),
        (None, number) => hold(departing::may_refuse(bytes, number, our.place as usize), "not a refusal of this font"),
    }
}

/// A font of which 000 is given this.
pub fn given(given: Given, bytes: &[u8], tally: &mut Tally, then: Then) -> Verdict {
    match given {
        Given::Itself => both(bytes, tally, then),
        _ => with_twin(given, bytes, tally, then),
    }
}

/// The twin of a font that the port loads: 000 has to load it too. One with the rows in the usual order there is where
/// the font has another one that the port draws.
fn with_twin(given: Given, bytes: &[u8], tally: &mut Tally, then: Then) -> Verdict {
    let our = calls::load(bytes);
    if our.refusal != 0 || given == Given::UsualRows && !orders::other(&our.rec) {
        return Ok(());
    }
    let Some(made) = twins::given(given, bytes, &our.rec) else {
        tally.not_compared("the font has no twin");
        return Ok(());
    };
    let aligned = Aligned::new(&made);
    let their = caught(|| original::load_pcf(aligned.bytes()));
    tally.fonts += 1;
    let Some(Ok(font)) = their else {
        tally.called(Load, Kind::Stopped);
        return wrong("000 does not load the twin");
    };
    tally.called(Load, Kind::Returned);
    let theirs = Theirs { data: aligned.bytes(), font: &font };
    let fields = plain::fields(&font, aligned.bytes());
    let pair = Pair { theirs, fields, ours: bytes, rec: our.rec, given };
    same_fields(&pair, tally)?;
    then(&pair, tally)
}

fn same_fields(pair: &Pair, tally: &mut Tally) -> Verdict {
    let (t, o) = (&pair.fields, &pair.rec);
    if departing::unit_shift(o) {
        tally.used(Departure::UnitShift);
    }
    let in_place = |table: &plain::Table, at: u64, data: u64| {
        pair.twin() || table.at as u64 == at && table.data.start as u64 == data
    };
    let sized = |table: &plain::Table, big: bool, count: u32, size: u64| {
        table.big == big && table.count == count as usize && table.data.len as u64 == size
    };
    hold(sized(&t.props, o.props.big, o.props.count, o.props.size), "properties differ")?;
    hold(in_place(&t.props, o.props.records, o.props.strings), "the properties' places differ")?;
    let (size, in_usual_rows) = (o.bitmaps.size, pair.given == Given::UsualRows);
    let size = if in_usual_rows { t.bitmaps.data.len as u64 } else { size };
    hold(sized(&t.bitmaps, o.bitmaps.big, o.bitmaps.count, size), "bitmaps differ")?;
    hold(in_place(&t.bitmaps, o.bitmaps.offsets, o.bitmaps.bits), "the bitmaps' places differ")?;
    hold(sized(&t.names, o.names.big, o.names.count, o.names.size), "names differ")?;
    hold(in_place(&t.names, o.names.offsets, o.names.strings), "the names' places differ")?;
    hold(1 << t.pad_mode == o.bitmaps.pad, "the row pad differs")?;
    if !in_usual_rows {
        hold(t.size_mode == 2 * o.bitmaps.unit, "000's scan unit is not twice the port's")?;
        hold(t.least_bit_first == o.bitmaps.top, "the bit order differs")?;
    }
    same_codes(pair)?;
    let (m, of) = (&t.metrics, &o.metrics);
    hold(m.count == of.count as usize, "the metrics' count differs")?;
    if !pair.twin() {
        hold(m.compressed == of.compressed, "compression differs")?;
        hold(m.at as u64 + if of.compressed { 0 } else { 2 } == of.records, "the metrics' place differs")?;
        hold(m.big.map_or(of.compressed, |big| big == of.big), "the metrics' byte order differs")?;
    }
    hold(same_accelerators(pair.theirs, &o.accel), "accelerators differ")
}

fn same_codes(pair: &Pair) -> Verdict {
    let (t, o) = (&pair.fields.codes, &pair.rec.codes);
    let entries = reading::entries(&pair.rec);
    hold(t.big == o.big, "the codes' byte order differs")?;
    hold(t.char_mode == reading::is_char_mode(&pair.rec), "the code mode differs")?;
    hold((t.low2, t.low1) == (o.low2.into(), o.low1.into()), "the first codes differ")?;
    let default = reading::u16_at(pair.ours, o.entries as usize - 2, o.big);
    hold(o.default_code == default, "the default code, which 000 does not keep, is not the table's")?;
    hold(o.size == 2 * entries, "the port's entries have not two bytes each")?;
    if pair.twin() {
        return hold(t.count as u64 == entries, "000 does not see all of the twin's entries");
    }
    hold((t.high2, t.high1) == (o.high2.into(), o.high1.into()), "the last codes differ")?;
    hold(t.at as u64 == o.entries, "the entries' place differs")?;
    hold(t.count as u64 == entries / 2, "000 does not see half of the entries")
}

fn same_accelerators(theirs: Theirs, o: &Accelerators) -> bool {
    let t = &theirs.font.accelerator_data;
    let bytes = [
        (t.noOverlap, o.no_overlap),
        (t.constantMetrics, o.constant_metrics),
        (t.terminalFont, o.terminal_font),
        (t.constantWidth, o.constant_width),
        (t.inkInside, o.ink_inside),
        (t.inkMetrics, o.ink_metrics),
        (t.drawDirection, o.draw_direction),
        (t.padding, o.padding),
    ];
    let numbers = [(t.fontAscent, o.font_ascent), (t.fontDescent, o.font_descent), (t.maxOverlap, o.max_overlap)];
    let bounds = [(&t.minbounds, &o.minbounds), (&t.maxbounds, &o.maxbounds)];
    t.format.0 == o.format
        && bytes.iter().all(|(a, b)| a == b)
        && numbers.iter().all(|(a, b)| a == b)
        && bounds.iter().all(|(a, b)| {
            (a.left_sided_bearing, a.right_side_bearing, a.character_width) == (b.left, b.right, b.width)
                && (a.character_ascent, a.character_descent) == (b.ascent, b.descent)
                && a.character_attributes == b.attributes
        })
}
