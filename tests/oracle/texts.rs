//! Compares the drawing of texts.
use crate::asked::{Call, Function::DrawString};
use crate::calls;
use crate::compare::{as_in_usual_rows, hold, same, undrawn, with_more, wrong, Verdict};
use crate::departures::{self as departing, Departure, Sight};
use crate::reading::{self, rows_drawn, Drawing};
use crate::sides::{numbers, our, their, untouched, Given, Kind, Our, Pair, Their};
use crate::tally::Tally;

fn characters(call: &Call) -> impl Iterator<Item = (usize, char)> + '_ {
    std::str::from_utf8(&call.text).expect("a text").char_indices()
}

fn is_line_end(c: char) -> bool {
    c == '\r' || c == '\n'
}

/// The glyphs of a text where they are drawn, up to the first character with refusal 10 or 11: its place and number.
struct Walk {
    places: Vec<usize>,
    drawn: Vec<Drawing>,
    ends: Option<(usize, u32)>,
}

fn walk(pair: &Pair, call: &Call) -> Walk {
    let (max, scale) = (&pair.rec.accel.maxbounds, call.scale);
    let line = scale * (max.ascent + max.descent) as usize;
    let (mut x, mut y, mut drawn, mut places) = (0, 0, Vec::new(), Vec::new());
    for (place, c) in characters(call) {
        if c == '\n' {
            (x, y) = (0, y + line);
        }
        if is_line_end(c) {
            continue;
        }
        let Some(glyph) = reading::glyph(pair.ours, &pair.rec, c as u32) else { continue };
        let Some(m) = reading::metrics(pair.ours, &pair.rec, glyph, 0) else {
            return Walk { places, drawn, ends: Some((place, 10)) };
        };
        if departing::metrics_outside(pair, &m) {
            return Walk { places, drawn, ends: Some((place, 11)) };
        }
        let (width, height) = (m.width as usize, (m.ascent + m.descent) as usize);
        if call.wrap.is_some_and(|wrap| (x + width * scale) as u64 >= wrap) {
            (x, y) = (0, y + line);
        }
        let pads = call.stride * scale * (max.ascent - m.ascent) as usize + scale * m.left as usize;
        places.push(place);
        drawn.push(Drawing { glyph, width, height, at: call.start + y * call.stride + x + pads });
        x += width * scale;
    }
    Walk { places, drawn, ends: None }
}

/// a text's drawing by both sides, its text valid and its arguments within limits
pub fn compare(pair: &Pair, call: &Call, their_: &Their, our_: &Our, tally: &mut Tally) -> Verdict {
    dry_run(pair, call, our_)?;
    if departing::bounds_outside(pair) {
        if their_.kind == Kind::Returned {
            tally.used(Departure::BoundsOutside);
        }
        hold((our_.refusal, our_.place) == (11, 0), "the port draws with bounds out of range")?;
        return hold(untouched(&our_.page), "a refusal touched the buffer");
    }
    let seen: Vec<(usize, char, Sight)> = characters(call)
        .map(|(place, c)| {
            let sight = if is_line_end(c) { Sight::AsThePort } else { departing::sight(pair, c as u32) };
            (place, c, sight)
        })
        .collect();
    let has = |sight| seen.iter().any(|(_, _, of)| *of == sight);
    let (below, unseen, folded) = (has(Sight::Below), has(Sight::Unseen), has(Sight::Folded));
    if !below && !unseen && !folded {
        return plainly(pair, call, their_, our_, tally);
    }
    if below {
        tally.used(Departure::BelowFirst);
        hold(their_.kind == Kind::Stopped, "000 returned though a code is below the first")?;
    }
    if unseen {
        tally.used(Departure::HalfUnseen);
    }
    if folded {
        tally.used(Departure::Folded);
    }
    if !unseen {
        as_the_port_sees(pair, call, our_, &seen, tally)?;
    }
    if !below {
        as_000_sees(pair, call, their_, &seen, tally)?;
    }
    Ok(())
}

/// 000 is given the text without the characters that the port skips and 000 does not
fn as_the_port_sees(pair: &Pair, call: &Call, our_: &Our, seen: &[(usize, char, Sight)], tally: &mut Tally) -> Verdict {
    let kept: Vec<_> = seen.iter().filter(|(_, _, sight)| *sight == Sight::AsThePort).collect();
    let text: String = kept.iter().map(|(_, c, _)| c).collect();
    let (mut at, mut place) = (0, 0);
    let shorter = Call { text: text.into_bytes(), ..call.clone() };
    let our_of_it = our(pair.ours, pair.rec, &shorter);
    if our_of_it.refusal != 0 {
        for (old, c, _) in &kept {
            if at == our_of_it.place {
                place = *old;
            }
            at += c.len_utf8();
        }
    }
    hold(*our_ == Our { place, ..our_of_it.clone() }, "a skipped character changes the port's answer")?;
    let their_of_it = their(pair.theirs, &shorter);
    tally.called(DrawString, their_of_it.kind);
    plainly(pair, &shorter, &their_of_it, &our_of_it, tally)
}

/// the port is given the text without the characters that 000 does not see, and with those that 000 takes for others
fn as_000_sees(pair: &Pair, call: &Call, their_: &Their, seen: &[(usize, char, Sight)], tally: &mut Tally) -> Verdict {
    let mut text = String::new();
    for &(_, c, sight) in seen {
        let low = if sight == Sight::Folded { char::from_u32(c as u32 & 0xFFFF) } else { Some(c) };
        match low {
            None => {
                tally.not_compared("the lower 16 bits are no character");
                return Ok(());
            }
            Some(low) if low != c && is_line_end(low) => {
                tally.not_compared("the lower 16 bits are a line's end");
                return Ok(());
            }
            Some(low) if is_line_end(low) || departing::sight(pair, low as u32) == Sight::AsThePort => text.push(low),
            Some(_) => (),
        }
    }
    let changed = Call { text: text.into_bytes(), ..call.clone() };
    let their_of_it = their(pair.theirs, &changed);
    tally.called(DrawString, their_of_it.kind);
    hold(their_of_it == *their_, "000 does not draw what it should see")?;
    let our_of_it = our(pair.ours, pair.rec, &changed);
    plainly(pair, &changed, &their_of_it, &our_of_it, tally)
}

/// a text of which both sides see the same characters
fn plainly(pair: &Pair, call: &Call, their_: &Their, our_: &Our, tally: &mut Tally) -> Verdict {
    let from_six = characters(call).any(|(_, c)| {
        let glyph = reading::glyph(pair.ours, &pair.rec, c as u32);
        !is_line_end(c) && glyph.is_some_and(|glyph| departing::from_six(pair, glyph))
    });
    if from_six {
        tally.used(Departure::FromSix);
        tally.not_compared("a text's 12-byte metrics stand elsewhere for 000 (its twin's are compared)");
        return Ok(());
    }
    let walk = walk(pair, call);
    if let Some((place, number)) = walk.ends {
        return up_to(pair, call, place, number, their_, our_, tally);
    }
    let has_bitmap = |d: &&Drawing| reading::has_bitmap(&pair.rec, d.glyph);
    let rows = |d: &Drawing| rows_drawn(d, call.len, call.stride, call.scale);
    let dropped: usize = walk.drawn.iter().filter(has_bitmap).map(|d| d.height - rows(d)).sum();
    hold(our_.refusal != 0 || our_.rows == [0, dropped as u64], "the dropped rows are not those that do not fit")?;
    let other = |d: &Drawing| departing::other_order(pair, d.glyph);
    if pair.given != Given::UsualRows && walk.drawn.iter().any(other) {
        tally.used(Departure::OtherOrder);
        return undrawn(their_);
    }
    let lacks = |d: &Drawing| other(d) && reading::lacks_data(pair.ours, &pair.rec, d, rows(d));
    if let Some(k) = walk.drawn.iter().position(lacks) {
        return up_to(pair, call, walk.places[k], 14, their_, our_, tally);
    }
    if walk.drawn.iter().any(other) {
        as_in_usual_rows(pair, call, our_, tally)?;
    }
    match walk.drawn.iter().filter_map(|d| departing::byte_past(pair, d, rows(d))).max() {
        None => {
            same(DrawString, their_, our_)?;
            if our_.refusal == 0 {
                return Ok(());
            }
            at_its_place(pair, call, our_.place, tally)?;
            let Some(k) = walk.places.iter().position(|place| *place == our_.place) else {
                return wrong("no glyph is drawn at the place");
            };
            let number = reading::number_of_drawing(pair.ours, &pair.rec, &walk.drawn[k], rows(&walk.drawn[k]));
            hold(our_.refusal == number, "a text's refusal is another one")
        }
        Some(more) => {
            tally.used(Departure::BytePast);
            hold(their_.kind == Kind::Stopped, "000 returned without the byte past the row")?;
            if our_.refusal != 0 {
                return same(DrawString, their_, our_);
            }
            match with_more(pair, call, more, tally) {
                Some(with_it) => same(DrawString, &with_it, our_),
                None => {
                    tally.not_compared("the byte past a row of width 0 is too far away");
                    Ok(())
                }
            }
        }
    }
}

/// a text with a character that the port refuses for its metrics, or of which 000 was given rows that the font has not:
/// those before it decide
fn up_to(
    pair: &Pair,
    call: &Call,
    place: usize,
    number: u32,
    their_: &Their,
    our_: &Our,
    tally: &mut Tally,
) -> Verdict {
    if number == 11 && their_.kind == Kind::Returned {
        tally.used(Departure::MetricsOutside);
    }
    if number == 10 {
        hold(their_.kind == Kind::Stopped, "000 returned for a glyph without metrics")?;
    }
    let before = Call { text: call.text[..place].to_vec(), ..call.clone() };
    let (their_before, our_before) = (their(pair.theirs, &before), our(pair.ours, pair.rec, &before));
    tally.called(DrawString, their_before.kind);
    plainly(pair, &before, &their_before, &our_before, tally)?;
    hold(untouched(&our_.page), "a refusal touched the buffer")?;
    let expected = if our_before.refusal == 0 { (number, place) } else { (our_before.refusal, our_before.place) };
    hold((our_.refusal, our_.place) == expected, "the first character with a refusal does not decide")
}

/// 000 returns for what stands before the refusing character and not with it
fn at_its_place(pair: &Pair, call: &Call, place: usize, tally: &mut Tally) -> Verdict {
    let Some((_, c)) = characters(call).find(|(at, _)| *at == place) else {
        return wrong("no character starts at the place");
    };
    let mut kind_of = |end: usize| {
        let kind = their(pair.theirs, &Call { text: call.text[..end].to_vec(), ..call.clone() }).kind;
        tally.called(DrawString, kind);
        kind
    };
    hold(kind_of(place) == Kind::Returned, "000 does not return even before the place")?;
    hold(kind_of(place + c.len_utf8()) == Kind::Stopped, "000 returns with the character at the place")
}

fn dry_run(pair: &Pair, call: &Call, our_: &Our) -> Verdict {
    let dry = calls::text_check(pair.ours, pair.rec, &call.text, call.len as u64, numbers(call));
    let rows = [dry.rows.height, dry.rows.dropped];
    let same = (dry.refusal, dry.place) == (our_.refusal, our_.place as u64) && rows == [our_.values[0], our_.rows[1]];
    hold(same, "the dry run answers otherwise")
}
