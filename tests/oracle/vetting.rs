//! Vetting, which 000 does not have: what it has to answer is told by 000's own answers about every property and every
//! character. 000 is given a font of which it sees all codes. A font in which a table's two formats differ, of which
//! 000 looks at one alone, is refused 27; it is vetted once more with the other one changed.
use crate::asked::{Call, Function::*};
use crate::calls;
use crate::compare::{hold, Verdict};
use crate::departures;
use crate::orders;
use crate::reading::{self, Drawing, Slot};
use crate::sides::{their, Given, Kind, Pair};
use crate::strict;
use crate::structs::PLAIN;
use crate::tally::Tally;

const MOST_PIXELS: usize = 1 << 20;
/// why a font of two formats is not vetted once more
const SHARED: &str = "a format word to change for vetting stands in another table, or in the directory, too";

/// the refusal's number and place, 0 and 0 where the font passes; None where it takes too large a page to tell
fn expected(pair: &Pair) -> Option<(u32, u64)> {
    if orders::refused(&pair.rec) {
        return Some((13, 0));
    }
    let ask = |function, number| their(pair.theirs, &Call::new(function, number));
    let bounds = &pair.theirs.font.accelerator_data.maxbounds;
    let extent = ask(Dimensions, 0);
    if extent.kind == Kind::Stopped || extent.values.iter().any(|&n| n > 32_767) || bounds.character_ascent < 0 {
        return Some((11, 0));
    }
    for number in 0..pair.fields.props.count {
        if ask(Property, number as u32).kind == Kind::Stopped {
            return Some((18, number as u64));
        }
    }
    // 000 panics over codes below the first
    let codes = (0..=65_535).filter(|&code| reading::slot(&pair.rec, code) != Slot::Below);
    for code in codes.filter(|&code| char::from_u32(code).is_some()) {
        let found = ask(Glyph, code);
        if found.kind == Kind::Returned {
            let number = of_character(pair, code, found.values[0] as u16)?;
            if number != 0 {
                return Some((number, code.into()));
            }
        }
    }
    Some((0, 0))
}

fn of_character(pair: &Pair, code: u32, glyph: u16) -> Option<u32> {
    let ask = |function, number| their(pair.theirs, &Call::new(function, number));
    if ask(Metrics, glyph.into()).kind == Kind::Nothing {
        return Some(10);
    }
    let placed = ask(PrepChar, code);
    if placed.kind == Kind::Stopped || placed.values[1..].iter().any(|&n| n > 32_767) {
        return Some(11);
    }
    let (width, height) = (placed.values[1] as usize, placed.values[2] as usize);
    let stride = width.max(1);
    if stride * height > MOST_PIXELS {
        return None;
    }
    let call = Call::new(DrawBitmap, glyph.into()).boxed(width, height, 0, 0).on(stride * height, 0, stride, 1);
    let drawing = Drawing { glyph, width, height, at: 0 };
    match their(pair.theirs, &call).kind {
        Kind::Nothing => return Some(12),
        _ if orders::other(&pair.rec) && reading::lacks_data(pair.ours, &pair.rec, &drawing, height) => {
            return Some(14)
        }
        Kind::Stopped => {
            if departures::byte_past(pair, &drawing, height).is_none() {
                return Some(14);
            }
        }
        Kind::Returned => (),
    }
    Some(match ask(Name, glyph.into()).kind {
        Kind::Returned => 0,
        Kind::Nothing => 17,
        Kind::Stopped => 18,
    })
}

pub fn compare(pair: &Pair, tally: &mut Tally) -> Verdict {
    if orders::other(&pair.rec) && pair.given != Given::UsualRows {
        return Ok(()); // 000 draws nothing of it; it is asked again with the rows in the usual order
    }
    let Some(entry) = strict::differing(pair.ours) else { return as_000_tells(pair, None, tally) };
    tally.vetted(27, false);
    let our = calls::vet(pair.ours, PLAIN);
    let said = format!("vetting answers {} at {}", our.refusal, our.place);
    hold((our.refusal, our.place) == (27, entry), &format!("{said}, by the two formats it is 27 at {entry}"))?;
    match strict::agreeing(pair.ours) {
        Some(copy) => as_000_tells(pair, Some(&copy), tally),
        None => {
            tally.not_compared(SHARED);
            Ok(())
        }
    }
}

/// vetting the pair's font, or a copy of it with formats that agree
fn as_000_tells(pair: &Pair, copy: Option<&[u8]>, tally: &mut Tally) -> Verdict {
    let our = calls::vet(copy.unwrap_or(pair.ours), PLAIN);
    let of_a_surrogate = our.refusal >= 10 && (0xD800..=0xDFFF).contains(&our.place);
    let Some(expected) = expected(pair).filter(|_| !of_a_surrogate) else {
        tally.not_compared("000 cannot be asked for what decides in vetting");
        return Ok(());
    };
    tally.vetted(expected.0, copy.is_some());
    let said = format!("vetting answers {} at {}", our.refusal, our.place);
    hold((our.refusal, our.place) == expected, &format!("{said}, by 000's answers it is {expected:?}"))?;
    hold(our.refusal != 0 || our.rec == pair.rec, "vetting gives another record than loading")
}
