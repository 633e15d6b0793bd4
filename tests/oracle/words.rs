//! Answers in words, for differences and for the listed departures.
use crate::asked::{Call, Function, Function::*};
use crate::calls;
use crate::sides::{before, caught, our, their, Aligned, Given, Kind, Theirs, Values};
use crate::structs::PLAIN;
use crate::twins;
use original::plain;

fn list(numbers: impl Iterator<Item = usize>) -> String {
    let all: Vec<String> = numbers.map(|n| n.to_string()).collect();
    if all.is_empty() {
        "none".to_string()
    } else {
        all.join(" ")
    }
}

fn coloured(page: &[u32]) -> String {
    format!("pixels {}", list((0..page.len()).filter(|&i| page[i] != before(i))))
}

fn values(function: Function, v: &Values) -> String {
    let signed = v.map(|n| n as i64);
    match function {
        Glyph => format!("glyph {}", v[0]),
        Name => format!("bytes {}..{}", v[0], v[0] + v[1]),
        Property if v[2] == 0 => format!("name {}..{}, number {}", v[0], v[0] + v[1], v[3]),
        Property => format!("name {}..{}, string {}..{}", v[0], v[0] + v[1], v[4], v[4] + v[5]),
        Metrics => format!(
            "left {}, right {}, width {}, ascent {}, descent {}, attributes {}",
            signed[0], signed[1], signed[2], signed[3], signed[4], signed[5]
        ),
        Dimensions => format!("height {}, width {}", v[0], v[1]),
        PrepChar | DrawChar => {
            format!("glyph {}, width {}, height {}, pad_top {}, pad_left {}", v[0], v[1], v[2], v[3], v[4])
        }
        DrawString => format!("height {}", v[0]),
        Load | Vet | DrawBitmap | DrawGlyph | UnpackGlyph => "returns".to_string(),
    }
}

/// what 000 answers
pub fn of_000(bytes: &[u8], call: &Call) -> String {
    let aligned = Aligned::new(bytes);
    let font = match caught(|| original::load_pcf(aligned.bytes())) {
        None => return "loading does not return".to_string(),
        Some(Err(())) => return "loading answers Err".to_string(),
        Some(Ok(font)) => font,
    };
    if call.function == Load {
        let t = plain::fields(&font, aligned.bytes());
        return format!(
            "loads; {} metrics from byte {}, codes: {}, size_mode {}",
            t.metrics.count, t.metrics.at, t.codes.count, t.size_mode
        );
    }
    if call.function == Vet {
        return "does not vet".to_string();
    }
    let answer = their(Theirs { data: aligned.bytes(), font: &font }, call);
    let said = match answer.kind {
        Kind::Stopped => "does not return".to_string(),
        Kind::Nothing => "None".to_string(),
        Kind::Returned => values(call.function, &answer.values),
    };
    if call.function.draws() {
        format!("{said}; {}", coloured(&answer.page))
    } else {
        said
    }
}

/// what the port answers
pub fn of_port(bytes: &[u8], call: &Call) -> String {
    let loaded = calls::load(bytes);
    if loaded.refusal != 0 {
        return format!("loading is refused {} at {}", loaded.refusal, loaded.place);
    }
    if call.function == Load {
        let r = &loaded.rec;
        return format!(
            "loads; {} metrics from byte {}, codes: {}, unit {}",
            r.metrics.count,
            r.metrics.records,
            r.codes.size / 2,
            r.bitmaps.unit
        );
    }
    if call.function == Vet {
        let vetted = calls::vet(bytes, PLAIN);
        return format!("vetting answers {} at {}", vetted.refusal, vetted.place);
    }
    let answer = our(bytes, loaded.rec, call);
    let said = match (answer.refusal, call.function) {
        (0, UnpackGlyph) => format!("{} rows", answer.rows[0]),
        (0, DrawBitmap | DrawGlyph) => format!("{} rows, {} dropped", answer.rows[0], answer.rows[1]),
        (0, DrawChar) => {
            let placed = values(DrawChar, &answer.values);
            format!("{placed}; {} rows, {} dropped", answer.rows[0], answer.rows[1])
        }
        (0, DrawString) => format!("{}, {} dropped", values(DrawString, &answer.values), answer.rows[1]),
        (0, function) => values(function, &answer.values),
        (number, _) => format!("refused {number} at {}", answer.place),
    };
    if call.function.draws() {
        format!("{said}; {}", coloured(&answer.page))
    } else {
        said
    }
}

pub fn hex(bytes: &[u8]) -> String {
    bytes.iter().map(|b| format!("{b:02X}")).collect()
}

/// a difference, whole
pub fn difference(bytes: &[u8], call: &Call, given: Given, said: &str) {
    println!("oracle: {said}");
    println!("font: {}", hex(bytes));
    println!("call: {call}");
    let made = twins::given(given, bytes, &calls::load(bytes).rec);
    if let Some(made) = &made {
        println!("000 was given its twin: {}", hex(made));
    }
    println!("000: {}", of_000(made.as_deref().unwrap_or(bytes), call));
    println!("the port: {}", of_port(bytes, call));
}
