//! UTF-8, beside Rust's own decoder.
use crate::calls;
use crate::compare::{hold, Verdict};
use crate::tally::Tally;

/// where refusal 19 stands, or None where the text is one
pub fn not_a_text(text: &[u8]) -> Option<usize> {
    if text.len() > 65_535 {
        return Some(0);
    }
    std::str::from_utf8(text).err().map(|error| error.valid_up_to())
}

/// the character at a byte, by Rust's own decoder
fn character_at(text: &[u8], i: usize) -> Option<char> {
    (1..=4.min(text.len() - i)).find_map(|n| std::str::from_utf8(&text[i..i + n]).ok()?.chars().next())
}

/// every step through some bytes, from character starts and from elsewhere
pub fn steps(text: &[u8], tally: &mut Tally) -> Verdict {
    for i in 0..text.len() + 2 {
        tally.utf8 += 1;
        let a = calls::utf8_step(text, i as u64);
        let got = (a.refusal, a.place, a.found, a.code.0, a.next);
        let expected = match i < text.len() {
            false => (0, 0, false, 0, 0),
            true => match character_at(text, i) {
                None => (19, i as u64, false, 0, 0),
                Some(c) => (0, 0, true, c as u32, (i + c.len_utf8()) as u64),
            },
        };
        hold(got == expected, &format!("step at {i} of {text:02X?}: {got:?}, Rust's own decoder {expected:?}"))?;
    }
    Ok(())
}

/// bytes at and around the ends of what UTF-8 allows
pub fn edges() -> Vec<Vec<u8>> {
    let first = [0x00, 0x7F, 0x80, 0xBF, 0xC0, 0xC1, 0xC2, 0xDF, 0xE0, 0xE1, 0xEC, 0xED, 0xEE, 0xEF, 0xF0, 0xF1, 0xF3];
    let first = first.iter().chain(&[0xF4, 0xF5, 0xF8, 0xFF]);
    let then = [0x00, 0x7F, 0x80, 0x8F, 0x90, 0x9F, 0xA0, 0xBF, 0xC0, 0xFF];
    let mut all = Vec::new();
    for &a in first {
        for b in then {
            for c in [0x30, 0x7F, 0x80, 0xBF, 0xC0] {
                all.extend([0x7F, 0x80, 0xBF, 0xC2].map(|d| vec![a, b, c, d]));
            }
        }
    }
    all
}
