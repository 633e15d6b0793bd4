//! The smallest inputs of the departures, in departures.txt with both answers, which are held to what they are.
use crate::asked::Call;
use crate::fonts::{bytes_of_hex, more_entries, F};
use crate::words;

const LIST: &str = include_str!("departures.txt");

pub struct Listed {
    pub departure: &'static str,
    pub font: &'static str,
    pub call: Call,
    pub answers: [&'static str; 2],
}

/// a line is: the departure | the font | the call | 000's answer | the port's answer
pub fn all() -> Vec<Listed> {
    LIST.lines()
        .filter(|line| !line.is_empty() && !line.starts_with('#'))
        .map(|line| {
            let parts: Vec<&str> = line.split('|').map(str::trim).collect();
            let [departure, font, call, original, port] = parts[..] else { panic!("five parts: {line}") };
            Listed { departure, font, call: Call::read(call), answers: [original, port] }
        })
        .collect()
}

/// "F", "F with 59 more directory entries", or "F with byte 45 = 00, byte 48 = 14"
pub fn bytes_of(font: &str) -> Vec<u8> {
    let Some(changes) = font.strip_prefix("F with ") else {
        assert_eq!(font, "F", "a font is F or made from it");
        return F.to_vec();
    };
    if let Some(count) = changes.strip_suffix(" more directory entries") {
        return more_entries(count.parse().expect("a number of entries"));
    }
    let mut made = F.to_vec();
    for change in changes.split(", ") {
        let (place, value) = change.trim_start_matches("byte ").split_once(" = ").expect("byte N = HH");
        made[place.parse::<usize>().expect("a place")] = bytes_of_hex(value)[0];
    }
    made
}

/// rows for docs/DIFFERENCES.md
pub fn print() {
    println!("| Departure | Font | Call | 000 | Port |\n|---|---|---|---|---|");
    for one in all() {
        let bytes = bytes_of(one.font);
        let (call, answers) = (&one.call, [words::of_000(&bytes, &one.call), words::of_port(&bytes, &one.call)]);
        println!("| {} | {} | `{call}` | {} | {} |", one.departure, one.font, answers[0], answers[1]);
    }
}

/// the answers that are not those of the list
pub fn untrue() -> Vec<String> {
    let mut found = Vec::new();
    for one in all() {
        let bytes = bytes_of(one.font);
        let answers = [words::of_000(&bytes, &one.call), words::of_port(&bytes, &one.call)];
        if answers != one.answers {
            let (font, call) = (one.font, &one.call);
            found.push(format!("{font}, {call}: 000 {:?}, the port {:?}", answers[0], answers[1]));
        }
    }
    found
}
