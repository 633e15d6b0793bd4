//! The port beside 000: both are given the same fonts and calls, and their answers are compared.
//!
//!     main [--seed N] [--long MINUTES] [--departures] [FOLDER WITH FONTS]
#[path = "../../bindings/rust/src/calls.rs"]
#[allow(dead_code)]
mod calls;
#[path = "../../bindings/rust/src/structs.rs"]
#[allow(dead_code)]
mod structs;

mod asked;
mod compare;
mod damage;
mod departures;
mod families;
mod fonts;
mod listed;
mod loading;
mod orders;
mod questions;
mod random;
mod random_fonts;
mod reading;
mod sides;
mod smallest;
mod strict;
mod tally;
mod texts;
mod twins;
mod utf8;
mod vetting;
mod words;

use asked::{Function::Vet, FUNCTIONS};
use random::Random;
use sides::Kind;
use std::process::exit;
use std::time::{Duration, Instant};
use tally::Tally;

fn main() {
    let mut arguments = std::env::args().skip(1);
    let (mut seed, mut long, mut folder) = (1, None, None);
    while let Some(word) = arguments.next() {
        let mut number = || arguments.next().and_then(|n| n.parse::<u64>().ok()).expect("a number");
        match word.as_str() {
            "--seed" => seed = number(),
            "--long" => long = Some(Duration::from_secs(60 * number())),
            "--departures" => {
                sides::be_quiet();
                return listed::print();
            }
            _ => folder = Some(word),
        }
    }
    sides::be_quiet();
    let (begun, mut tally, mut random) = (Instant::now(), Tally::default(), Random::new(seed));
    println!("seed {seed}");
    families::listed_inputs(&mut tally);
    families::all_of_f(&mut tally, &mut random);
    families::changes_of_f(&mut tally);
    families::lengths_of_f(&mut tally);
    families::random_fonts(&mut tally, &mut random, 4000);
    families::not_only_utf8(&mut tally, &mut random);
    if let Some(folder) = folder {
        families::real_fonts(&folder, &mut tally, &mut random);
    }
    while long.is_some_and(|long| begun.elapsed() < long) {
        families::random_fonts(&mut tally, &mut random, 10_000);
    }
    tally.print();
    for (function, name) in FUNCTIONS.into_iter().filter(|(function, _)| *function != Vet) {
        if tally.count(function, Kind::Returned) < 10_000 {
            println!("oracle: 000 returned from too few calls of {name}");
            exit(1);
        }
    }
    if tally.coloured_in_usual_rows() < 10_000 {
        println!("oracle: too few drawings of rows in another order coloured pixels");
        exit(1);
    }
    if tally.strictly_loaded().iter().any(|&fonts| fonts < 1000) {
        println!("oracle: too few fonts were loaded strictly, or refused");
        exit(1);
    }
    if tally.refused_27_and_copies().iter().any(|&fonts| fonts < 1000) {
        println!("oracle: too few fonts of two formats were vetted, or too few of them with formats that agree");
        exit(1);
    }
    for name in tally.never_used() {
        println!("oracle: no input for departure {name}");
        exit(1);
    }
    println!(
        "oracle: {} calls compared with 000, no difference that docs/DIFFERENCES.md does not list",
        tally.compared()
    );
}
