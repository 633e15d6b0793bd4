//! Times the port, 000 and plain loops in C on the same calls, or makes each call where an instruction counter looks.
//! Rows that 000 does not draw are measured beside the same rows in the usual order, both by the port.
//!
//!     driver FOLDER check|time|count [CALL]
//!
//! The folder has the fonts. Lines go to standard output with tabs between their parts; the parts of a line are said
//! where it is printed. A call's name takes the lines of that call alone, wrapped texts and the like too.
#[allow(dead_code)]
#[path = "../bindings/rust/src/calls.rs"]
mod calls;
mod cases;
mod counter;
mod glyphs;
mod lines;
mod orders;
mod plain;
mod reading;
#[allow(dead_code)]
#[path = "../bindings/rust/src/structs.rs"]
mod structs;
mod texts;
mod timing;

use cases::{Case, Font};
use lines::Line;
use std::{collections::HashMap, env, fs, path::Path, process};

fn fonts(folder: &Path) -> HashMap<String, &'static Font> {
    let files = fs::read_dir(folder).expect("a folder of fonts");
    let paths = files.map(|file| file.expect("a file").path());
    paths
        .map(|path| {
            let name = path.file_stem().expect("a name").to_string_lossy().into_owned();
            (name, Font::of(fs::read(&path).expect("a font")))
        })
        .collect()
}

/// Each side's call is counted twice, after one that is not. A line: table, call, font, what grows, side, and by how
/// many the counts are to be divided; in the order of callgrind's files, the first of which is of a call of nothing.
fn count(line: &Line, case: &mut dyn Case) {
    for &side in case.sides() {
        let call = &mut || case.call(side);
        call();
        counter::count(call);
        counter::count(call);
        println!("{}\t{}\t{}", line.key(), side.told(), case.per());
    }
}

/// A line for each side: table, call, font, what grows, side, its nanoseconds, and the port's ratio to it with the
/// quartiles.
fn time(line: &Line, case: &mut dyn Case) {
    let per = case.per() as f64;
    for (took, side) in timing::time(case).iter().zip(case.sides()) {
        let ns = took.ns / per;
        println!("{}\t{}\t{ns}\t{}\t{}\t{}", line.key(), side.told(), took.ratio, took.lower, took.upper);
    }
}

/// A line: the sides that agree.
fn told(case: &dyn Case) {
    let sides: Vec<&str> = case.sides().iter().map(|side| side.told()).collect();
    println!("{}", sides.join("\t"));
}

fn main() {
    let words: Vec<String> = env::args().skip(1).collect();
    let (folder, mode) = (Path::new(&words[0]), words[1].as_str());
    let fonts = fonts(folder);
    if mode == "count" {
        counter::count(&mut || ());
    }
    for line in lines::lines(&fonts) {
        if words.get(2).is_some_and(|call| !line.call.starts_with(call.as_str())) {
            continue;
        }
        let mut case = (line.make)(&fonts);
        // before all else: what the port has not accepted is not for the loops in C, which test nothing
        if !case.same() {
            eprintln!("{} of {} at {}: the sides differ", line.call, line.font, line.at);
            process::exit(1);
        }
        match mode {
            "count" => count(&line, case.as_mut()),
            "time" => time(&line, case.as_mut()),
            _ => told(case.as_ref()),
        }
    }
}
