//! Links libthalluskin.a: from the folder that THALLUSKIN_LIB names, or else from the one in the repository's target/
//! that is for the processor at hand.
use std::env;
use std::path::PathBuf;
use std::process::{exit, Command};

/// What a target's name begins with, and the folder in target/ for it.
const FOLDERS: [(&str, &str); 10] = [
    ("x86_64-", "staticlib"),
    ("thumbv7em-", "cortex-m4"),
    ("thumbv6m-", "cortex-m0plus"), // whose code runs on every later Cortex-M
    ("thumbv7m-", "cortex-m0plus"),
    ("thumbv8m.", "cortex-m0plus"),
    ("riscv32imac-", "riscv32"), // others pass floats in another way, or lack instructions
    ("riscv32imc-", "riscv32"),
    ("riscv64imac-", "riscv64"),
    ("aarch64-unknown-", "aarch64"), // Apple's and Windows' archives are of another kind
    ("wasm32", "wasm"),
];

fn refuse(why: &str) -> ! {
    eprintln!("thalluskin: {}", why);
    exit(1);
}

/// The middle number of the compiler's version, 63 of 1.63.0; 0 where it cannot be told.
fn compiler() -> u32 {
    let rustc = env::var_os("RUSTC").unwrap_or_else(|| "rustc".into());
    let said = Command::new(rustc).arg("--version").output().map(|out| out.stdout).unwrap_or_default();
    let said = String::from_utf8_lossy(&said);
    let version = said.split_whitespace().nth(1).and_then(|version| version.strip_prefix("1."));
    version.and_then(|rest| rest.split('.').next()).and_then(|number| number.parse().ok()).unwrap_or(0)
}

/// The names that the crate's `cfg` asks for.
fn print_cfgs() {
    let compiler = compiler();
    if compiler >= 80 {
        // earlier ones take any name
        println!("cargo:rustc-check-cfg=cfg(thalluskin_core_error, thalluskin_lent)");
    }
    if compiler >= 81 {
        println!("cargo:rustc-cfg=thalluskin_core_error");
    }
}

fn main() {
    println!("cargo:rerun-if-env-changed=THALLUSKIN_LIB");
    print_cfgs();
    let target = env::var("TARGET").unwrap_or_default();
    let is = |what: &str, value: &str| env::var(format!("CARGO_CFG_TARGET_{}", what)).map_or(false, |v| v == value);
    if !is("ENDIAN", "little") {
        refuse(&format!("libthalluskin.a is for little-endian processors, which {} is not", target));
    }
    if is("ARCH", "x86_64") && !(is("OS", "linux") && is("POINTER_WIDTH", "64")) {
        refuse(&format!("the repository's libthalluskin.a for x86-64 is for 64-bit Linux, and {} is another", target));
    }
    // the archives use registers of floats, and are of the form ELF
    let is_other = target.ends_with("-softfloat") || target.ends_with("-uefi");
    let known = FOLDERS.iter().find(|(begin, _)| target.starts_with(begin) && !is_other);
    let given = env::var_os("THALLUSKIN_LIB").map(PathBuf::from);
    let is_given = given.is_some();
    let folder = match (given, known) {
        (Some(folder), _) if folder.is_absolute() => folder,
        // this script and the linker run in other folders than the person who set it
        (Some(folder), _) => {
            refuse(&format!("THALLUSKIN_LIB is \"{}\", and has to be an absolute path", folder.display()))
        }
        (None, Some((_, folder))) => {
            let here = env::var_os("CARGO_MANIFEST_DIR").map(PathBuf::from).unwrap_or_default();
            here.join("../../target").join(folder)
        }
        (None, None) => refuse(&format!(
            "the repository makes no libthalluskin.a for {}; THALLUSKIN_LIB may name the folder of one",
            target
        )),
    };
    let archive = folder.join("libthalluskin.a");
    println!("cargo:rerun-if-changed={}", archive.display());
    if !archive.is_file() {
        let how = match known {
            Some((_, "staticlib")) if !is_given => String::from("`./thalluskin build x86-64` makes it"),
            Some((_, folder)) if !is_given => format!("`./thalluskin build {}` makes it", folder),
            _ => String::from("THALLUSKIN_LIB has to name the folder of one"),
        };
        refuse(&format!("{} is not there; {}", archive.display(), how));
    }
    println!("cargo:rustc-link-search=native={}", folder.display());
    println!("cargo:rustc-link-lib=static=thalluskin");
}
