//! Compiles the library from the C and assembly of `dist/`, by the C compiler that the crate `cc` finds, and links it statically.

use std::env;
use std::fs;
use std::process::exit;

// Set where only pages are made, as on docs.rs: they need no library.
const PAGES_ONLY: &str = "DOCS_RS";
const HEADERS: &str = "bindings/include";

fn main() {
    println!("cargo:rerun-if-changed=bindings/rust/build.rs");
    println!("cargo:rerun-if-env-changed={PAGES_ONLY}");
    if env::var_os(PAGES_ONLY).is_some() {
        return;
    }
    let assembly = assembly().unwrap_or_else(|message| {
        eprintln!("yurewha: {message}");
        exit(1);
    });
    let mut build = cc::Build::new();
    // Also if the crate is built for debugging, since each call goes through this C.
    build.opt_level(2).flag("-std=c11");
    // Each object has to say that it works with this protection, or the program has none. GCC before version 9 doesn't know it.
    if env::var("CARGO_CFG_TARGET_ARCH").is_ok_and(|arch| arch == "aarch64") {
        build.flag_if_supported("-mbranch-protection=standard");
    }
    for name in ["processor_level.c", "heap.c"] {
        build.file(of_library(name));
    }
    for name in assembly {
        build.file(of_library(&name));
    }
    of_library("assembly.h");
    println!("cargo:rerun-if-changed={HEADERS}/yurewha.h");
    if let Err(error) = build.include(HEADERS).try_compile("yurewha") {
        eprintln!("yurewha: the C compiler can't compile the files of the library: {error}");
        exit(1);
    }
}

// The path of a file of the library. A change of it is seen.
fn of_library(name: &str) -> String {
    let path = format!("dist/{name}");
    println!("cargo:rerun-if-changed={path}");
    path
}

// The files of assembly for the target, one for each level of its processor. There are none for most targets.
fn assembly() -> Result<Vec<String>, String> {
    let of_target = |name| env::var(format!("CARGO_CFG_TARGET_{name}")).unwrap_or_default();
    let arch = of_target("ARCH");
    let kind = ["OS", "POINTER_WIDTH", "ENDIAN"].map(of_target);
    let list = of_library("targets.txt");
    let text = fs::read_to_string(&list).map_err(|error| format!("{list}: {error}"))?;
    let lines = text.lines().filter(|line| !line.starts_with('#'));
    let lines = lines.map(|line| line.split_whitespace().collect::<Vec<_>>());
    let levels = lines.filter(|words| words[1] == arch).map(|words| words[0]);
    let is_for_windows = kind == ["windows", "64", "little"] && arch == "x86_64" && of_target("ENV") == "gnu";
    let is_for_macos = kind == ["macos", "64", "little"];
    let (before, ending) = if is_for_windows { ("windows-", "s") } else { ("", "S") };
    let names: Vec<_> = levels.map(|level| format!("{before}{level}.{ending}")).collect();
    if names.is_empty() || !(is_for_windows || is_for_macos || kind == ["linux", "64", "little"]) {
        let target = env::var("TARGET").unwrap_or_default();
        return Err(format!(
            "the library is for Linux and macOS on x86_64 and aarch64, and for x86_64-pc-windows-gnu, \
             not for {target}; depend on it for these targets alone, and on xet-core-structures for others"
        ));
    }
    Ok(names)
}
