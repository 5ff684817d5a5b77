//! The build script: which files it compiles for a target, and what it says where there are none.

use std::env::consts::EXE_SUFFIX;
use std::fs;
use std::path::{Path, PathBuf};
use std::process::{Command, Output};
use std::sync::OnceLock;

// This replaces the crate `cc`, and prints what that should compile.
const CC: &str = r#"
    pub struct Build;
    impl Build {
        pub fn new() -> Self {
            Build
        }
        pub fn flag(&mut self, _: &str) -> &mut Self {
            self
        }
        pub fn flag_if_supported(&mut self, flag: &str) -> &mut Self {
            println!("flag if supported {flag}");
            self
        }
        pub fn opt_level(&mut self, _: u32) -> &mut Self {
            self
        }
        pub fn include(&mut self, folder: &str) -> &mut Self {
            println!("include {folder}");
            self
        }
        pub fn file(&mut self, path: String) -> &mut Self {
            println!("file {path}");
            self
        }
        pub fn try_compile(&self, name: &str) -> Result<(), String> {
            println!("compile {name}");
            std::env::var("CC").map_or(Ok(()), Err)
        }
    }
"#;

// An empty folder for files of one test.
fn folder(name: &str) -> PathBuf {
    let folder = Path::new(env!("CARGO_TARGET_TMPDIR")).join(name);
    let _ = fs::remove_dir_all(&folder);
    fs::create_dir_all(&folder).unwrap();
    folder
}

fn rustc(args: &[&str], source: &Path, made: &Path) {
    let mut rustc = Command::new("rustc");
    rustc
        .args(["--edition=2021"])
        .args(args)
        .arg("-o")
        .arg(made)
        .arg(source);
    assert!(rustc.status().unwrap().success());
}

// The build script as a program.
fn script() -> &'static Path {
    static SCRIPT: OnceLock<PathBuf> = OnceLock::new();
    SCRIPT.get_or_init(|| {
        let folder = folder("build_script");
        let (source, library) = (folder.join("cc.rs"), folder.join("libcc.rlib"));
        fs::write(&source, CC).unwrap();
        rustc(&["--crate-type=lib", "--crate-name=cc"], &source, &library);
        let program = folder.join(format!("build_script{EXE_SUFFIX}"));
        let extern_cc = format!("cc={}", library.display());
        let build = Path::new(env!("CARGO_MANIFEST_DIR")).join("bindings/rust/build.rs");
        rustc(&["--extern", &extern_cc], &build, &program);
        program
    })
}

// What the script says for a target.
fn run(target: &str, variables: &[(&str, &str)]) -> Output {
    let parts: Vec<_> = target.split('-').collect();
    let os = match parts[..] {
        [_, _, os @ ("linux" | "windows"), _] => os,
        [_, "apple", "darwin"] => "macos",
        [.., os] => os,
        [] => "",
    };
    let width = if target.contains("32") { "32" } else { "64" };
    let endian = if target.contains("_be") { "big" } else { "little" };
    let mut script = Command::new(script());
    script
        .current_dir(env!("CARGO_MANIFEST_DIR"))
        .env_clear()
        .env("TARGET", target)
        .env("CARGO_CFG_TARGET_ARCH", parts[0].replace("_be", ""))
        .env("CARGO_CFG_TARGET_OS", os)
        .env("CARGO_CFG_TARGET_ENV", parts.get(3).unwrap_or(&""))
        .env("CARGO_CFG_TARGET_POINTER_WIDTH", width)
        .env("CARGO_CFG_TARGET_ENDIAN", endian)
        .envs(variables.iter().copied());
    script.output().unwrap()
}

// The files that the script compiles, in order, if it compiles any.
fn compiled(output: &Output) -> Vec<String> {
    let printed = String::from_utf8(output.stdout.clone()).unwrap();
    let paths: Vec<_> = printed.lines().filter_map(|line| line.strip_prefix("file ")).collect();
    assert_eq!(printed.contains("compile yurewha\n"), !paths.is_empty());
    for path in &paths {
        assert!(printed.contains(&format!("cargo:rerun-if-changed={path}\n")));
    }
    let header = "cargo:rerun-if-changed=dist/assembly.h\n";
    assert_eq!(printed.contains(header), !paths.is_empty());
    let names = paths.iter().map(|path| Path::new(path).file_name().unwrap());
    names.map(|name| name.to_str().unwrap().to_owned()).collect()
}

#[test]
fn all_levels_of_the_targets_processor_are_compiled() {
    let unproved = ["processor_level.c", "heap.c"];
    let assembly = ["x86-64.S", "x86-64-v2.S", "x86-64-v3.S", "x86-64-v4.S"];
    let x86_64 = [&unproved[..], &assembly].concat();
    let aarch64 = [&unproved[..], &["aarch64.S"]].concat();
    let windows = assembly.map(|name| format!("windows-{}", name.replace('S', "s")));
    let windows = [&unproved[..], &windows.each_ref().map(String::as_str)].concat();
    for (target, files) in [
        ("x86_64-unknown-linux-gnu", &x86_64),
        ("x86_64-unknown-linux-musl", &x86_64),
        ("aarch64-unknown-linux-gnu", &aarch64),
        ("aarch64-unknown-linux-musl", &aarch64),
        ("x86_64-pc-windows-gnu", &windows),
        ("x86_64-apple-darwin", &x86_64),
        ("aarch64-apple-darwin", &aarch64),
    ] {
        let output = run(target, &[]);
        assert!(output.status.success(), "{output:?}");
        assert_eq!(&compiled(&output), files, "{target}");
    }
}

#[test]
fn on_aarch64_what_is_compiled_is_protected() {
    for (target, is_protected) in [("aarch64-unknown-linux-gnu", true), ("x86_64-unknown-linux-gnu", false)] {
        let printed = String::from_utf8(run(target, &[]).stdout).unwrap();
        let flag = "flag if supported -mbranch-protection=standard\n";
        assert_eq!(printed.contains(flag), is_protected, "{target}");
    }
}

#[test]
fn a_target_without_assembly_is_refused() {
    for target in [
        "x86_64-unknown-linux-gnux32",
        "aarch64-unknown-linux-gnu_ilp32",
        "aarch64_be-unknown-linux-gnu",
        "riscv64gc-unknown-linux-gnu",
        "x86_64-pc-windows-msvc",
        "i686-pc-windows-gnu",
        "aarch64-pc-windows-gnullvm",
        "aarch64-apple-ios",
        "x86_64-linux-android",
    ] {
        let output = run(target, &[]);
        let said = String::from_utf8(output.stderr.clone()).unwrap();
        let wanted = format!(
            "yurewha: the library is for Linux and macOS on x86_64 and aarch64, and for x86_64-pc-windows-gnu, \
             not for {target}; depend on it for these targets alone, and on xet-core-structures for others\n"
        );
        assert!(!output.status.success() && compiled(&output).is_empty(), "{target}");
        assert_eq!(said, wanted);
    }
}

#[test]
fn what_the_compiler_refuses_is_told() {
    let output = run("x86_64-unknown-linux-gnu", &[("CC", "an unknown instruction")]);
    let said = String::from_utf8(output.stderr.clone()).unwrap();
    let wanted = "yurewha: the C compiler can't compile the files of the library: an unknown instruction\n";
    assert!(!output.status.success());
    assert_eq!(said, wanted);
}

#[test]
fn pages_need_no_library() {
    let output = run("x86_64-unknown-linux-gnu", &[("DOCS_RS", "1")]);
    assert!(output.status.success() && compiled(&output).is_empty());
}
