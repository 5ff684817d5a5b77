//! The programs `xetroot` and `xetrange` on texts of many lines.
//!
//! `bench/table` names them in `XETROOT` and `XETRANGE`, and `examples/many-machines/local` in `LOCAL`.

use driver::drawn::{self, Cuts, Draws};
use driver::plain;
use driver::rows::{Row, Task, HEAD};
use std::cell::Cell;
use std::fs::{self, File};
use std::io::{self, BufWriter, Write};
use std::path::{Path, PathBuf};
use std::process::Command;
use std::time::Instant;

// How many pairs a range has.
const LENGTH: usize = 1000;

const CHUNK: usize = 64 << 10;

/// All rows.
pub fn print() {
    let folder = Folder::new();
    println!("{HEAD}");
    let drawn = |count, text: &mut dyn Write| pairs(Cuts::Drawn, 0, count, text);
    let without = |count, text: &mut dyn Write| pairs(Cuts::Nowhere, 0, count, text);
    let everywhere = |count, text: &mut dyn Write| pairs(Cuts::Everywhere, 0, count, text);
    let texts: [Text; 13] = [
        ("10^5 random pairs", 100_000, &drawn),
        ("10^6 random pairs", 1_000_000, &drawn),
        ("10^7 random pairs", 10_000_000, &drawn),
        ("10^5 pairs without cuts", 100_000, &without),
        ("10^6 pairs without cuts", 1_000_000, &without),
        ("10^5 pairs with cuts everywhere", 100_000, &everywhere),
        ("10^6 pairs with cuts everywhere", 1_000_000, &everywhere),
        ("10^5 pairs without cuts, `--` after each", 100_000, &separated),
        ("10^6 pairs without cuts, `--` after each", 1_000_000, &separated),
        ("100 ranges of 1000 pairs in random order, `@`", 100_000, &shuffled),
        ("1000 ranges of 1000 pairs in random order, `@`", 1_000_000, &shuffled),
        ("400 chunks of 64 KiB, `+`", 400, &chunks),
        ("4000 chunks of 64 KiB, `+`", 4000, &chunks),
    ];
    // Ten times as much where there is a row for it.
    let grows = |i: usize| texts.get(i + 1).is_some_and(|next| next.1 == 10 * texts[i].1);
    let lines = texts.iter().enumerate().map(|(i, text)| xetroot(&folder, text, grows(i)));
    let memory: Vec<String> = lines.collect();
    xetrange(&folder, "10^5", 100_000);
    xetrange(&folder, "10^6", 1_000_000);
    println!("\n| Text | KB that `xetroot` held | the peer |\n|---|---|---|");
    memory.iter().for_each(|line| println!("{line}"));
}

// A name, how many pairs or chunks, and what writes so many.
type Text<'a> = (&'a str, usize, &'a dyn Fn(usize, &mut dyn Write) -> io::Result<()>);

// A folder for texts, which is removed at the end.
struct Folder(PathBuf);

impl Folder {
    fn new() -> Self {
        let path = std::env::temp_dir().join(format!("yurewha_bench_texts_{}", std::process::id()));
        fs::create_dir(&path).expect("a new folder");
        Folder(path)
    }

    fn text(&self, name: &str, write: impl FnOnce(&mut dyn Write) -> io::Result<()>) -> PathBuf {
        let path = self.0.join(name);
        let mut file = BufWriter::new(File::create(&path).expect("a file"));
        write(&mut file).and_then(|()| file.flush()).expect("room for a text");
        path
    }
}

impl Drop for Folder {
    fn drop(&mut self) {
        drop(fs::remove_dir_all(&self.0));
    }
}

fn pairs(cuts: Cuts, seed: u64, count: usize, text: &mut dyn Write) -> io::Result<()> {
    for (hash, size) in drawn::chunks(seed, cuts).take(count) {
        text.write_all(&plain::hex_digits(&hash))?;
        writeln!(text, " {size}")?;
    }
    Ok(())
}

fn separated(count: usize, text: &mut dyn Write) -> io::Result<()> {
    for (hash, size) in drawn::chunks(0, Cuts::Nowhere).take(count) {
        text.write_all(&plain::hex_digits(&hash))?;
        writeln!(text, " {size}\n--")?;
    }
    Ok(())
}

fn shuffled(count: usize, text: &mut dyn Write) -> io::Result<()> {
    let mut numbers: Vec<usize> = (0..count / LENGTH).collect();
    Draws(9).shuffle(&mut numbers);
    for number in numbers {
        writeln!(text, "@{}", number * LENGTH)?;
        pairs(Cuts::Drawn, number as u64, LENGTH, text)?;
    }
    Ok(())
}

// Lines of drawn bytes without a newline.
fn chunks(count: usize, text: &mut dyn Write) -> io::Result<()> {
    let mut draws = Draws(11);
    for _ in 0..count {
        let mut line = Vec::with_capacity(CHUNK + 2);
        line.push(b'+');
        while line.len() <= CHUNK {
            line.extend(draws.number().to_le_bytes().map(|byte| if byte == b'\n' { b' ' } else { byte }));
        }
        line.push(b'\n');
        text.write_all(&line)?;
    }
    Ok(())
}

fn named(variable: &str) -> PathBuf {
    std::env::var_os(variable).expect(variable).into()
}

// What a run took, and the two lines that it printed.
struct Run {
    processor: f64,
    clock: f64,
    kilobytes: u64,
    lines: String,
}

// The processor time of the processes that this one waited for, in seconds.
fn processor_seconds() -> f64 {
    // SAFETY: a struct of numbers, of which all bits zero is a value.
    let mut usage: libc::rusage = unsafe { std::mem::zeroed() };
    // SAFETY: a struct to write to.
    let status = unsafe { libc::getrusage(libc::RUSAGE_CHILDREN, &mut usage) };
    assert_eq!(status, 0, "the times of children");
    let seconds = |time: libc::timeval| time.tv_sec as f64 + time.tv_usec as f64 / 1e6;
    seconds(usage.ru_utime) + seconds(usage.ru_stime)
}

// A command under `time`, which tells the most memory that one of its processes held; for a process that this one starts
// itself the system would count this one's memory too.
fn run(program: &Path, arguments: &[&str], stdin: Option<&Path>) -> Run {
    let mut command = Command::new("/usr/bin/time");
    command.args(["-f", "%M"]).arg(program).args(arguments);
    if let Some(path) = stdin {
        command.stdin(File::open(path).expect("the text"));
    }
    let (start, before) = (Instant::now(), processor_seconds());
    let output = command.output().expect("a program that starts");
    let (clock, processor) = (start.elapsed().as_secs_f64(), processor_seconds() - before);
    let told = String::from_utf8_lossy(&output.stderr);
    assert!(output.status.success(), "{}: {told}", program.display());
    Run {
        processor,
        clock,
        kilobytes: told.trim().parse().expect("kilobytes"),
        lines: String::from_utf8(output.stdout).expect("two lines"),
    }
}

// The processor time of a program that reads a text, and the most memory that it held in any run.
fn timed<'a>(program: &'a Path, text: &'a Path, most: &'a Cell<u64>) -> Task<'a> {
    Task::told(move || {
        let run = run(program, &[], Some(text));
        most.set(most.get().max(run.kilobytes));
        run.processor
    })
}

// A row of `xetroot`, and the line of the memory.
fn xetroot(folder: &Folder, &(name, count, write): &Text, grows: bool) -> String {
    let text = folder.text("text", |text| write(count, text));
    let tenfold = grows.then(|| folder.text("tenfold", |text| write(10 * count, text)));
    let program = named("XETROOT");
    let peer = std::env::current_exe().expect("this program").with_file_name("plain_root");
    assert_eq!(run(&program, &[], Some(&text)).lines, run(&peer, &[], Some(&text)).lines);
    let [ours, theirs, unused] = [0; 3].map(Cell::new);
    let row = Row {
        name: format!("`xetroot`, {name}"),
        ours: timed(&program, &text, &ours),
        peers: vec![("a plain program", timed(&peer, &text, &theirs))],
        tenfold: tenfold.as_deref().map(|text| timed(&program, text, &unused)),
    };
    row.print();
    format!("| {name} | {} | {} |", ours.get(), theirs.get())
}

// Four pieces of a text by four jobs at a time.
fn four_jobs(folder: &Folder, text: &Path) -> Run {
    let results = folder.0.join("results");
    drop(fs::remove_dir_all(&results));
    let [text, results] = [text, &results].map(|path| path.to_str().expect("a path in UTF-8"));
    run(&named("LOCAL"), &[text, "4", results, "-j4"], None)
}

// Rows of `xetrange` by four processes: all their processor time, and the clock.
fn xetrange(folder: &Folder, name: &str, count: usize) {
    let write = |count: usize| move |text: &mut dyn Write| pairs(Cuts::Drawn, 0, count, text);
    let text = folder.text("text", write(count));
    let tenfold = folder.text("tenfold", write(10 * count));
    let program = named("XETROOT");
    assert_eq!(four_jobs(folder, &text).lines, run(&program, &[], Some(&text)).lines);
    let row = Row {
        name: format!("`xetrange`, 4 processes, {name} random pairs"),
        ours: Task::told(|| four_jobs(folder, &text).processor),
        peers: vec![("`xetroot`", Task::told(|| run(&program, &[], Some(&text)).processor))],
        tenfold: Some(Task::told(|| four_jobs(folder, &tenfold).processor)),
    };
    row.print();
    let row = Row {
        name: format!("`xetrange`, 4 processes, {name} random pairs, by the clock"),
        ours: Task::told(|| four_jobs(folder, &text).clock),
        peers: vec![("`xetroot`", Task::told(|| run(&program, &[], Some(&text)).clock))],
        tenfold: None,
    };
    row.print();
}
