//! The oracle: what the tables half of boreal's dotnet.rs says of an input of the listing program.
//! README.md beside the build script describes the modes.

use std::fs::File;
use std::io::{self, BufRead, BufReader, BufWriter, ErrorKind::InvalidData, Read, Write};
use std::process::exit;
use std::{env, panic, thread};

use bundle::Streams;
use module::dotnet::probe;
use record::{ClassRecord, NoAnswer};

mod bundle;
mod counted;
mod lines;
// What the tables half leaves unused is dead code here.
#[allow(dead_code)]
mod module;
mod record;
mod text;

/// The Rust's recursion is as deep as signatures are long.
const STACK: usize = 1 << 30;

/// The steps that a listing allows for a name (2026-06).
const CEILING: u64 = 1_000_000;

const USAGE: &str =
    "usage: oracle [--extents | --record | --steps] [--ceiling STEPS] [--check] [--batch FILE], or oracle --leaves";

#[derive(Clone, Copy)]
enum Mode {
    Extents,
    Classes(text::Style),
    Steps,
}

struct Options {
    mode: Mode,
    ceiling: u64,
    check: bool,
    batch: Option<String>,
    leaves: bool,
}

fn main() {
    let Some(options) = options() else {
        eprintln!("{USAGE}");
        exit(2);
    };
    silence_panics_of_the_rust();
    let work = thread::Builder::new()
        .stack_size(STACK)
        .spawn(move || run(&options))
        .expect("no thread with a large stack");
    match work.join().expect("the thread ends") {
        Ok(true) => (),
        Ok(false) => exit(3),
        Err(error) => {
            eprintln!("oracle: {error}");
            exit(2);
        }
    }
}

fn options() -> Option<Options> {
    let mut options = Options {
        mode: Mode::Classes(text::Style::Listing),
        ceiling: CEILING,
        check: false,
        batch: None,
        leaves: false,
    };
    let mut arguments = env::args().skip(1);
    while let Some(argument) = arguments.next() {
        match argument.as_str() {
            "--extents" => options.mode = Mode::Extents,
            "--record" => options.mode = Mode::Classes(text::Style::Record),
            "--steps" => options.mode = Mode::Steps,
            "--ceiling" => options.ceiling = arguments.next()?.parse().ok()?,
            "--check" => options.check = true,
            "--batch" => options.batch = Some(arguments.next()?),
            "--leaves" => options.leaves = true,
            _ => return None,
        }
    }
    let alone = env::args().len() == 2;
    (alone || !options.leaves).then_some(options)
}

/// A panic inside dotnet.rs is an answer; any other is a fault of the oracle and ends it.
fn silence_panics_of_the_rust() {
    panic::set_hook(Box::new(|info| {
        let file = info.location().map_or("", |place| place.file());
        if !file.ends_with("dotnet.rs") {
            eprintln!("oracle: {info}");
            exit(3);
        }
    }));
}

/// Whether every answer was consistent.
fn run(options: &Options) -> io::Result<bool> {
    let mut out = io::stdout().lock();
    if options.leaves {
        return run_leaves(io::stdin().lock(), &mut out);
    }
    match &options.batch {
        Some(path) => run_batch(options, BufReader::new(File::open(path)?), &mut out),
        None => {
            let mut input = Vec::new();
            let most = bundle::MOST_BYTES as u64 + 1;
            io::stdin().lock().take(most).read_to_end(&mut input)?;
            let (text, consistent) = answer(options, &input);
            out.write_all(&text)?;
            Ok(consistent)
        }
    }
}

fn run_leaves(input: impl BufRead, out: &mut impl Write) -> io::Result<bool> {
    let mut out = BufWriter::new(out);
    for line in input.split(b'\n') {
        let answer = lines::answer(&line?).map_err(|what| io::Error::new(InvalidData, what))?;
        out.write_all(&answer.unwrap_or_default())?;
    }
    out.flush()?;
    Ok(true)
}

/// Each answer is flushed, so that a caller may feed a pipe case by case.
fn run_batch(options: &Options, mut cases: impl Read, out: &mut impl Write) -> io::Result<bool> {
    let mut all_consistent = true;
    while let Some(input) = next_case(&mut cases)? {
        let (text, consistent) = answer(options, &input);
        all_consistent &= consistent;
        out.write_all(&(text.len() as u32).to_le_bytes())?;
        out.write_all(&text)?;
        out.flush()?;
    }
    Ok(all_consistent)
}

fn next_case(cases: &mut impl Read) -> io::Result<Option<Vec<u8>>> {
    let mut length = [0; 4];
    if cases.read(&mut length[..1])? == 0 {
        return Ok(None);
    }
    cases.read_exact(&mut length[1..])?;
    let mut input = vec![0; u32::from_le_bytes(length) as usize];
    cases.read_exact(&mut input)?;
    Ok(Some(input))
}

fn answer(options: &Options, input: &[u8]) -> (Vec<u8>, bool) {
    match try_answer(options, input) {
        Ok(text) => (text, true),
        Err(NoAnswer::Refused(number)) => (format!("refused={number}\n").into_bytes(), true),
        Err(NoAnswer::Panicked) => (b"panic\n".to_vec(), true),
        Err(NoAnswer::Inconsistent(what)) => {
            eprintln!("oracle: inconsistent: {what}");
            (b"inconsistent\n".to_vec(), false)
        }
    }
}

fn try_answer(options: &Options, input: &[u8]) -> Result<Vec<u8>, NoAnswer> {
    let streams = bundle::open(input).ok_or(NoAnswer::Refused(8))?;
    match options.mode {
        Mode::Extents => {
            if options.check && !counted::record(&streams, options.ceiling).over {
                check(&streams)?;
            }
            probe::extents(&streams).map(|walk| text::walk(&walk))
        }
        Mode::Classes(style) => {
            record(options, &streams).map(|(stop, classes)| text::classes(stop, &classes, style))
        }
        Mode::Steps => record(options, &streams).map(|(_, classes)| text::steps(&classes)),
    }
}

fn check(streams: &Streams) -> Result<(), NoAnswer> {
    if !probe::agrees(streams) {
        return Err(NoAnswer::Inconsistent("add_metadata_tables"));
    }
    Ok(())
}

/// The stopping kind and the class record with its steps. Where nothing is over the ceiling, the record is that of the copy that counts
/// nothing, which need not come back elsewhere.
fn record(options: &Options, streams: &Streams) -> Result<(usize, Vec<ClassRecord>), NoAnswer> {
    let counted = counted::record(streams, options.ceiling);
    if counted.over {
        return counted.record;
    }
    if options.check {
        check(streams)?;
    }
    let plain = probe::record(streams).map(|found| whole(&found));
    match (plain, counted.record) {
        (Ok(plain), Ok(found)) if plain == whole(&found) => Ok(found),
        (Err(plain), Err(why)) if plain == why => Err(why),
        _ => Err(NoAnswer::Inconsistent("counting")),
    }
}

fn whole((stop, classes): &(usize, Vec<ClassRecord>)) -> Vec<u8> {
    text::classes(*stop, classes, text::Style::Record)
}
