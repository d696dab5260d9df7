//! The same calls as a Rust program links them, against the recorded answers of crates/call_vectors/data/cases, steps and modes, and against
//! those of the file `wrong` beside them, which are wrong on purpose, so that each must differ:
//!
//!     replay CALLS STEPS MODES WRONG_CALLS
//!
//! A name is asked for in a buffer of its length and in one that is a byte longer. A call that counts nothing and has an allowance is not
//! asked: its question alone takes one, which the C program asks. Exit status: 0 all is as it should be, 1 something is not.
use std::{env, fs, process};

#[repr(C)]
#[derive(PartialEq, Clone, Copy)]
struct DnReply {
    value: usize,
    refusal: usize,
    reason: usize,
}

/// What is lent to a call, and the bits that say how it is opened.
#[derive(Default)]
struct Opened {
    streams: [Vec<u8>; 3],
    options: u32,
}

macro_rules! calls {
    ($($name:ident($($number:ident),*) $(within $steps:ident)? $(in $buf:ident)?;)*) => {
        extern "C" {
            $(fn $name(tables: *const u8, tables_len: usize, strings: *const u8, strings_len: usize, blob: *const u8, blob_len: usize,
                options: u32 $(, $steps: *mut u64)? $(, $number: u32)* $(, $buf: *mut u8, buf_len: usize)?) -> DnReply;)*
        }
        /// The call of that name, with what is left of an allowance if it takes one, and a buffer if it takes one.
        fn ask(call: &str, opened: &Opened, n: &[u32], left: &mut u64, buf: &mut [u8]) -> Option<DnReply> {
            let s = &opened.streams;
            let mut rest = n.iter().copied();
            $(if stringify!($name).strip_prefix("dn_") == Some(call) {
                // SAFETY: each slice is passed as its pointer and its length, and the number and the buffer are lent to this call alone
                return Some(unsafe { $name(s[0].as_ptr(), s[0].len(), s[1].as_ptr(), s[1].len(), s[2].as_ptr(), s[2].len(), opened.options
                    $(, { let $steps: *mut u64 = left; $steps })? $(, { let $number = rest.next().unwrap_or(0); $number })*
                    $(, { let $buf = buf.as_mut_ptr(); $buf }, buf.len())?) });
            })*
            None
        }
        /// Whether it takes an allowance.
        fn is_counting(call: &str) -> bool {
            [$($((stringify!($name), stringify!($steps)),)?)*].iter().any(|(name, _)| name.strip_prefix("dn_") == Some(call))
        }
    };
}

calls! {
    dn_class_count();
    dn_class_flags(class);
    dn_class_packing(class);
    dn_class_size(class);
    dn_class_name(class) in buf;
    dn_generic_count(class);
    dn_generic_name(class, generic) in buf;
    dn_base_count(class) within steps;
    dn_base_name(class, base) within steps in buf;
    dn_method_count(class);
    dn_method_flags(class, method);
    dn_method_name(class, method) in buf;
    dn_method_generic_count(class, method);
    dn_method_generic_name(class, method, generic) in buf;
    dn_return_type(class, method) within steps in buf;
    dn_param_count(class, method) within steps;
    dn_param_type(class, method, parameter) within steps in buf;
    dn_param_name(class, method, parameter) within steps in buf;
}

fn from_hex(text: &str) -> Vec<u8> {
    text.as_bytes().chunks_exact(2).map(|two| u8::from_str_radix(std::str::from_utf8(two).unwrap(), 16).unwrap()).collect()
}

/// The number and the reason of a refusal, `!5.2` or `!5`; 0 and 0 where nothing is refused.
fn refusal_in(answer: &str) -> (usize, usize) {
    let Some(said) = answer.strip_prefix('!') else { return (0, 0) };
    let (number, reason) = said.split_once('.').unwrap_or((said, "0"));
    (number.parse().unwrap(), reason.parse().unwrap())
}

/// The numbers of a line, and its allowance and what is to be left of it: `NUMBERS` or `NUMBERS /ALLOWANCE LEFT`.
fn numbers_in<'a>(words: impl Iterator<Item = &'a str>) -> (Vec<u32>, Option<(u64, u64)>) {
    let words: Vec<&str> = words.collect();
    let (numbers, steps) = words.split_at(words.iter().position(|word| word.starts_with('/')).unwrap_or(words.len()));
    let within = match steps {
        [allowance, left] => Some((allowance[1..].parse().unwrap(), left.parse().unwrap())),
        _ => None,
    };
    (numbers.iter().map(|n| n.parse().unwrap()).collect(), within)
}

/// Nothing for a line that is not asked here.
fn agrees(line: &str, opened: &Opened) -> Option<bool> {
    let (asked, answer) = line.split_once('=').unwrap();
    let (mut words, answer) = (asked.split_whitespace(), answer.trim());
    let call = words.next().unwrap();
    let (numbers, within) = numbers_in(words);
    if within.is_some() != is_counting(call) {
        return if within.is_some() { None } else { Some(false) };
    }
    let (allowance, left) = within.unwrap_or((0, 0));
    let (refusal, reason) = refusal_in(answer);
    let agrees_in = |buf: &mut [u8], value: usize| {
        let mut steps = allowance;
        ask(call, opened, &numbers, &mut steps, buf) == Some(DnReply { value, refusal, reason }) && steps == left
    };
    if !call.ends_with("_name") && !call.ends_with("_type") {
        return Some(agrees_in(&mut [], if refusal == 0 { answer.parse().unwrap() } else { 0 }));
    }
    let name = if refusal == 0 { from_hex(answer) } else { Vec::new() };
    Some((0..2).all(|more| {
        let mut buf = vec![0xAA; name.len() + more];
        let mut expected = name.clone();
        expected.resize(buf.len(), 0);
        agrees_in(&mut buf, name.len()) && buf == expected
    }))
}

/// Whether there are answers and all are as they should be.
fn replay(path: &str, wrong: bool) -> bool {
    let text = fs::read_to_string(path).expect("the file can be read");
    let mut opened = Opened::default();
    let (mut agreed, mut differed) = (0, 0);
    for line in text.lines().filter(|line| !line.starts_with('#') && !line.is_empty()) {
        if line.starts_with('@') {
            opened.options = 0;
            continue;
        }
        if let Some(bits) = line.strip_prefix("options ") {
            opened.options = bits.parse().unwrap();
            continue;
        }
        if let Some(at) = ["tables ", "strings ", "blob "].iter().position(|key| line.starts_with(key)) {
            opened.streams[at] = from_hex(line.split_once(' ').unwrap().1);
            continue;
        }
        let Some(agrees) = agrees(line, &opened) else { continue };
        *(if agrees { &mut agreed } else { &mut differed }) += 1;
        if agrees == wrong {
            println!("FAIL  {line}");
        }
    }
    println!("calls{}: {agreed} agreed, {differed} differed", if wrong { ", wrong on purpose" } else { "" });
    if wrong { agreed == 0 && differed > 0 } else { agreed > 0 && differed == 0 }
}

fn main() {
    let paths: Vec<String> = env::args().skip(1).collect();
    let [calls, steps, modes, wrong_calls] = &paths[..] else { panic!("usage: replay CALLS STEPS MODES WRONG_CALLS") };
    let well = replay(calls, false) & replay(steps, false) & replay(modes, false) & replay(wrong_calls, true);
    process::exit(if well { 0 } else { 1 });
}
