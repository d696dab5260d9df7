//! The Rust's listings for a C program: the root of target/oracle/liboracle.a. bench/bench.c measures them.

use std::slice;

use bundle::Streams;
use module::dotnet::{fields, values};

#[allow(dead_code)]
mod bundle;
#[allow(dead_code)]
mod module;
#[allow(dead_code)]
mod record;

/// `struct bytes` of tests/fuzz/calls.h.
#[repr(C)]
#[derive(Clone, Copy)]
pub struct Part {
    at: *const u8,
    length: usize,
}

impl Part {
    unsafe fn bytes<'a>(self) -> &'a [u8] {
        if self.length == 0 {
            return &[];
        }
        slice::from_raw_parts(self.at, self.length)
    }
}

unsafe fn streams<'a>(tables: Part, strings: Part, blob: Part) -> Streams<'a> {
    Streams {
        tables: tables.bytes(),
        strings: strings.bytes(),
        blob: blob.bytes(),
    }
}

/// The listing of the part that we take, and no other work. Nothing is freed.
///
/// # Safety
/// The parts can be read, and the text has room for the listing; else it panics, which ends the process.
#[no_mangle]
pub unsafe extern "C" fn rust_fields(
    tables: Part,
    strings: Part,
    blob: Part,
    text: *mut u8,
    room: usize,
) -> usize {
    let text = slice::from_raw_parts_mut(text, room);
    fields::write(&streams(tables, strings, blob), text)
}

/// The same listing, by way of all the values that the Rust makes, which are freed.
///
/// # Safety
/// As for `rust_fields`.
#[no_mangle]
pub unsafe extern "C" fn rust_values(
    tables: Part,
    strings: Part,
    blob: Part,
    text: *mut u8,
    room: usize,
) -> usize {
    let text = slice::from_raw_parts_mut(text, room);
    values::write(&streams(tables, strings, blob), text)
}
