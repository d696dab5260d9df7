//! The leaf functions of dotnet.rs, each by itself: the readers of numbers and the lookups in the heaps.

use super::*;

#[derive(Clone, Copy)]
pub enum Reader {
    Unsigned,
    Signed,
    U16,
    U32,
    Index2,
    Index4,
}

#[derive(Clone, Copy)]
pub enum Lookup {
    String,
    Blob,
}

/// The number that stands first in the bytes, and how many bytes the reader leaves.
pub fn read(reader: Reader, bytes: &[u8]) -> (Option<i64>, usize) {
    let mut rest = Bytes(bytes);
    let number = match reader {
        Reader::Unsigned => read_encoded_uint(&mut rest).map(i64::from),
        Reader::Signed => read_encoded_sint(&mut rest).map(i64::from),
        Reader::U16 => read_u16(&mut rest).ok().map(i64::from),
        Reader::U32 => read_u32(&mut rest).ok().map(i64::from),
        Reader::Index2 => read_index(&mut rest, 2).ok().map(i64::from),
        Reader::Index4 => read_index(&mut rest, 4).ok().map(i64::from),
    };
    (number, rest.0.len())
}

/// The part of the heap that the index leads to.
pub fn find(lookup: Lookup, heap: &[u8], index: usize) -> Option<&[u8]> {
    let data = probe::heaps_alone(heap);
    match lookup {
        Lookup::String => data.get_string(index),
        Lookup::Blob => data.get_blob(index),
    }
}
