//! The lines of `--leaves`: `KIND BYTES NUMBER`, and what a leaf function of dotnet.rs answers.

use crate::bundle;
use crate::module::dotnet::leaves::{self, Lookup, Reader};

enum Kind {
    Number(Reader),
    Content(Lookup),
    Place(Lookup),
}

/// The line with its answer; nothing for a line that is passed over; an error for one that cannot be read.
pub fn answer(line: &[u8]) -> Result<Option<Vec<u8>>, String> {
    let question = without_answer(line);
    let mut words = question.split(|byte| *byte == b' ');
    let Some(kind) = words.next().and_then(kind_of) else {
        return Ok(None);
    };
    let (bytes, number) = bytes_and_number(words)
        .ok_or_else(|| format!("no line: {}", String::from_utf8_lossy(question)))?;
    let answer = match kind {
        Kind::Number(reader) => number_at(reader, &bytes, number),
        Kind::Content(lookup) => Some(content(lookup, &bytes, number)),
        Kind::Place(lookup) => Some(place(lookup, &bytes, number)),
    };
    Ok(answer.map(|answer| [question, b" = ", &answer, b"\n"].concat()))
}

fn without_answer(line: &[u8]) -> &[u8] {
    let end = line.windows(3).position(|part| part == b" = ");
    &line[..end.unwrap_or(line.len())]
}

fn kind_of(word: &[u8]) -> Option<Kind> {
    match word {
        b"unsigned" => Some(Kind::Number(Reader::Unsigned)),
        b"signed" => Some(Kind::Number(Reader::Signed)),
        b"u16" => Some(Kind::Number(Reader::U16)),
        b"u32" => Some(Kind::Number(Reader::U32)),
        b"index2" => Some(Kind::Number(Reader::Index2)),
        b"index4" => Some(Kind::Number(Reader::Index4)),
        b"string" => Some(Kind::Content(Lookup::String)),
        b"blob" => Some(Kind::Content(Lookup::Blob)),
        b"string-at" => Some(Kind::Place(Lookup::String)),
        b"blob-at" => Some(Kind::Place(Lookup::Blob)),
        _ => None,
    }
}

fn bytes_and_number<'a>(mut words: impl Iterator<Item = &'a [u8]>) -> Option<(Vec<u8>, usize)> {
    let bytes = hex(words.next()?)?;
    let number = bundle::decimal(words.next()?)?;
    words.next().is_none().then_some((bytes, number))
}

fn hex(word: &[u8]) -> Option<Vec<u8>> {
    if word == b"-" {
        return Some(Vec::new());
    }
    if word.is_empty() || word.len() % 2 != 0 {
        return None;
    }
    word.chunks(2)
        .map(|pair| Some(hex_digit(pair[0])? << 4 | hex_digit(pair[1])?))
        .collect()
}

fn hex_digit(digit: u8) -> Option<u8> {
    match digit {
        b'0'..=b'9' => Some(digit - b'0'),
        b'A'..=b'F' => Some(digit - b'A' + 10),
        _ => None,
    }
}

/// Nothing if the position is past the end.
fn number_at(reader: Reader, bytes: &[u8], position: usize) -> Option<Vec<u8>> {
    let (number, left) = leaves::read(reader, bytes.get(position..)?);
    let number = number.map_or("none".to_string(), |number| number.to_string());
    Some(format!("{number}, next {}", bytes.len() - left).into_bytes())
}

fn content(lookup: Lookup, heap: &[u8], index: usize) -> Vec<u8> {
    match leaves::find(lookup, heap, index) {
        Some(part) => [b"0 ", part].concat(),
        None => b"7 ".to_vec(),
    }
}

fn place(lookup: Lookup, heap: &[u8], index: usize) -> Vec<u8> {
    let Some(part) = leaves::find(lookup, heap, index) else {
        return b"absent".to_vec();
    };
    let start = part.as_ptr() as usize - heap.as_ptr() as usize;
    format!("{start} + {}", part.len()).into_bytes()
}
