//! The input of the listing program: three lines with lengths, then three streams.

pub const MOST_BYTES: usize = 65_536;

pub struct Streams<'a> {
    pub tables: &'a [u8],
    pub strings: &'a [u8],
    pub blob: &'a [u8],
}

/// The three streams, or nothing where the input is malformed or too long.
pub fn open(input: &[u8]) -> Option<Streams<'_>> {
    if input.len() > MOST_BYTES {
        return None;
    }
    let (tables, rest) = take_line(input, b"tables=")?;
    let (strings, rest) = take_line(rest, b"strings=")?;
    let (blob, rest) = take_line(rest, b"blob=")?;
    if tables.checked_add(strings)?.checked_add(blob)? != rest.len() {
        return None;
    }
    let (tables, rest) = rest.split_at(tables);
    let (strings, blob) = rest.split_at(strings);
    Some(Streams {
        tables,
        strings,
        blob,
    })
}

/// The number of the line that begins with `key`, and what follows that line.
fn take_line<'a>(input: &'a [u8], key: &[u8]) -> Option<(usize, &'a [u8])> {
    let rest = input.strip_prefix(key)?;
    let end = rest.iter().position(|byte| *byte == b'\n')?;
    let number = decimal(&rest[..end])?;
    Some((number, &rest[end + 1..]))
}

pub fn decimal(digits: &[u8]) -> Option<usize> {
    let leading_zero = digits.len() > 1 && digits[0] == b'0';
    if leading_zero || !digits.iter().all(u8::is_ascii_digit) {
        return None;
    }
    std::str::from_utf8(digits).ok()?.parse().ok()
}
