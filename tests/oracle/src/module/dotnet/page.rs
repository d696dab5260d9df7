//! The lines of a listing, written to a lent buffer, for `fields.rs` and `values.rs`.

use super::Value;

/// A longer value is not printed.
const LONGEST: usize = 4096;

const DIGITS: &[u8; 16] = b"0123456789ABCDEF";

/// Whether a byte is written as a percent sign and two digits.
fn special(byte: u8) -> bool {
    !(0x22..=0x7E).contains(&byte) || byte == b'%'
}

pub struct Page<'a> {
    out: &'a mut [u8],
    length: usize,
}

impl<'a> Page<'a> {
    pub fn new(out: &'a mut [u8]) -> Self {
        Self { out, length: 0 }
    }

    /// How many bytes are written.
    pub fn length(&self) -> usize {
        self.length
    }

    pub fn text(&mut self, key: &str, text: &[u8]) {
        self.put(key.as_bytes());
        if text.len() > LONGEST {
            self.put(b"!");
        } else {
            self.value(text);
        }
        self.put(b"\n");
    }

    /// The text `before.after`.
    pub fn dotted(&mut self, key: &str, before: &[u8], after: &[u8]) {
        self.put(key.as_bytes());
        if before.len() + 1 + after.len() > LONGEST {
            self.put(b"!");
        } else {
            self.value(before);
            self.put(b".");
            self.value(after);
        }
        self.put(b"\n");
    }

    pub fn number(&mut self, key: &str, mut number: u64) {
        let mut digits = [0; 20];
        let mut at = digits.len();
        loop {
            at -= 1;
            digits[at] = b'0' + (number % 10) as u8;
            number /= 10;
            if number == 0 {
                break;
            }
        }
        self.put(key.as_bytes());
        self.put(&digits[at..]);
        self.put(b"\n");
    }

    /// A value as it is written (2026-05): at once where every byte stands.
    fn value(&mut self, text: &[u8]) {
        if !text.iter().any(|&byte| special(byte)) {
            return self.put(text);
        }
        for &byte in text {
            if special(byte) {
                self.put(&[b'%', DIGITS[usize::from(byte / 16)], DIGITS[usize::from(byte % 16)]]);
            } else {
                self.put(&[byte]);
            }
        }
    }

    fn put(&mut self, bytes: &[u8]) {
        let end = self.length + bytes.len();
        self.out[self.length..end].copy_from_slice(bytes);
        self.length = end;
    }
}

/// A missing value is listed like an empty one.
pub fn bytes(value: &Value) -> &[u8] {
    match value {
        Value::Bytes(bytes) => bytes,
        _ => &[],
    }
}
