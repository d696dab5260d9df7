//! The answers as text.

use crate::record::{ClassRecord, MethodRecord, Steps, Text, Walk};

/// A longer value is not printed in a listing.
const LONGEST: usize = 4096;

/// How the values of the record are written.
#[derive(Clone, Copy)]
pub enum Style {
    /// As they stand; a missing one like an empty one; a long one as `!`.
    Listing,
    /// In hex and whole, after `=`; a missing one as the key without `=`.
    Record,
}

pub fn walk(walk: &Walk) -> Vec<u8> {
    let mut out = String::new();
    for (kind, extent) in walk.extents.iter().enumerate() {
        let (start, row_size, rows) = (extent.start, extent.row_size, extent.rows);
        out += &format!("{kind} {start} {row_size} {rows}\n");
    }
    out += &format!("stop={}\n", walk.stop);
    out.into_bytes()
}

pub fn classes(stop: usize, classes: &[ClassRecord], style: Style) -> Vec<u8> {
    let mut page = Page {
        style,
        out: Vec::new(),
    };
    page.number("stop", stop);
    page.number("classes", classes.len());
    for class in classes {
        page.class(class);
    }
    page.out
}

/// A line for the base types of each class, and one for each of its methods: how many steps they take.
pub fn steps(classes: &[ClassRecord]) -> Vec<u8> {
    let mut out = String::new();
    for (c, class) in classes.iter().enumerate() {
        out += &format!("class={c} steps={}\n", count(class.steps));
        for (m, method) in class.methods.iter().enumerate() {
            out += &format!("method={c},{m} steps={}\n", count(method.steps));
        }
    }
    out.into_bytes()
}

fn count(steps: Steps) -> String {
    match steps {
        Steps::Are(number) => number.to_string(),
        Steps::Over => "!".to_string(),
        Steps::Untold => unreachable!(),
    }
}

struct Page {
    style: Style,
    out: Vec<u8>,
}

impl Page {
    fn class(&mut self, class: &ClassRecord) {
        self.text("class", &class.name);
        self.number("flags", class.flags);
        self.texts("generic", &class.generics);
        match class.steps {
            Steps::Over => self.over("base"),
            _ => self.texts("base", &class.bases),
        }
        for method in &class.methods {
            self.method(method);
        }
    }

    fn method(&mut self, method: &MethodRecord) {
        self.text("method", &method.name);
        self.number("mflags", method.flags);
        self.texts("mgeneric", &method.generics);
        if let Steps::Over = method.steps {
            return self.over("returns");
        }
        self.text("returns", &method.returns);
        for param in &method.params {
            self.text("ptype", &param.typ);
            self.text("pname", &param.name);
        }
    }

    fn number<N: std::fmt::Display>(&mut self, key: &str, number: N) {
        self.out.extend(format!("{key}={number}\n").into_bytes());
    }

    /// In place of all the names that take too many steps (2026-06).
    fn over(&mut self, key: &str) {
        self.out.extend(format!("{key}=!\n").into_bytes());
    }

    fn texts(&mut self, key: &str, texts: &[Text]) {
        for text in texts {
            self.text(key, text);
        }
    }

    fn text(&mut self, key: &str, text: &Text) {
        self.out.extend(key.as_bytes());
        match self.style {
            Style::Listing => self.listed(text.as_deref().unwrap_or_default()),
            Style::Record => self.recorded(text.as_deref()),
        }
        self.out.push(b'\n');
    }

    /// A value as it is written (2026-05), or the mark for a longer one.
    fn listed(&mut self, text: &[u8]) {
        self.out.push(b'=');
        if text.len() > LONGEST {
            return self.out.push(b'!');
        }
        for &byte in text {
            match byte {
                0..=0x21 | b'%' | 0x7F.. => self.out.extend(format!("%{byte:02X}").into_bytes()),
                _ => self.out.push(byte),
            }
        }
    }

    fn recorded(&mut self, text: Option<&[u8]>) {
        let Some(text) = text else { return };
        self.out.push(b'=');
        for byte in text {
            self.out.extend(format!("{byte:02x}").into_bytes());
        }
    }
}
