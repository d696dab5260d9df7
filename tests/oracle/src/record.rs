//! What the tables half says of three streams: the walk, and the class record with its steps.

pub type Text = Option<Vec<u8>>;

#[derive(PartialEq)]
pub enum NoAnswer {
    Refused(u8),
    /// The Rust panicked.
    Panicked,
    /// The probe and the Rust do not agree: a fault of the probe.
    Inconsistent(&'static str),
}

#[derive(Clone, Copy, Default)]
pub struct Extent {
    pub start: usize,
    pub row_size: usize,
    pub rows: usize,
}

pub struct Walk {
    pub extents: [Extent; 64],
    pub stop: usize,
}

/// How many type bytes are read for a name (2026-06).
#[derive(Clone, Copy)]
pub enum Steps {
    /// They are not counted.
    Untold,
    Are(u64),
    /// More than the ceiling: the reading was ended, and the names beside this are not what they would be.
    Over,
}

pub struct ClassRecord {
    pub name: Text,
    pub flags: u32,
    pub generics: Vec<Text>,
    pub bases: Vec<Text>,
    pub methods: Vec<MethodRecord>,
    /// Of all its base types, those without a name too.
    pub steps: Steps,
}

pub struct MethodRecord {
    /// Its row in MethodDef, from 0.
    pub number: usize,
    pub name: Text,
    pub flags: u16,
    pub generics: Vec<Text>,
    pub returns: Text,
    pub params: Vec<ParamRecord>,
    /// Of all readings of its signature, by every class that reads it.
    pub steps: Steps,
}

pub struct ParamRecord {
    pub typ: Text,
    pub name: Text,
}
