//! Runs the tables half of dotnet.rs on three streams and reads what it found, raw flags included.
//!
//! `open` and `walk` repeat the steps of `add_metadata_tables` (boreal, MIT OR Apache-2.0), because the
//! original keeps the bytes left and the flags to itself. `agrees` compares the outcome with that of the
//! unchanged `add_metadata_tables`.

use std::panic::{catch_unwind, AssertUnwindSafe};

use super::*;
use crate::bundle::Streams;
use crate::record::{ClassRecord, Extent, MethodRecord, NoAnswer, ParamRecord, Steps, Text, Walk};

/// The number that `open` says no with.
pub(super) fn refusal(why: NoAnswer) -> u8 {
    match why {
        NoAnswer::Refused(number) => number,
        _ => unreachable!(),
    }
}

/// The extents of the tables. Names are not rendered, so that nothing here can panic.
pub fn extents(streams: &Streams) -> Result<Walk, NoAnswer> {
    let opened = open(streams.tables)?;
    let mut data = tables_data(streams, &opened);
    walk(
        &mut data,
        streams.tables.len(),
        &opened,
        &mut HashMap::new(),
    )
}

/// The stopping kind and the class record.
pub fn record(streams: &Streams) -> Result<(usize, Vec<ClassRecord>), NoAnswer> {
    let found = find(streams)?;
    Ok((found.stop, found.classes()))
}

/// Whether the unchanged `add_metadata_tables` gives the same values as the probe's own run, its refusals
/// and panics included.
pub fn agrees(streams: &Streams) -> bool {
    let original = catch(|| original_values(streams));
    match (find(streams), original) {
        (Ok(found), Ok(values)) => found.original_values() == values,
        (Err(NoAnswer::Refused(_)), Ok(values)) => values.is_empty(),
        (Err(NoAnswer::Panicked), Err(_)) => true,
        _ => false,
    }
}

fn catch<T>(run: impl FnOnce() -> T) -> Result<T, NoAnswer> {
    catch_unwind(AssertUnwindSafe(run)).map_err(|_| NoAnswer::Panicked)
}

// Opening and walking, as `add_metadata_tables` does.

pub(super) struct Opened<'a> {
    pub(super) counts: [u32; 64],
    heap_sizes: u8,
    rest: Bytes<'a>,
}

pub(super) fn open(stream: &[u8]) -> Result<Opened<'_>, NoAnswer> {
    let mut bytes = Bytes(stream);
    let header = bytes
        .read::<MetadataStreamHeader>()
        .map_err(|()| NoAnswer::Refused(1))?;
    let valid = header.valid.get(LE);
    let mut rows = bytes
        .read_bytes(valid.count_ones() as usize * 4)
        .map_err(|()| NoAnswer::Refused(2))?;

    let mut counts = [0; 64];
    for (kind, count) in counts.iter_mut().enumerate() {
        if valid & (1 << kind) == 0 {
            continue;
        }
        *count = read_u32(&mut rows).map_err(|()| NoAnswer::Inconsistent("counts"))?;
        if *count > 15_000 {
            return Err(NoAnswer::Refused(3));
        }
    }
    Ok(Opened {
        counts,
        heap_sizes: header.heap_sizes,
        rest: bytes,
    })
}

pub(super) fn tables_data<'a>(streams: &Streams<'a>, opened: &Opened<'a>) -> TablesData<'a> {
    TablesData::new(
        &[],
        opened.rest,
        no_sections(),
        None,
        Some(streams.strings),
        Some(streams.blob),
        &opened.counts,
        opened.heap_sizes,
    )
}

/// No tables, and both heaps are these bytes.
pub(super) fn heaps_alone(heap: &[u8]) -> TablesData<'_> {
    let streams = Streams {
        tables: &[],
        strings: heap,
        blob: heap,
    };
    let opened = Opened {
        counts: [0; 64],
        heap_sizes: 0,
        rest: Bytes(&[]),
    };
    tables_data(&streams, &opened)
}

fn no_sections() -> pe_utils::SectionTable<'static> {
    let zeros = [0; 512];
    let (headers, _) = object::pod::from_bytes::<ImageNtHeaders32>(&zeros).unwrap();
    pe_utils::SectionTable::new(headers, &[], 0).unwrap()
}

fn walk(
    data: &mut TablesData,
    stream_len: usize,
    opened: &Opened,
    values: &mut HashMap<&'static str, Value>,
) -> Result<Walk, NoAnswer> {
    let mut walk = Walk {
        extents: [Extent::default(); 64],
        stop: 64,
    };
    for kind in 0..64 {
        let count = opened.counts[usize::from(kind)];
        if count == 0 {
            continue;
        }
        let left = data.data.0.len();
        let read = data.parse_table_type(kind, count, values).is_ok();
        let used = left - data.data.0.len();

        let extent = extent_of(row_size(opened, kind), count as usize, stream_len, left);
        let fits = extent.row_size > 0 && extent.rows == count as usize;
        if read != fits || (read && used != extent.rows * extent.row_size) {
            return Err(NoAnswer::Inconsistent("bytes used"));
        }
        walk.extents[usize::from(kind)] = extent;
        if !read {
            walk.stop = usize::from(kind);
            break;
        }
    }
    if !kept_rows_match(data, &walk) {
        return Err(NoAnswer::Inconsistent("rows kept"));
    }
    Ok(walk)
}

fn extent_of(row_size: Option<usize>, count: usize, stream_len: usize, left: usize) -> Extent {
    row_size.map_or(Extent::default(), |row_size| Extent {
        start: stream_len - left,
        row_size,
        rows: count.min(left / row_size),
    })
}

/// The bytes that the Rust uses up for one row of zeros under the same widths; nothing for a kind that it
/// does not know.
fn row_size(opened: &Opened, kind: u8) -> Option<usize> {
    let zeros = [0; 256];
    let mut data = TablesData::new(
        &[],
        Bytes(&zeros),
        no_sections(),
        None,
        None,
        None,
        &opened.counts,
        opened.heap_sizes,
    );
    let before = data.data.0.len();
    data.parse_table_type(kind, 1, &mut HashMap::new()).ok()?;
    Some(before - data.data.0.len())
}

/// The Rust keeps the whole rows of a cut TypeDef, MethodDef or Param table: as many as the walk says?
fn kept_rows_match(data: &TablesData, walk: &Walk) -> bool {
    let rows = |kind: u8| walk.extents[usize::from(kind)].rows;
    data.classes.len() == rows(table_type::TYPE_DEF).saturating_sub(1)
        && data.methods.len() == rows(table_type::METHOD_DEF)
        && data.param_names.len() == rows(table_type::PARAM)
}

// The record, through the unchanged `finalize`.

struct MethodNote {
    name: Text,
    flags: u16,
}

struct Found {
    stop: usize,
    class_flags: Vec<u32>,
    /// By method number. In `values` a method's name is that number.
    notes: Vec<MethodNote>,
    values: HashMap<&'static str, Value>,
}

fn find(streams: &Streams) -> Result<Found, NoAnswer> {
    let opened = open(streams.tables)?;
    let mut data = tables_data(streams, &opened);
    let mut values = HashMap::new();
    let walk = walk(&mut data, streams.tables.len(), &opened, &mut values)?;

    let class_flags = data.classes.iter().map(|class| class.flags).collect();
    let notes = data
        .methods
        .iter_mut()
        .enumerate()
        .map(note_method)
        .collect();
    catch(|| data.finalize(&mut values))?;
    Ok(Found {
        stop: walk.stop,
        class_flags,
        notes,
        values,
    })
}

/// Notes what `Method::into_value` loses, and puts the method's number in place of its name: the name
/// takes part in nothing but the loss of a constructor's return type.
fn note_method((number, method): (usize, &mut Method)) -> MethodNote {
    MethodNote {
        name: method.name.replace(number.to_string().into_bytes()),
        flags: method.flags,
    }
}

impl Found {
    fn classes(&self) -> Vec<ClassRecord> {
        let classes = array(&self.values["classes"]);
        assert_eq!(classes.len(), self.class_flags.len());
        classes
            .iter()
            .zip(&self.class_flags)
            .map(|(class, flags)| ClassRecord {
                name: text(field(class, "fullname")),
                flags: *flags,
                generics: texts(field(class, "generic_parameters")),
                bases: texts(field(class, "base_types")),
                methods: self.methods(field(class, "methods")),
                steps: Steps::Untold,
            })
            .collect()
    }

    fn methods(&self, methods: &Value) -> Vec<MethodRecord> {
        array(methods)
            .iter()
            .map(|method| {
                let number = number(method);
                let note = &self.notes[number];
                MethodRecord {
                    number,
                    name: note.name.clone(),
                    flags: note.flags,
                    generics: texts(field(method, "generic_parameters")),
                    returns: text(field(method, "return_type")),
                    params: params(field(method, "parameters")),
                    steps: Steps::Untold,
                }
            })
            .collect()
    }

    /// The values as they are without the renaming.
    fn original_values(&self) -> HashMap<&'static str, Value> {
        let mut values = self.values.clone();
        for class in array_mut(values.get_mut("classes").unwrap()) {
            for method in array_mut(field_mut(class, "methods")) {
                let name = self.notes[number(method)].name.clone();
                if matches!(name.as_deref(), Some(b".ctor" | b".cctor")) {
                    *field_mut(method, "return_type") = Value::Undefined;
                }
                *field_mut(method, "name") = name.into();
            }
        }
        values
    }
}

/// The number of a method, which stands in place of its name.
fn number(method: &Value) -> usize {
    let number = text(field(method, "name")).unwrap();
    String::from_utf8(number).unwrap().parse().unwrap()
}

fn params(params: &Value) -> Vec<ParamRecord> {
    array(params)
        .iter()
        .map(|param| ParamRecord {
            typ: text(field(param, "type")),
            name: text(field(param, "name")),
        })
        .collect()
}

// Reading values. A value of another shape is a fault of the probe, and panics.

pub(super) fn field<'a>(value: &'a Value, key: &str) -> &'a Value {
    match value {
        Value::Object(fields) => &fields[key],
        _ => panic!("no object"),
    }
}

fn field_mut<'a>(value: &'a mut Value, key: &str) -> &'a mut Value {
    match value {
        Value::Object(fields) => fields.get_mut(key).unwrap(),
        _ => panic!("no object"),
    }
}

pub(super) fn array(value: &Value) -> &[Value] {
    match value {
        Value::Array(values) => values,
        _ => panic!("no array"),
    }
}

fn array_mut(value: &mut Value) -> &mut [Value] {
    match value {
        Value::Array(values) => values,
        _ => panic!("no array"),
    }
}

fn text(value: &Value) -> Text {
    match value {
        Value::Bytes(bytes) => Some(bytes.clone()),
        Value::Undefined => None,
        _ => panic!("no text"),
    }
}

fn texts(value: &Value) -> Vec<Text> {
    array(value).iter().map(text).collect()
}

// The unchanged function, through a metadata root of our own making.

fn original_values(streams: &Streams) -> HashMap<&'static str, Value> {
    let block = metadata_block(streams);
    let root = MetadataRoot::parse(&block).unwrap();
    let mut values = HashMap::new();
    add_metadata_tables(&[], &root, None, no_sections(), &mut values);
    values
}

/// A root, a directory of three streams, and the streams (ECMA 335, II.24.2.1 and II.24.2.2).
fn metadata_block(streams: &Streams) -> Vec<u8> {
    const NAMES: [&[u8]; 3] = [b"#~\0\0", b"#Strings\0\0\0\0", b"#Blob\0\0\0"];
    let contents = [streams.tables, streams.strings, streams.blob];

    // Signature, versions, reserved; a version text of four bytes; flags and the number of streams.
    let mut block = b"BSJB\x01\0\x01\0\0\0\0\0\x04\0\0\0v1\0\0\0\0\x03\0".to_vec();
    let directory_len: usize = NAMES.iter().map(|name| 8 + name.len()).sum();
    let mut offset = block.len() + directory_len;
    for (name, content) in NAMES.iter().zip(contents) {
        block.extend((offset as u32).to_le_bytes());
        block.extend((content.len() as u32).to_le_bytes());
        block.extend(*name);
        offset += content.len();
    }
    for content in contents {
        block.extend(content);
    }
    block
}
