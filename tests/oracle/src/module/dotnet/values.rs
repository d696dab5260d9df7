//! The listing, written from the values that the unchanged `finalize` leaves, which are freed. That is more than the part that we take:
//! bench/ measures it beside `fields.rs`.

use super::page::{bytes, Page};
use super::probe::{array, field, open, refusal, tables_data};
use super::*;
use crate::bundle::Streams;

/// Writes the listing to the front of `out`; how many bytes that are.
pub fn write(streams: &Streams, out: &mut [u8]) -> usize {
    let mut page = Page::new(out);
    match classes(streams) {
        Ok((stop, flags, values)) => {
            write_classes(&mut page, stop, &flags, array(&values["classes"]))
        }
        Err(number) => page.number("refused=", number.into()),
    }
    page.length()
}

/// The steps of `add_metadata_tables`: the stopping kind, the flags of the classes, and the values.
fn classes(streams: &Streams) -> Result<(u64, Vec<u32>, HashMap<&'static str, Value>), u8> {
    let opened = open(streams.tables).map_err(refusal)?;
    let mut data = tables_data(streams, &opened);
    let mut values = HashMap::new();
    let mut stop = 64;
    for kind in 0..64 {
        let count = opened.counts[usize::from(kind)];
        if count != 0 && data.parse_table_type(kind, count, &mut values).is_err() {
            stop = kind.into();
            break;
        }
    }
    let flags = data.classes.iter().map(|class| class.flags).collect();
    data.methods.iter_mut().for_each(add_flags);
    data.finalize(&mut values);
    Ok((stop, flags, values))
}

/// Puts a method's flags behind its name: `Method::into_value` loses them, and by the name a constructor's
/// return type.
fn add_flags(method: &mut Method) {
    let name = method.name.get_or_insert_with(Vec::new);
    name.extend(method.flags.to_le_bytes());
}

fn write_classes(page: &mut Page, stop: u64, flags: &[u32], classes: &[Value]) {
    page.number("stop=", stop);
    page.number("classes=", classes.len() as u64);
    for (class, flags) in classes.iter().zip(flags) {
        write_value(page, "class=", field(class, "fullname"));
        page.number("flags=", (*flags).into());
        write_values(page, "generic=", field(class, "generic_parameters"));
        write_values(page, "base=", field(class, "base_types"));
        for method in array(field(class, "methods")) {
            write_method(page, method);
        }
    }
}

fn write_method(page: &mut Page, method: &Value) {
    let name = bytes(field(method, "name"));
    let (name, flags) = name.split_at(name.len() - 2);
    page.text("method=", name);
    page.number("mflags=", u16::from_le_bytes([flags[0], flags[1]]).into());
    write_values(page, "mgeneric=", field(method, "generic_parameters"));
    write_value(page, "returns=", field(method, "return_type"));
    for param in array(field(method, "parameters")) {
        write_value(page, "ptype=", field(param, "type"));
        write_value(page, "pname=", field(param, "name"));
    }
}

fn write_values(page: &mut Page, key: &str, values: &Value) {
    for value in array(values) {
        write_value(page, key, value);
    }
}

fn write_value(page: &mut Page, key: &str, value: &Value) {
    page.text(key, bytes(value));
}
