//! The listing, written from the fields of `Class` and `Method`: the Rust's work on the part that we take, and no more. bench/ measures
//! it, as the figure that counts.
//!
//! The steps of `add_metadata_tables` and of `finalize` are repeated here (boreal, MIT OR Apache-2.0) without what document 01 leaves out:
//! tables of which nothing is listed are skipped, as the Rust skips most of them, and `into_value` is not called.
//! All else is the Rust's own. Nothing is freed at the end.

use std::mem::forget;

use super::page::{bytes, Page};
use super::probe::{open, refusal, tables_data};
use super::*;
use crate::bundle::Streams;
use crate::record::NoAnswer;

/// Writes the listing to the front of `out`; how many bytes that are.
pub fn write(streams: &Streams, out: &mut [u8]) -> usize {
    let mut page = Page::new(out);
    if let Err(why) = write_listing(&mut page, streams) {
        page.number("refused=", refusal(why).into());
    }
    page.length()
}

fn write_listing(page: &mut Page, streams: &Streams) -> Result<(), NoAnswer> {
    let opened = open(streams.tables)?;
    let mut data = tables_data(streams, &opened);
    let stop = walk(&mut data, &opened.counts);
    let methods = finalize(&mut data);
    write_classes(page, stop, &data.classes, &methods);
    forget((data, methods));
    Ok(())
}

/// The loop of `add_metadata_tables` over the kinds; the one that it stops at.
fn walk(data: &mut TablesData, counts: &[u32; 64]) -> u64 {
    let mut values = HashMap::new(); // stays empty
    for kind in 0..64 {
        let count = counts[usize::from(kind)];
        if count == 0 {
            continue;
        }
        let read = match unlisted_row(data, kind) {
            Some(size) => data.data.skip(count as usize * usize::from(size)),
            None => data.parse_table_type(kind, count, &mut values),
        };
        if read.is_err() {
            return kind.into();
        }
    }
    64
}

/// The row size of a kind from which the Rust takes values that document 01 leaves out, and nothing else.
fn unlisted_row(data: &TablesData, kind: u8) -> Option<u8> {
    let (string, guid, blob) = (
        data.string_index_size,
        data.guid_index_size,
        data.blob_index_size,
    );
    match kind {
        table_type::MODULE => Some(2 + string + 3 * guid),
        table_type::CONSTANT => Some(2 + data.has_constant_index_size + blob),
        table_type::CUSTOM_ATTRIBUTE => Some(
            data.has_custom_attribute_index_size + data.custom_attribute_type_index_size + blob,
        ),
        table_type::MODULE_REF => Some(string),
        table_type::FIELD_RVA => Some(4 + data.field_index_size),
        table_type::ASSEMBLY => Some(16 + blob + 2 * string),
        table_type::ASSEMBLY_REF => Some(12 + 2 * blob + 2 * string),
        table_type::MANIFEST_RESOURCE => Some(8 + string + data.implementation_index_size),
        _ => None,
    }
}

// `finalize`, step by step.

/// The methods of each class, which `Class::methods` has no place for but as values.
fn finalize(data: &mut TablesData) -> Vec<Vec<Method>> {
    read_signatures(data);
    name_params(data);
    let methods = share_methods(data);
    add_extended(data);
    add_interfaces(data);
    methods
}

fn read_signatures(data: &mut TablesData) {
    let mut last_method_index = data.methods.len();
    for class in data.classes.iter().rev() {
        if let Some(idx) = class.method_def_first_index {
            let idx = idx as usize;
            if idx <= data.methods.len() {
                for i in idx..last_method_index {
                    if let Some(sig) = data.methods[i].signature.as_ref() {
                        let mut sig = Bytes(sig);
                        if let Some(sig) = data.parse_method_def_signature(
                            &mut sig,
                            &class.generic_params,
                            &data.methods[i].generic_params,
                            0,
                        ) {
                            data.methods[i].set_signature(sig);
                        }
                    }
                }
            }
            last_method_index = idx;
        }
    }
}

fn name_params(data: &mut TablesData) {
    for method in data.methods.iter_mut().rev() {
        if let Some(idx) = method.param_name_first_index {
            let idx = idx as usize;
            for (i, param) in method.params.iter_mut().enumerate() {
                match data.param_names.get(idx + i) {
                    Some(param_name) => param.name = param_name.clone(),
                    None => param.name = Value::Bytes(format!("P_{i}").into_bytes()),
                }
            }
        }
    }
}

fn share_methods(data: &mut TablesData) -> Vec<Vec<Method>> {
    let mut shared: Vec<Vec<Method>> = data.classes.iter().map(|_| Vec::new()).collect();
    for (class, taken) in data.classes.iter().zip(&mut shared).rev() {
        if let Some(idx) = class.method_def_first_index {
            let idx = idx as usize;
            if idx <= data.methods.len() {
                *taken = data.methods.drain(idx..).collect();
            }
        }
    }
    shared
}

fn add_extended(data: &mut TablesData) {
    for i in 0..data.classes.len() {
        let extends_index = data.classes[i].extends_index;
        if let Some(base_class) =
            data.get_type_fullname(extends_index, &data.classes[i].generic_params, &[], 0)
        {
            data.classes[i].base_types.push(Value::Bytes(base_class));
        }
    }
}

fn add_interfaces(data: &mut TablesData) {
    let Some(mut table) = data.interface_impl_table_data.take() else {
        return;
    };
    while let Some((class_index, type_def_or_ref_index)) = data.read_interface(&mut table) {
        let class_index = class_index as usize;
        // 0 is invalid index, and 1 points to the first class, which we do not include.
        if class_index <= 1 || (class_index - 2) >= data.classes.len() {
            continue;
        }
        if let Some(interface_name) = data.get_type_fullname(
            type_def_or_ref_index,
            &data.classes[class_index - 2].generic_params,
            &[],
            0,
        ) {
            data.classes[class_index - 2]
                .base_types
                .push(Value::Bytes(interface_name));
        }
    }
}

// The text.

fn write_classes(page: &mut Page, stop: u64, classes: &[Class], methods: &[Vec<Method>]) {
    page.number("stop=", stop);
    page.number("classes=", classes.len() as u64);
    for (class, methods) in classes.iter().zip(methods) {
        write_full_name(page, class);
        page.number("flags=", class.flags.into());
        write_names(page, "generic=", &class.generic_params);
        for base in &class.base_types {
            page.text("base=", bytes(base));
        }
        for method in methods {
            write_method(page, method);
        }
    }
}

fn write_full_name(page: &mut Page, class: &Class) {
    match (&class.namespace, &class.name) {
        (Some(namespace), Some(name)) => page.dotted("class=", namespace, name),
        (_, name) => page.text("class=", name_bytes(name)),
    }
}

fn write_method(page: &mut Page, method: &Method) {
    page.text("method=", name_bytes(&method.name));
    page.number("mflags=", method.flags.into());
    write_names(page, "mgeneric=", &method.generic_params);
    page.text("returns=", name_bytes(&method.return_type));
    for param in &method.params {
        page.text("ptype=", bytes(&param.typ));
        page.text("pname=", bytes(&param.name));
    }
}

fn write_names(page: &mut Page, key: &str, names: &[Option<Vec<u8>>]) {
    for name in names {
        page.text(key, name_bytes(name));
    }
}

/// As `bytes` of a value.
fn name_bytes(name: &Option<Vec<u8>>) -> &[u8] {
    name.as_deref().unwrap_or_default()
}
