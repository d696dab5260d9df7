//! The tables half once more, from a copy of dotnet.rs that counts steps (2026-06): a step is a type byte that `parse_sig_type` reads.
//! `build` adds four lines to the copy, which call `steps`. What takes more steps than the ceiling is ended, so that this comes back also
//! where the Rust would run for years.

// What dotnet.rs takes from its parent.
use crate::module::{pe, Module, ModuleData, ModuleDataMap, ScanContext, StaticValue, Type, Value};

use crate::bundle::Streams;
use crate::record::{ClassRecord, NoAnswer};
use steps::{Owner, Taken};

mod steps;

#[allow(dead_code)]
mod dotnet {
    include!("counted/dotnet/dotnet.rs");

    #[path = "../../module/dotnet/probe.rs"]
    pub mod probe;
}

pub struct Counted {
    /// The stopping kind and the class record, as the probe reads it from the copy that is not changed, with the steps.
    pub record: Result<(usize, Vec<ClassRecord>), NoAnswer>,
    /// Whether something was over the ceiling, before a panic too.
    pub over: bool,
}

pub fn record(streams: &Streams, ceiling: u64) -> Counted {
    steps::begin(ceiling);
    let record = dotnet::probe::record(streams);
    let taken = steps::end();
    Counted {
        record: record.map(|(stop, classes)| (stop, with_steps(classes, &taken))),
        over: taken.is_over(),
    }
}

fn with_steps(mut classes: Vec<ClassRecord>, taken: &Taken) -> Vec<ClassRecord> {
    for (number, class) in classes.iter_mut().enumerate() {
        class.steps = taken.of(Owner::Class(number));
        for method in &mut class.methods {
            method.steps = taken.of(Owner::Method(method.number));
        }
    }
    classes
}
