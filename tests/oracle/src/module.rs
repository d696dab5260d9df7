//! Stands in for boreal's `module`: the names that dotnet.rs takes from its parent, with just enough
//! behind them to compile. Only `Value` is ever looked into.

use std::collections::HashMap;

pub mod pe {
    pub mod utils;
}

pub mod dotnet {
    include!("module/dotnet.rs");

    // Children of `dotnet`, so that they see the private functions and fields.
    pub mod fields;
    pub mod leaves;
    mod page;
    pub mod probe;
    pub mod values;
}

#[derive(Clone, Debug, PartialEq)]
pub enum Value {
    Integer(i64),
    Bytes(Vec<u8>),
    Object(HashMap<&'static str, Value>),
    Array(Vec<Value>),
    Undefined,
}

impl Value {
    pub fn bytes<T: Into<Vec<u8>>>(value: T) -> Self {
        Self::Bytes(value.into())
    }

    pub fn object<const N: usize>(fields: [(&'static str, Self); N]) -> Self {
        Self::Object(fields.into())
    }
}

impl From<Vec<u8>> for Value {
    fn from(value: Vec<u8>) -> Self {
        Self::Bytes(value)
    }
}

impl<T: Into<Self>> From<Option<T>> for Value {
    fn from(value: Option<T>) -> Self {
        value.map_or(Self::Undefined, Into::into)
    }
}

macro_rules! from_number {
    ($($number:ty)*) => {
        $(impl From<$number> for Value {
            fn from(value: $number) -> Self {
                i64::try_from(value).map_or(Self::Undefined, Self::Integer)
            }
        })*
    };
}

from_number! { i32 i64 u16 u32 u64 usize }

pub enum StaticValue {}

pub enum Type {
    Integer,
    Bytes,
    Object(HashMap<&'static str, Type>),
    Array(Box<Type>),
}

impl Type {
    pub fn array(of: Self) -> Self {
        Self::Array(Box::new(of))
    }

    pub fn object<const N: usize>(fields: [(&'static str, Self); N]) -> Self {
        Self::Object(fields.into())
    }
}

pub trait Module {
    fn get_name(&self) -> &'static str;
    fn get_static_values(&self) -> HashMap<&'static str, StaticValue>;
    fn get_dynamic_types(&self) -> HashMap<&'static str, Type>;
    fn setup_new_scan(&self, data_map: &mut ModuleDataMap);
    fn get_dynamic_values(&self, ctx: &mut ScanContext, out: &mut HashMap<&'static str, Value>);
}

pub trait ModuleData {
    type PrivateData;
    type UserData;
}

pub struct ModuleDataMap;

impl ModuleDataMap {
    pub fn insert<M: ModuleData>(&mut self, _data: M::PrivateData) {}

    pub fn get_mut<M: ModuleData>(&mut self) -> Option<&mut M::PrivateData> {
        None
    }
}

pub struct Region<'a> {
    pub mem: &'a [u8],
}

pub struct ScanContext<'a> {
    pub region: Region<'a>,
    pub process_memory: bool,
    pub module_data: ModuleDataMap,
}
