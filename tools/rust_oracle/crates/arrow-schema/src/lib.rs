//! Stand-in for arrow-schema: the names that the copied files use.

use std::collections::HashMap;
use std::fmt;
use std::hash::{Hash, Hasher};
use std::ops::Deref;
use std::sync::Arc;

pub mod extension {
    pub const EXTENSION_TYPE_NAME_KEY: &str = "ARROW:extension:name";
    pub const EXTENSION_TYPE_METADATA_KEY: &str = "ARROW:extension:metadata";
}

#[derive(Debug)]
pub enum ArrowError {
    InvalidArgumentError(String),
    CastError(String),
    ComputeError(String),
    SchemaError(String),
    ArithmeticOverflow(String),
    NotYetImplemented(String),
}

impl fmt::Display for ArrowError {
    fn fmt(&self, f: &mut fmt::Formatter<'_>) -> fmt::Result {
        match self {
            Self::InvalidArgumentError(s) => write!(f, "Invalid argument error: {s}"),
            Self::CastError(s) => write!(f, "Cast error: {s}"),
            Self::ComputeError(s) => write!(f, "Compute error: {s}"),
            Self::SchemaError(s) => write!(f, "Schema error: {s}"),
            Self::ArithmeticOverflow(s) => write!(f, "Arithmetic overflow: {s}"),
            Self::NotYetImplemented(s) => write!(f, "Not yet implemented: {s}"),
        }
    }
}

#[derive(Debug, Clone, Copy, PartialEq, Eq, Hash, PartialOrd, Ord)]
pub enum UnionMode {
    Sparse,
    Dense,
}

#[derive(Debug, Clone, PartialEq, Eq, Hash)]
pub enum DataType {
    Null,
    Boolean,
    Int8,
    Int16,
    Int32,
    Int64,
    UInt8,
    UInt16,
    UInt32,
    UInt64,
    Float16,
    Float32,
    Float64,
    Binary,
    FixedSizeBinary(i32),
    LargeBinary,
    BinaryView,
    Utf8,
    LargeUtf8,
    Utf8View,
    Struct(Fields),
    Union(UnionFields, UnionMode),
    Dictionary(Box<DataType>, Box<DataType>),
}

impl DataType {
    pub fn is_integer(&self) -> bool {
        use DataType::*;
        matches!(
            self,
            Int8 | Int16 | Int32 | Int64 | UInt8 | UInt16 | UInt32 | UInt64
        )
    }
    pub fn is_floating(&self) -> bool {
        use DataType::*;
        matches!(self, Float16 | Float32 | Float64)
    }
    pub fn is_numeric(&self) -> bool {
        self.is_integer() || self.is_floating()
    }
    pub fn is_primitive(&self) -> bool {
        self.is_numeric()
    }
    pub fn is_temporal(&self) -> bool {
        false
    }
    pub fn is_nested(&self) -> bool {
        match self {
            DataType::Dictionary(_, v) => v.is_nested(),
            DataType::Struct(_) | DataType::Union(_, _) => true,
            _ => false,
        }
    }
    pub fn is_null(&self) -> bool {
        matches!(self, DataType::Null)
    }
    pub fn equals_datatype(&self, other: &DataType) -> bool {
        self == other
    }
}

impl fmt::Display for DataType {
    fn fmt(&self, f: &mut fmt::Formatter<'_>) -> fmt::Result {
        write!(f, "{self:?}")
    }
}

pub type FieldRef = Arc<Field>;

#[derive(Debug, Clone)]
pub struct Field {
    name: String,
    data_type: DataType,
    nullable: bool,
    metadata: HashMap<String, String>,
}

impl PartialEq for Field {
    fn eq(&self, other: &Self) -> bool {
        self.name == other.name
            && self.data_type == other.data_type
            && self.nullable == other.nullable
            && self.metadata == other.metadata
    }
}
impl Eq for Field {}

impl Hash for Field {
    fn hash<H: Hasher>(&self, state: &mut H) {
        self.name.hash(state);
        self.data_type.hash(state);
        self.nullable.hash(state);
        let mut keys: Vec<&String> = self.metadata.keys().collect();
        keys.sort();
        for k in keys {
            k.hash(state);
            self.metadata[k].hash(state);
        }
    }
}

impl Field {
    pub fn new(name: impl Into<String>, data_type: DataType, nullable: bool) -> Self {
        Field {
            name: name.into(),
            data_type,
            nullable,
            metadata: HashMap::default(),
        }
    }
    pub fn name(&self) -> &String {
        &self.name
    }
    pub fn data_type(&self) -> &DataType {
        &self.data_type
    }
    pub fn is_nullable(&self) -> bool {
        self.nullable
    }
    pub fn metadata(&self) -> &HashMap<String, String> {
        &self.metadata
    }
    pub fn with_metadata(mut self, metadata: HashMap<String, String>) -> Self {
        self.metadata = metadata;
        self
    }
    pub fn with_data_type(mut self, data_type: DataType) -> Self {
        self.data_type = data_type;
        self
    }
    pub fn with_nullable(mut self, nullable: bool) -> Self {
        self.nullable = nullable;
        self
    }
}

impl fmt::Display for Field {
    fn fmt(&self, f: &mut fmt::Formatter<'_>) -> fmt::Result {
        write!(f, "{self:?}")
    }
}

#[derive(Debug, Clone, PartialEq, Eq, Hash)]
pub struct Fields(Arc<[FieldRef]>);

impl Deref for Fields {
    type Target = [FieldRef];
    fn deref(&self) -> &Self::Target {
        &self.0
    }
}
impl From<Vec<FieldRef>> for Fields {
    fn from(v: Vec<FieldRef>) -> Self {
        Fields(v.into())
    }
}
impl From<Vec<Field>> for Fields {
    fn from(v: Vec<Field>) -> Self {
        Fields(v.into_iter().map(Arc::new).collect())
    }
}
impl FromIterator<FieldRef> for Fields {
    fn from_iter<I: IntoIterator<Item = FieldRef>>(iter: I) -> Self {
        Fields(iter.into_iter().collect())
    }
}

#[derive(Debug, Clone, PartialEq, Eq, Hash)]
pub struct UnionFields(Arc<[(i8, FieldRef)]>);

impl UnionFields {
    pub fn is_empty(&self) -> bool {
        self.0.is_empty()
    }
}

pub type SchemaRef = Arc<Schema>;

#[derive(Debug, Clone, PartialEq, Eq)]
pub struct Schema {
    pub fields: Fields,
    pub metadata: HashMap<String, String>,
}

impl Schema {
    pub fn empty() -> Self {
        Self::new(Vec::<FieldRef>::new())
    }
    pub fn new(fields: impl Into<Fields>) -> Self {
        Schema {
            fields: fields.into(),
            metadata: HashMap::default(),
        }
    }
    pub fn fields(&self) -> &Fields {
        &self.fields
    }
    pub fn field(&self, i: usize) -> &Field {
        &self.fields[i]
    }
    pub fn index_of(&self, name: &str) -> Result<usize, ArrowError> {
        self.fields
            .iter()
            .position(|f| f.name() == name)
            .ok_or_else(|| {
                ArrowError::SchemaError(format!("Unable to get field named \"{name}\""))
            })
    }
    pub fn project(&self, indices: &[usize]) -> Result<Schema, ArrowError> {
        let fields = indices
            .iter()
            .map(|i| {
                self.fields.get(*i).cloned().ok_or_else(|| {
                    ArrowError::SchemaError(format!(
                        "project index {} out of bounds, max field {}",
                        i,
                        self.fields.len()
                    ))
                })
            })
            .collect::<Result<Fields, _>>()?;
        Ok(Schema {
            fields,
            metadata: self.metadata.clone(),
        })
    }
}
