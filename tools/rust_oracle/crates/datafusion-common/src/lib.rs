//! Stand-in for datafusion-common: errors and their macros, ScalarValue over
//! the five types, tree walks, and the names that the copied files import.

mod error;
mod hash;
mod scalar;
pub mod tree_node;

pub use error::{DataFusionError, Result};
pub use hash::{FoldState, HashMap};
pub use scalar::ScalarValue;

/// Not in datafusion: true makes the negation of a scalar wrap, to see whether
/// a difference comes from it.
pub static WRAP_SCALAR_NEGATION: std::sync::atomic::AtomicBool =
    std::sync::atomic::AtomicBool::new(false);

pub mod cast {
    use crate::{DataFusionError, Result};
    use arrow::array::{Array, BooleanArray};

    pub fn as_boolean_array(array: &dyn Array) -> Result<&BooleanArray> {
        array.as_any().downcast_ref().ok_or_else(|| {
            DataFusionError::Internal(format!(
                "could not cast {} to BooleanArray",
                array.data_type()
            ))
        })
    }
}

pub mod metadata {
    use arrow::datatypes::Field;
    use std::collections::BTreeMap;

    #[derive(Debug, Clone, PartialEq, Eq, Hash)]
    pub struct FieldMetadata(BTreeMap<String, String>);
    impl FieldMetadata {
        pub fn add_to_field(&self, field: Field) -> Field {
            if self.0.is_empty() {
                return field;
            }
            field.with_metadata(self.0.clone().into_iter().collect())
        }
    }
}

pub mod datatype {
    use arrow::datatypes::{DataType, Field, FieldRef};
    use std::sync::Arc;

    pub trait DataTypeExt {
        fn into_nullable_field_ref(self) -> FieldRef;
    }
    impl DataTypeExt for DataType {
        fn into_nullable_field_ref(self) -> FieldRef {
            Arc::new(Field::new("", self, true))
        }
    }
}

pub mod format {
    use arrow::compute::FormatOptions;
    pub const DEFAULT_FORMAT_OPTIONS: FormatOptions<'static> = FormatOptions::new();
}

pub mod nested_struct {
    use crate::Result;
    use arrow::datatypes::DataType;

    pub fn requires_nested_struct_cast(_source: &DataType, _target: &DataType) -> bool {
        false // no nested type here
    }
    pub fn validate_data_type_compatibility(
        _name: &str,
        _source: &DataType,
        _target: &DataType,
    ) -> Result<()> {
        unimplemented!("nested types are left out")
    }
}
