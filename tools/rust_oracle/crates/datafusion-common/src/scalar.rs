use crate::{DataFusionError, Result, internal_err};
use arrow::array::*;
use arrow::buffer::{BitBuilder, BooleanBuffer, NullBuffer};
use arrow::compute::{CastOptions, cast_with_options};
use arrow::datatypes::*;
use arrow::error::ArrowError;
use std::fmt;
use std::hash::{Hash, Hasher};
use std::sync::Arc;
use std::sync::atomic::Ordering;

#[derive(Debug, Clone)]
pub enum ScalarValue {
    Null,
    Boolean(Option<bool>),
    Float64(Option<f64>),
    Int32(Option<i32>),
    Int64(Option<i64>),
    Utf8(Option<String>),
}

use ScalarValue::*;

/// Floats by bits, as in datafusion.
impl PartialEq for ScalarValue {
    fn eq(&self, o: &Self) -> bool {
        match (self, o) {
            (Null, Null) => true,
            (Boolean(a), Boolean(b)) => a == b,
            (Int32(a), Int32(b)) => a == b,
            (Int64(a), Int64(b)) => a == b,
            (Float64(a), Float64(b)) => a.map(f64::to_bits) == b.map(f64::to_bits),
            (Utf8(a), Utf8(b)) => a == b,
            _ => false,
        }
    }
}
impl Eq for ScalarValue {}

impl Hash for ScalarValue {
    fn hash<H: Hasher>(&self, state: &mut H) {
        std::mem::discriminant(self).hash(state);
        match self {
            Null => {}
            Boolean(v) => v.hash(state),
            Int32(v) => v.hash(state),
            Int64(v) => v.hash(state),
            Float64(v) => v.map(f64::to_bits).hash(state),
            Utf8(v) => v.hash(state),
        }
    }
}

impl fmt::Display for ScalarValue {
    fn fmt(&self, f: &mut fmt::Formatter<'_>) -> fmt::Result {
        match self {
            Boolean(Some(v)) => write!(f, "{v}"),
            Int32(Some(v)) => write!(f, "{v}"),
            Int64(Some(v)) => write!(f, "{v}"),
            Float64(Some(v)) => write!(f, "{v}"),
            Utf8(Some(v)) => write!(f, "{v}"),
            _ => write!(f, "NULL"),
        }
    }
}

impl ScalarValue {
    pub fn try_new_null(t: &DataType) -> Result<Self> {
        Ok(match t {
            DataType::Null => Null,
            DataType::Boolean => Boolean(None),
            DataType::Int32 => Int32(None),
            DataType::Int64 => Int64(None),
            DataType::Float64 => Float64(None),
            DataType::Utf8 => Utf8(None),
            t => return Err(DataFusionError::NotImplemented(format!("null of {t}"))),
        })
    }
    pub fn data_type(&self) -> DataType {
        match self {
            Null => DataType::Null,
            Boolean(_) => DataType::Boolean,
            Int32(_) => DataType::Int32,
            Int64(_) => DataType::Int64,
            Float64(_) => DataType::Float64,
            Utf8(_) => DataType::Utf8,
        }
    }
    pub fn is_null(&self) -> bool {
        matches!(
            self,
            Null | Boolean(None) | Int32(None) | Int64(None) | Float64(None) | Utf8(None)
        )
    }
    pub fn to_array(&self) -> Result<ArrayRef> {
        self.to_array_of_size(1)
    }
    pub fn to_array_of_size(&self, n: usize) -> Result<ArrayRef> {
        Ok(match self {
            Boolean(Some(true)) => {
                Arc::new(BooleanArray::new(BooleanBuffer::new_set(n), None))
            }
            Boolean(Some(false)) => {
                Arc::new(BooleanArray::new(BooleanBuffer::new_unset(n), None))
            }
            Int32(Some(v)) => Arc::new(Int32Array::from_value(*v, n)),
            Int64(Some(v)) => Arc::new(Int64Array::from_value(*v, n)),
            Float64(Some(v)) => Arc::new(Float64Array::from_value(*v, n)),
            Utf8(Some(v)) => Arc::new(StringArray::from_value(v, n)),
            _ => new_null_array(&self.data_type(), n),
        })
    }
    pub fn to_scalar(&self) -> Result<Scalar<ArrayRef>> {
        Ok(Scalar::new(self.to_array_of_size(1)?))
    }
    pub fn try_from_array(array: &dyn Array, i: usize) -> Result<Self> {
        if array.is_null(i) {
            return Self::try_new_null(array.data_type());
        }
        Ok(match array.data_type() {
            DataType::Boolean => Boolean(Some(array.as_boolean().value(i))),
            DataType::Int32 => Int32(Some(array.as_primitive::<Int32Type>().value(i))),
            DataType::Int64 => Int64(Some(array.as_primitive::<Int64Type>().value(i))),
            DataType::Float64 => {
                Float64(Some(array.as_primitive::<Float64Type>().value(i)))
            }
            DataType::Utf8 => Utf8(Some(array.as_string::<i32>().value(i).to_string())),
            t => return Err(DataFusionError::NotImplemented(format!("scalar of {t}"))),
        })
    }
    pub fn cast_to(&self, t: &DataType) -> Result<Self> {
        let options = CastOptions {
            safe: false,
            format_options: crate::format::DEFAULT_FORMAT_OPTIONS,
        };
        self.cast_to_with_options(t, &options)
    }
    pub fn cast_to_with_options(
        &self,
        t: &DataType,
        options: &CastOptions<'static>,
    ) -> Result<Self> {
        let array = self.to_array()?;
        let array = cast_with_options(&array, t, options)?;
        Self::try_from_array(&array, 0)
    }
    /// Checked on integers, unlike the array kernel.
    pub fn arithmetic_negate(&self) -> Result<Self> {
        if crate::WRAP_SCALAR_NEGATION.load(Ordering::Relaxed) {
            match self {
                Int32(Some(v)) => return Ok(Int32(Some(v.wrapping_neg()))),
                Int64(Some(v)) => return Ok(Int64(Some(v.wrapping_neg()))),
                _ => {}
            }
        }
        fn over<T: fmt::Debug>(v: T) -> ArrowError {
            ArrowError::ArithmeticOverflow(format!("Overflow happened on: - {v:?}"))
        }
        Ok(match self {
            Int32(Some(v)) => Int32(Some(v.checked_neg().ok_or_else(|| over(v))?)),
            Int64(Some(v)) => Int64(Some(v.checked_neg().ok_or_else(|| over(v))?)),
            Float64(Some(v)) => Float64(Some(-v)),
            Int32(None) | Int64(None) | Float64(None) => self.clone(),
            v => return internal_err!("Can not run arithmetic negative on {v:?}"),
        })
    }
    pub fn iter_to_array(values: impl IntoIterator<Item = ScalarValue>) -> Result<ArrayRef> {
        let values: Vec<ScalarValue> = values.into_iter().collect();
        let Some(first) = values.iter().find(|v| !matches!(v, Null)) else {
            return internal_err!("Empty iterator passed to ScalarValue::iter_to_array");
        };
        let t = first.data_type();
        if values.iter().any(|v| v.data_type() != t) {
            return internal_err!("Inconsistent types in ScalarValue::iter_to_array");
        }
        let mut valid = BitBuilder::with_capacity(values.len());
        values.iter().for_each(|v| valid.push(!v.is_null()));
        let nulls = NullBuffer::new(valid.finish());
        let nulls = (nulls.null_count() > 0).then_some(nulls);
        macro_rules! numbers {
            ($array:ident, $v:path) => {{
                let all: Vec<_> = values
                    .iter()
                    .map(|v| match v {
                        $v(Some(x)) => *x,
                        _ => Default::default(),
                    })
                    .collect();
                Arc::new($array::new(all.into(), nulls))
            }};
        }
        Ok(match t {
            DataType::Boolean => Arc::new(BooleanArray::new(
                BooleanBuffer::collect_bool(values.len(), |i| {
                    matches!(values[i], Boolean(Some(true)))
                }),
                nulls,
            )),
            DataType::Int32 => numbers!(Int32Array, Int32),
            DataType::Int64 => numbers!(Int64Array, Int64),
            DataType::Float64 => numbers!(Float64Array, Float64),
            DataType::Utf8 => {
                let mut offsets = vec![0i32];
                let mut data = Vec::new();
                for v in &values {
                    if let Utf8(Some(s)) = v {
                        data.extend_from_slice(s.as_bytes());
                    }
                    offsets.push(data.len() as i32);
                }
                Arc::new(StringArray::new(offsets.into(), data.into(), nulls))
            }
            t => return Err(DataFusionError::NotImplemented(format!("array of {t}"))),
        })
    }

    // named by statistics, never called
    pub fn new_one(_: &DataType) -> Result<Self> {
        unimplemented!("statistics are left out")
    }
    pub fn new_zero(_: &DataType) -> Result<Self> {
        unimplemented!("statistics are left out")
    }
    pub fn sub_checked<T: std::borrow::Borrow<ScalarValue>>(&self, _: T) -> Result<Self> {
        unimplemented!("statistics are left out")
    }
}

impl From<bool> for ScalarValue {
    fn from(v: bool) -> Self {
        Boolean(Some(v))
    }
}

impl TryFrom<DataType> for ScalarValue {
    type Error = DataFusionError;
    fn try_from(t: DataType) -> Result<Self> {
        Self::try_new_null(&t)
    }
}

impl TryFrom<ScalarValue> for bool {
    type Error = DataFusionError;
    fn try_from(v: ScalarValue) -> Result<Self> {
        match v {
            Boolean(Some(b)) => Ok(b),
            v => internal_err!("Cannot convert {v:?} to bool"),
        }
    }
}
