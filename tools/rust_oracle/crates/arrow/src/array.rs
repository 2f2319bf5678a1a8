use crate::buffer::*;
use crate::datatypes::*;
use std::any::Any;
use std::fmt::Debug;
use std::marker::PhantomData;
use std::sync::Arc;

pub use crate::datatypes::{ArrowNativeTypeOp, ArrowPrimitiveType};
pub use crate::record_batch::{RecordBatch, RecordBatchOptions};
pub use crate::{downcast_integer, downcast_primitive};

pub type ArrayRef = Arc<dyn Array>;

pub trait Array: Debug + Send + Sync {
    fn as_any(&self) -> &dyn Any;
    fn data_type(&self) -> &DataType;
    fn len(&self) -> usize;
    fn nulls(&self) -> Option<&NullBuffer>;
    /// The same array behind a new `Arc`; its buffers are shared. Stands for
    /// arrow's `slice(0, len)`.
    fn share(&self) -> ArrayRef;

    fn is_empty(&self) -> bool {
        self.len() == 0
    }
    fn null_count(&self) -> usize {
        self.nulls().map_or(0, |n| n.null_count())
    }
    fn logical_null_count(&self) -> usize {
        self.null_count()
    }
    fn is_null(&self, i: usize) -> bool {
        self.nulls().is_some_and(|n| n.is_null(i))
    }
    fn is_valid(&self, i: usize) -> bool {
        !self.is_null(i)
    }
}

impl Array for ArrayRef {
    fn as_any(&self) -> &dyn Any {
        self.as_ref().as_any()
    }
    fn data_type(&self) -> &DataType {
        self.as_ref().data_type()
    }
    fn len(&self) -> usize {
        self.as_ref().len()
    }
    fn nulls(&self) -> Option<&NullBuffer> {
        self.as_ref().nulls()
    }
    fn share(&self) -> ArrayRef {
        Arc::clone(self)
    }
}

// ---------------------------------------------------------------- datum

pub trait Datum {
    fn get(&self) -> (&dyn Array, bool);
}
impl<T: Array> Datum for T {
    fn get(&self) -> (&dyn Array, bool) {
        (self, false)
    }
}
#[derive(Debug, Clone)]
pub struct Scalar<T: Array>(T);
impl<T: Array> Scalar<T> {
    pub fn new(array: T) -> Self {
        assert_eq!(array.len(), 1);
        Scalar(array)
    }
}
impl<T: Array> Datum for Scalar<T> {
    fn get(&self) -> (&dyn Array, bool) {
        (&self.0, true)
    }
}

// -------------------------------------------------------------- boolean

#[derive(Debug, Clone)]
pub struct BooleanArray {
    values: BooleanBuffer,
    nulls: Option<NullBuffer>,
}

impl BooleanArray {
    pub fn new(values: BooleanBuffer, nulls: Option<NullBuffer>) -> Self {
        if let Some(n) = &nulls {
            assert_eq!(n.len(), values.len());
        }
        BooleanArray { values, nulls }
    }
    pub fn new_null(len: usize) -> Self {
        Self::new(
            BooleanBuffer::new_unset(len),
            Some(NullBuffer::new_null(len)),
        )
    }
    pub fn values(&self) -> &BooleanBuffer {
        &self.values
    }
    pub fn value(&self, i: usize) -> bool {
        self.values.value(i)
    }
    pub fn true_count(&self) -> usize {
        match &self.nulls {
            None => self.values.count_set_bits(),
            Some(n) => self
                .values
                .words()
                .iter()
                .zip(n.inner().words())
                .map(|(v, n)| (v & n).count_ones() as usize)
                .sum(),
        }
    }
    /// Some valid entry is true.
    pub fn has_true(&self) -> bool {
        match &self.nulls {
            None => self.values.any_set(),
            Some(n) => self
                .values
                .words()
                .iter()
                .zip(n.inner().words())
                .any(|(v, n)| v & n != 0),
        }
    }
    /// Some valid entry is false.
    pub fn has_false(&self) -> bool {
        match &self.nulls {
            None => {
                let len = self.values.len();
                let words = self.values.words();
                let (whole, rest) = (len / 64, len % 64);
                words[..whole].iter().any(|w| *w != u64::MAX)
                    || rest != 0 && words[whole] != (1u64 << rest) - 1
            }
            Some(n) => self
                .values
                .words()
                .iter()
                .zip(n.inner().words())
                .any(|(v, n)| !v & n != 0),
        }
    }
}

impl Array for BooleanArray {
    fn as_any(&self) -> &dyn Any {
        self
    }
    fn data_type(&self) -> &DataType {
        &DataType::Boolean
    }
    fn len(&self) -> usize {
        self.values.len()
    }
    fn nulls(&self) -> Option<&NullBuffer> {
        self.nulls.as_ref()
    }
    fn share(&self) -> ArrayRef {
        Arc::new(self.clone())
    }
}

// ------------------------------------------------------------ primitive

#[derive(Debug)]
pub struct PrimitiveArray<T: ArrowPrimitiveType> {
    data_type: DataType,
    values: ScalarBuffer<T::Native>,
    nulls: Option<NullBuffer>,
}

impl<T: ArrowPrimitiveType> Clone for PrimitiveArray<T> {
    fn clone(&self) -> Self {
        PrimitiveArray {
            data_type: self.data_type.clone(),
            values: self.values.clone(),
            nulls: self.nulls.clone(),
        }
    }
}

pub type Int32Array = PrimitiveArray<Int32Type>;
pub type Int64Array = PrimitiveArray<Int64Type>;
pub type UInt32Array = PrimitiveArray<UInt32Type>;
pub type Float64Array = PrimitiveArray<Float64Type>;

impl<T: ArrowPrimitiveType> PrimitiveArray<T> {
    #[inline]
    pub fn new(values: ScalarBuffer<T::Native>, nulls: Option<NullBuffer>) -> Self {
        if let Some(n) = &nulls {
            assert_eq!(n.len(), values.len());
        }
        PrimitiveArray {
            data_type: T::DATA_TYPE,
            values,
            nulls,
        }
    }
    pub fn new_null(len: usize) -> Self {
        Self::new(
            vec![T::Native::default(); len].into(),
            Some(NullBuffer::new_null(len)),
        )
    }
    pub fn from_value(v: T::Native, len: usize) -> Self {
        Self::new(vec![v; len].into(), None)
    }
    pub fn from_iter_values<I: IntoIterator<Item = T::Native>>(iter: I) -> Self {
        Self::new(iter.into_iter().collect::<Vec<_>>().into(), None)
    }
    #[inline]
    pub fn values(&self) -> &ScalarBuffer<T::Native> {
        &self.values
    }
    pub fn value(&self, i: usize) -> T::Native {
        self.values[i]
    }
    pub fn iter(&self) -> PrimitiveIter<'_, T> {
        PrimitiveIter { array: self, at: 0 }
    }
}

impl<T: ArrowPrimitiveType> Array for PrimitiveArray<T> {
    fn as_any(&self) -> &dyn Any {
        self
    }
    fn data_type(&self) -> &DataType {
        &self.data_type
    }
    fn len(&self) -> usize {
        self.values.len()
    }
    fn nulls(&self) -> Option<&NullBuffer> {
        self.nulls.as_ref()
    }
    fn share(&self) -> ArrayRef {
        Arc::new(self.clone())
    }
}

impl From<Vec<u32>> for UInt32Array {
    fn from(v: Vec<u32>) -> Self {
        Self::new(v.into(), None)
    }
}

/// arrow takes values or options here; case.rs hands in plain row numbers.
impl FromIterator<u32> for UInt32Array {
    fn from_iter<I: IntoIterator<Item = u32>>(iter: I) -> Self {
        Self::from_iter_values(iter)
    }
}

pub struct PrimitiveIter<'a, T: ArrowPrimitiveType> {
    array: &'a PrimitiveArray<T>,
    at: usize,
}
impl<T: ArrowPrimitiveType> Iterator for PrimitiveIter<'_, T> {
    type Item = Option<T::Native>;
    #[inline]
    fn next(&mut self) -> Option<Self::Item> {
        let i = self.at;
        if i >= self.array.values.len() {
            return None;
        }
        self.at += 1;
        match &self.array.nulls {
            Some(n) if n.is_null(i) => Some(None),
            _ => Some(Some(unsafe { *self.array.values.get_unchecked(i) })),
        }
    }
    #[inline]
    fn size_hint(&self) -> (usize, Option<usize>) {
        let n = self.array.values.len() - self.at;
        (n, Some(n))
    }
}
impl<'a, T: ArrowPrimitiveType> IntoIterator for &'a PrimitiveArray<T> {
    type Item = Option<T::Native>;
    type IntoIter = PrimitiveIter<'a, T>;
    fn into_iter(self) -> Self::IntoIter {
        self.iter()
    }
}

pub struct BooleanIter<'a> {
    array: &'a BooleanArray,
    at: usize,
}
impl Iterator for BooleanIter<'_> {
    type Item = Option<bool>;
    #[inline]
    fn next(&mut self) -> Option<Self::Item> {
        let i = self.at;
        if i >= self.array.values.len() {
            return None;
        }
        self.at += 1;
        match &self.array.nulls {
            Some(n) if n.is_null(i) => Some(None),
            _ => Some(Some(unsafe { self.array.values.value_unchecked(i) })),
        }
    }
    fn size_hint(&self) -> (usize, Option<usize>) {
        let n = self.array.values.len() - self.at;
        (n, Some(n))
    }
}
impl<'a> IntoIterator for &'a BooleanArray {
    type Item = Option<bool>;
    type IntoIter = BooleanIter<'a>;
    fn into_iter(self) -> Self::IntoIter {
        BooleanIter { array: self, at: 0 }
    }
}

// ----------------------------------------------------------------- text

pub trait OffsetSizeTrait: Debug + Copy + Send + Sync + 'static {}
impl OffsetSizeTrait for i32 {}
impl OffsetSizeTrait for i64 {}

#[derive(Debug, Clone)]
pub struct GenericStringArray<O: OffsetSizeTrait> {
    offsets: ScalarBuffer<i32>,
    data: ScalarBuffer<u8>,
    nulls: Option<NullBuffer>,
    _o: PhantomData<O>,
}
pub type StringArray = GenericStringArray<i32>;
pub type LargeStringArray = GenericStringArray<i64>;

impl StringArray {
    /// Every entry must be UTF-8, as arrow demands.
    pub fn new(
        offsets: ScalarBuffer<i32>,
        data: ScalarBuffer<u8>,
        nulls: Option<NullBuffer>,
    ) -> Self {
        debug_assert_eq!(*offsets.last().unwrap() as usize, data.len());
        if let Some(n) = &nulls {
            assert_eq!(n.len() + 1, offsets.len());
        }
        GenericStringArray {
            offsets,
            data,
            nulls,
            _o: PhantomData,
        }
    }
    pub fn new_null(len: usize) -> Self {
        Self::new(
            vec![0; len + 1].into(),
            Vec::new().into(),
            Some(NullBuffer::new_null(len)),
        )
    }
    pub fn from_value(s: &str, len: usize) -> Self {
        let mut offsets = Vec::with_capacity(len + 1);
        let mut data = Vec::with_capacity(s.len() * len);
        offsets.push(0);
        for _ in 0..len {
            data.extend_from_slice(s.as_bytes());
            offsets.push(data.len() as i32);
        }
        Self::new(offsets.into(), data.into(), None)
    }
    #[inline]
    pub fn offsets(&self) -> &[i32] {
        &self.offsets
    }
    #[inline]
    pub fn data(&self) -> &[u8] {
        &self.data
    }
    pub fn shared_parts(&self) -> (ScalarBuffer<i32>, ScalarBuffer<u8>) {
        (self.offsets.clone(), self.data.clone())
    }
}

impl<O: OffsetSizeTrait> GenericStringArray<O> {
    #[inline]
    pub fn bytes(&self, i: usize) -> &[u8] {
        let (a, b) = (self.offsets[i] as usize, self.offsets[i + 1] as usize);
        unsafe { self.data.get_unchecked(a..b) }
    }
    #[inline]
    pub fn value(&self, i: usize) -> &str {
        unsafe { std::str::from_utf8_unchecked(self.bytes(i)) }
    }
}

impl Array for StringArray {
    fn as_any(&self) -> &dyn Any {
        self
    }
    fn data_type(&self) -> &DataType {
        &DataType::Utf8
    }
    fn len(&self) -> usize {
        self.offsets.len() - 1
    }
    fn nulls(&self) -> Option<&NullBuffer> {
        self.nulls.as_ref()
    }
    fn share(&self) -> ArrayRef {
        Arc::new(self.clone())
    }
}

pub struct StringIter<'a, O: OffsetSizeTrait> {
    array: &'a GenericStringArray<O>,
    at: usize,
}
impl<'a, O: OffsetSizeTrait> Iterator for StringIter<'a, O> {
    type Item = Option<&'a str>;
    #[inline]
    fn next(&mut self) -> Option<Self::Item> {
        let i = self.at;
        if i + 1 >= self.array.offsets.len() {
            return None;
        }
        self.at += 1;
        match &self.array.nulls {
            Some(n) if n.is_null(i) => Some(None),
            _ => Some(Some(self.array.value(i))),
        }
    }
    fn size_hint(&self) -> (usize, Option<usize>) {
        let n = self.array.offsets.len() - 1 - self.at;
        (n, Some(n))
    }
}
impl<'a, O: OffsetSizeTrait> IntoIterator for &'a GenericStringArray<O> {
    type Item = Option<&'a str>;
    type IntoIter = StringIter<'a, O>;
    fn into_iter(self) -> Self::IntoIter {
        StringIter { array: self, at: 0 }
    }
}

// ------------------------------------------- only named, never built

#[derive(Debug)]
pub struct GenericBinaryArray<O>(PhantomData<O>);
pub type BinaryArray = GenericBinaryArray<i32>;
pub type LargeBinaryArray = GenericBinaryArray<i64>;
#[derive(Debug)]
pub struct FixedSizeBinaryArray(());
#[derive(Debug)]
pub struct GenericByteViewArray<T>(PhantomData<T>);
pub type StringViewArray = GenericByteViewArray<StringViewType>;
pub type BinaryViewArray = GenericByteViewArray<BinaryViewType>;
#[derive(Debug)]
pub struct DictionaryArray<K> {
    values: ArrayRef,
    _k: PhantomData<K>,
}
pub struct TypedDictionaryArray<'a, K, V> {
    _p: PhantomData<(&'a V, K)>,
}

impl<K: ArrowDictionaryKeyType> DictionaryArray<K> {
    pub fn values(&self) -> &ArrayRef {
        &self.values
    }
    pub fn downcast_dict<V>(&self) -> Option<TypedDictionaryArray<'_, K, V>> {
        unimplemented!("dictionaries are left out")
    }
}

impl<'a, O> IntoIterator for &'a GenericBinaryArray<O> {
    type Item = Option<&'a [u8]>;
    type IntoIter = std::iter::Empty<Self::Item>;
    fn into_iter(self) -> Self::IntoIter {
        unimplemented!("binary arrays are left out")
    }
}
impl<'a> IntoIterator for &'a FixedSizeBinaryArray {
    type Item = Option<&'a [u8]>;
    type IntoIter = std::iter::Empty<Self::Item>;
    fn into_iter(self) -> Self::IntoIter {
        unimplemented!("binary arrays are left out")
    }
}
impl<'a, T: ByteViewType> IntoIterator for &'a GenericByteViewArray<T> {
    type Item = Option<&'a T::Native>;
    type IntoIter = std::iter::Empty<Self::Item>;
    fn into_iter(self) -> Self::IntoIter {
        unimplemented!("view arrays are left out")
    }
}
impl<'a, K, V> IntoIterator for TypedDictionaryArray<'a, K, V>
where
    &'a V: IntoIterator,
{
    type Item = <&'a V as IntoIterator>::Item;
    type IntoIter = std::iter::Empty<Self::Item>;
    fn into_iter(self) -> Self::IntoIter {
        unimplemented!("dictionaries are left out")
    }
}

// ------------------------------------------------------------ downcasts

pub trait AsArray {
    fn any(&self) -> &dyn Any;

    fn as_boolean_opt(&self) -> Option<&BooleanArray> {
        self.any().downcast_ref()
    }
    fn as_boolean(&self) -> &BooleanArray {
        self.as_boolean_opt().expect("boolean array")
    }
    fn as_primitive_opt<T: ArrowPrimitiveType>(&self) -> Option<&PrimitiveArray<T>> {
        self.any().downcast_ref()
    }
    fn as_primitive<T: ArrowPrimitiveType>(&self) -> &PrimitiveArray<T> {
        self.as_primitive_opt().expect("primitive array")
    }
    fn as_string<O: OffsetSizeTrait>(&self) -> &GenericStringArray<O> {
        self.any().downcast_ref().expect("string array")
    }
    fn as_binary<O: OffsetSizeTrait>(&self) -> &GenericBinaryArray<O> {
        self.any().downcast_ref().expect("binary array")
    }
    fn as_byte_view<T: ByteViewType>(&self) -> &GenericByteViewArray<T> {
        self.any().downcast_ref().expect("view array")
    }
    fn as_dictionary<K: ArrowDictionaryKeyType>(&self) -> &DictionaryArray<K> {
        self.any().downcast_ref().expect("dictionary array")
    }
}
impl AsArray for dyn Array + '_ {
    fn any(&self) -> &dyn Any {
        self.as_any()
    }
}
#[macro_export]
macro_rules! downcast_integer {
    ($data_type:expr => ($m:path $(, $args:tt)*), $($p:pat => $fallback:expr $(,)*)*) => {
        match $data_type {
            $crate::datatypes::DataType::Int32 => {
                $m!($crate::datatypes::Int32Type $(, $args)*)
            }
            $crate::datatypes::DataType::Int64 => {
                $m!($crate::datatypes::Int64Type $(, $args)*)
            }
            $($p => $fallback,)*
        }
    };
}

#[macro_export]
macro_rules! downcast_primitive {
    ($data_type:expr => ($m:path $(, $args:tt)*), $($p:pat => $fallback:expr $(,)*)*) => {
        match $data_type {
            $crate::datatypes::DataType::Int32 => {
                $m!($crate::datatypes::Int32Type $(, $args)*)
            }
            $crate::datatypes::DataType::Int64 => {
                $m!($crate::datatypes::Int64Type $(, $args)*)
            }
            $crate::datatypes::DataType::UInt32 => {
                $m!($crate::datatypes::UInt32Type $(, $args)*)
            }
            $crate::datatypes::DataType::Float64 => {
                $m!($crate::datatypes::Float64Type $(, $args)*)
            }
            $($p => $fallback,)*
        }
    };
}

pub fn new_null_array(data_type: &DataType, len: usize) -> ArrayRef {
    match data_type {
        DataType::Boolean => Arc::new(BooleanArray::new_null(len)),
        DataType::Int32 => Arc::new(Int32Array::new_null(len)),
        DataType::Int64 => Arc::new(Int64Array::new_null(len)),
        DataType::UInt32 => Arc::new(UInt32Array::new_null(len)),
        DataType::Float64 => Arc::new(Float64Array::new_null(len)),
        DataType::Utf8 => Arc::new(StringArray::new_null(len)),
        t => unimplemented!("array of {t}"),
    }
}

pub fn new_empty_array(data_type: &DataType) -> ArrayRef {
    match data_type {
        DataType::Boolean => Arc::new(BooleanArray::new(BooleanBuffer::new_unset(0), None)),
        DataType::Int32 => Arc::new(Int32Array::new(Vec::new().into(), None)),
        DataType::Int64 => Arc::new(Int64Array::new(Vec::new().into(), None)),
        DataType::UInt32 => Arc::new(UInt32Array::new(Vec::new().into(), None)),
        DataType::Float64 => Arc::new(Float64Array::new(Vec::new().into(), None)),
        DataType::Utf8 => Arc::new(StringArray::new(vec![0].into(), Vec::new().into(), None)),
        t => unimplemented!("array of {t}"),
    }
}
