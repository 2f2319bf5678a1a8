//! Stand-in for datafusion-expr-common: ColumnarValue in full; intervals,
//! orderings and statistics only as names.

pub mod columnar_value {
    use arrow::array::ArrayRef;
    use arrow::compute::{CastOptions, cast_with_options};
    use arrow::datatypes::DataType;
    use datafusion_common::{Result, ScalarValue};

    #[derive(Debug, Clone)]
    pub enum ColumnarValue {
        Array(ArrayRef),
        Scalar(ScalarValue),
    }

    impl ColumnarValue {
        pub fn into_array(self, num_rows: usize) -> Result<ArrayRef> {
            match self {
                ColumnarValue::Array(a) => Ok(a),
                ColumnarValue::Scalar(s) => s.to_array_of_size(num_rows),
            }
        }
        pub fn to_array(&self, num_rows: usize) -> Result<ArrayRef> {
            match self {
                ColumnarValue::Array(a) => Ok(ArrayRef::clone(a)),
                ColumnarValue::Scalar(s) => s.to_array_of_size(num_rows),
            }
        }
        pub fn cast_to(
            &self,
            t: &DataType,
            options: Option<&CastOptions<'static>>,
        ) -> Result<ColumnarValue> {
            let default = CastOptions {
                safe: false,
                format_options: datafusion_common::format::DEFAULT_FORMAT_OPTIONS,
            };
            let options = options.unwrap_or(&default);
            Ok(match self {
                ColumnarValue::Array(a) => {
                    ColumnarValue::Array(cast_with_options(a, t, options)?)
                }
                ColumnarValue::Scalar(s) => {
                    ColumnarValue::Scalar(s.cast_to_with_options(t, options)?)
                }
            })
        }
    }
}

pub mod placement {
    #[derive(Debug, Clone, Copy, PartialEq, Eq)]
    pub enum ExpressionPlacement {
        Literal,
        Column,
        MoveTowardsLeafNodes,
        KeepInPlace,
    }
}

pub mod interval_arithmetic {
    use arrow::compute::CastOptions;
    use arrow::datatypes::DataType;
    use datafusion_common::{Result, ScalarValue};

    #[derive(Debug, Clone, PartialEq, Eq)]
    pub struct Interval {
        lower: ScalarValue,
        upper: ScalarValue,
    }

    impl Interval {
        pub const TRUE: Self = Interval {
            lower: ScalarValue::Boolean(Some(true)),
            upper: ScalarValue::Boolean(Some(true)),
        };
        pub const FALSE: Self = Interval {
            lower: ScalarValue::Boolean(Some(false)),
            upper: ScalarValue::Boolean(Some(false)),
        };
        pub fn try_new(lower: ScalarValue, upper: ScalarValue) -> Result<Self> {
            Ok(Interval { lower, upper })
        }
        pub fn make_unbounded(_: &DataType) -> Result<Self> {
            unimplemented!("intervals are left out")
        }
        pub fn data_type(&self) -> DataType {
            self.lower.data_type()
        }
        pub fn cast_to(&self, _: &DataType, _: &CastOptions<'static>) -> Result<Self> {
            unimplemented!("intervals are left out")
        }
        pub fn arithmetic_negate(&self) -> Result<Self> {
            unimplemented!("intervals are left out")
        }
        #[expect(clippy::should_implement_trait)]
        pub fn not(&self) -> Result<Self> {
            unimplemented!("intervals are left out")
        }
        pub fn intersect<T: std::borrow::Borrow<Self>>(&self, _: T) -> Result<Option<Self>> {
            unimplemented!("intervals are left out")
        }
    }
}

pub mod sort_properties {
    use crate::interval_arithmetic::Interval;
    use datafusion_common::ScalarValue;
    use std::ops::Neg;

    #[derive(Debug, Clone, Copy, PartialEq, Eq)]
    pub enum SortProperties {
        Unordered,
        Singleton,
    }
    impl Neg for SortProperties {
        type Output = Self;
        fn neg(self) -> Self {
            self
        }
    }

    #[derive(Debug, Clone)]
    pub struct ExprProperties {
        pub sort_properties: SortProperties,
        pub range: Interval,
        pub preserves_lex_ordering: bool,
        pub strictly_order_preserving: bool,
    }
    impl ExprProperties {
        pub fn new_unknown() -> Self {
            ExprProperties {
                sort_properties: SortProperties::Unordered,
                range: Interval::try_new(ScalarValue::Null, ScalarValue::Null).unwrap(),
                preserves_lex_ordering: false,
                strictly_order_preserving: false,
            }
        }
        pub fn with_range(mut self, range: Interval) -> Self {
            self.range = range;
            self
        }
        pub fn with_strictly_order_preserving(mut self, b: bool) -> Self {
            self.strictly_order_preserving = b;
            self
        }
    }
}

pub mod statistics {
    #![allow(deprecated)]
    use crate::interval_arithmetic::Interval;
    use arrow::datatypes::DataType;
    use datafusion_common::{Result, ScalarValue};

    #[deprecated]
    #[derive(Debug, Clone)]
    pub enum Distribution {
        Uniform(UniformDistribution),
        Exponential(ExponentialDistribution),
        Gaussian(GaussianDistribution),
        Bernoulli(BernoulliDistribution),
        Generic(GenericDistribution),
    }
    impl Distribution {
        pub fn new_uniform(_: Interval) -> Result<Self> {
            unimplemented!("statistics are left out")
        }
        pub fn new_exponential(_: ScalarValue, _: ScalarValue, _: bool) -> Result<Self> {
            unimplemented!("statistics are left out")
        }
        pub fn new_gaussian(_: ScalarValue, _: ScalarValue) -> Result<Self> {
            unimplemented!("statistics are left out")
        }
        pub fn new_bernoulli(_: ScalarValue) -> Result<Self> {
            unimplemented!("statistics are left out")
        }
        pub fn new_generic(
            _: ScalarValue,
            _: ScalarValue,
            _: ScalarValue,
            _: Interval,
        ) -> Result<Self> {
            unimplemented!("statistics are left out")
        }
    }

    macro_rules! names {
        ($($d:ident: $($f:ident -> $t:ty),*;)*) => {$(
            #[derive(Debug, Clone)]
            pub struct $d(());
            impl $d {
                $(pub fn $f(&self) -> $t {
                    unimplemented!("statistics are left out")
                })*
            }
        )*};
    }
    names! {
        UniformDistribution: range -> &Interval;
        ExponentialDistribution: rate -> &ScalarValue, offset -> &ScalarValue, positive_tail -> bool;
        GaussianDistribution: mean -> &ScalarValue, variance -> &ScalarValue;
        BernoulliDistribution: p_value -> &ScalarValue, range -> Interval, data_type -> DataType;
        GenericDistribution: mean -> &ScalarValue, median -> &ScalarValue,
            variance -> &ScalarValue, range -> &Interval;
    }
}
