use arrow::error::ArrowError;
use std::fmt;

pub type Result<T, E = DataFusionError> = std::result::Result<T, E>;

#[derive(Debug)]
pub enum DataFusionError {
    ArrowError(Box<ArrowError>, Option<String>),
    Internal(String),
    Plan(String),
    Execution(String),
    NotImplemented(String),
    Context(String, Box<DataFusionError>),
}

impl fmt::Display for DataFusionError {
    fn fmt(&self, f: &mut fmt::Formatter<'_>) -> fmt::Result {
        match self {
            Self::ArrowError(e, _) => write!(f, "Arrow error: {e}"),
            Self::Internal(s) => write!(f, "Internal error: {s}"),
            Self::Plan(s) => write!(f, "Error during planning: {s}"),
            Self::Execution(s) => write!(f, "Execution error: {s}"),
            Self::NotImplemented(s) => write!(f, "Not implemented: {s}"),
            Self::Context(s, e) => write!(f, "{s}, caused by {e}"),
        }
    }
}
impl From<ArrowError> for DataFusionError {
    fn from(e: ArrowError) -> Self {
        DataFusionError::ArrowError(Box::new(e), None)
    }
}

#[macro_export]
macro_rules! internal_datafusion_err {
    ($($a:expr),* $(,)?) => { $crate::DataFusionError::Internal(format!($($a),*)) };
}
#[macro_export]
macro_rules! internal_err {
    ($($a:expr),* $(,)?) => { Err($crate::DataFusionError::Internal(format!($($a),*))) };
}
#[macro_export]
macro_rules! exec_err {
    ($($a:expr),* $(,)?) => { Err($crate::DataFusionError::Execution(format!($($a),*))) };
}
#[macro_export]
macro_rules! plan_datafusion_err {
    ($($a:expr),* $(,)?) => { $crate::DataFusionError::Plan(format!($($a),*)) };
}
#[macro_export]
macro_rules! plan_err {
    ($($a:expr),* $(,)?) => { Err($crate::DataFusionError::Plan(format!($($a),*))) };
}
#[macro_export]
macro_rules! not_impl_err {
    ($($a:expr),* $(,)?) => { Err($crate::DataFusionError::NotImplemented(format!($($a),*))) };
}
#[macro_export]
macro_rules! arrow_datafusion_err {
    ($e:expr) => { $crate::DataFusionError::ArrowError(Box::new($e), None) };
}
#[macro_export]
macro_rules! assert_or_internal_err {
    ($c:expr, $($a:expr),* $(,)?) => {
        if !$c {
            return Err($crate::DataFusionError::Internal(format!($($a),*)));
        }
    };
}
