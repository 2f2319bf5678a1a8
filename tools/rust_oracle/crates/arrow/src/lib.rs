//! Stand-in for the arrow crate: Boolean, Int32, Int64, Float64, Utf8 (and
//! UInt32 for row numbers), with the kernels that datafusion's CASE calls.
//! Other array types are there by name, since the copied files name them.

pub mod array;
pub mod buffer;
pub mod compute;
pub mod datatypes;
pub mod record_batch;

pub mod error {
    pub use arrow_schema::ArrowError;
}
