//! datafusion-physical-expr with only the modules that CASE needs. prepare.sh
//! puts the Rust's own files in place.
#![allow(dead_code)]

pub mod expressions;

pub mod physical_expr {
    pub use datafusion_physical_expr_common::physical_expr::PhysicalExpr;
}
pub use physical_expr::PhysicalExpr;
