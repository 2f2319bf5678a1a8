//! Equal and less, which are not among the copied files: what DataFusion's
//! BinaryExpr does for these two operators, over the comparison kernels.

use arrow::array::ArrayRef;
use arrow::compute::kernels::cmp::{eq, lt};
use arrow::datatypes::{DataType, Schema};
use arrow::record_batch::RecordBatch;
use datafusion_common::Result;
use datafusion_expr_common::columnar_value::ColumnarValue;
use datafusion_physical_expr::PhysicalExpr;
use datafusion_physical_expr_common::datum::apply;
use std::fmt;
use std::hash::{Hash, Hasher};
use std::sync::Arc;

#[derive(Debug, Eq)]
pub struct CmpExpr {
    less: bool,
    left: Arc<dyn PhysicalExpr>,
    right: Arc<dyn PhysicalExpr>,
}

impl CmpExpr {
    pub fn new(less: bool, left: Arc<dyn PhysicalExpr>, right: Arc<dyn PhysicalExpr>) -> Self {
        CmpExpr { less, left, right }
    }
}

impl PartialEq for CmpExpr {
    fn eq(&self, o: &Self) -> bool {
        self.less == o.less && self.left.eq(&o.left) && self.right.eq(&o.right)
    }
}

impl Hash for CmpExpr {
    fn hash<H: Hasher>(&self, state: &mut H) {
        self.less.hash(state);
        self.left.hash(state);
        self.right.hash(state);
    }
}

impl fmt::Display for CmpExpr {
    fn fmt(&self, f: &mut fmt::Formatter<'_>) -> fmt::Result {
        let op = if self.less { "<" } else { "=" };
        write!(f, "({} {op} {})", self.left, self.right)
    }
}

impl PhysicalExpr for CmpExpr {
    fn data_type(&self, _input_schema: &Schema) -> Result<DataType> {
        Ok(DataType::Boolean)
    }
    fn nullable(&self, input_schema: &Schema) -> Result<bool> {
        Ok(self.left.nullable(input_schema)? || self.right.nullable(input_schema)?)
    }
    fn evaluate(&self, batch: &RecordBatch) -> Result<ColumnarValue> {
        let l = self.left.evaluate(batch)?;
        let r = self.right.evaluate(batch)?;
        if self.less {
            apply(&l, &r, |l, r| Ok(Arc::new(lt(l, r)?) as ArrayRef))
        } else {
            apply(&l, &r, |l, r| Ok(Arc::new(eq(l, r)?) as ArrayRef))
        }
    }
    fn children(&self) -> Vec<&Arc<dyn PhysicalExpr>> {
        vec![&self.left, &self.right]
    }
    fn with_new_children(
        self: Arc<Self>,
        children: Vec<Arc<dyn PhysicalExpr>>,
    ) -> Result<Arc<dyn PhysicalExpr>> {
        Ok(Arc::new(CmpExpr::new(
            self.less,
            Arc::clone(&children[0]),
            Arc::clone(&children[1]),
        )))
    }
    fn fmt_sql(&self, f: &mut fmt::Formatter<'_>) -> fmt::Result {
        write!(f, "{self}")
    }
}
