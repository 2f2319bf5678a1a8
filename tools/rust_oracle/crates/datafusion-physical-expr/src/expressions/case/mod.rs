// The Rust's case.rs, as it is. It is included, so that the module below is a
// child of it and sees its private parts.
include!("original.rs");

/// Answers about a CASE that the crate keeps to itself.
pub mod probe {
    use super::*;

    /// The strategy, by document 01's numbers.
    pub fn strategy(case: &CaseExpr) -> u8 {
        match &case.eval_method {
            EvalMethod::NoExpression(_) => 1,
            EvalMethod::WithExpression(_) => 2,
            EvalMethod::InfallibleExprOrNull => 3,
            EvalMethod::ScalarOrScalar => 4,
            EvalMethod::ExpressionOrExpression(_) => 5,
            EvalMethod::WithExprScalarLookupTable(_) => 6,
        }
    }

    /// The projection that the strategy holds; strategies 3, 4 and 6 hold none,
    /// and theirs is made as the others make it.
    pub fn projection(case: &CaseExpr) -> Result<Vec<usize>> {
        match &case.eval_method {
            EvalMethod::NoExpression(p)
            | EvalMethod::WithExpression(p)
            | EvalMethod::ExpressionOrExpression(p) => Ok(p.projection.clone()),
            _ => Ok(case.body.project()?.projection),
        }
    }

    /// What `ResultBuilder` makes of a list of parts, each with its
    /// rows and their values, or the first error.
    pub fn build(
        data_type: &DataType,
        row_count: usize,
        parts: Vec<(Vec<u32>, ArrayRef)>,
    ) -> Result<ArrayRef> {
        let mut b = ResultBuilder::new(data_type, row_count);
        for (rows, values) in parts {
            let rows: ArrayRef = Arc::new(UInt32Array::from(rows));
            b.add_branch_result(&rows, ColumnarValue::Array(values))?;
        }
        b.finish()?.into_array(row_count)
    }
}
