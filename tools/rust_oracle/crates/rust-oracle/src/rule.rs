//! The bytes of a rule, made into the Rust's expressions by their constructors.

use crate::cmp::CmpExpr;
use crate::text;
use arrow::datatypes::{DataType, Field, Schema};
use datafusion_common::ScalarValue;
use datafusion_physical_expr::PhysicalExpr;
use datafusion_physical_expr::expressions::{
    CaseExpr, CastExpr, Column, IsNotNullExpr, Literal, NegativeExpr, NotExpr, TryCastExpr,
};
use std::collections::BTreeMap;
use std::ops::RangeInclusive;
use std::sync::Arc;

type Expr = Arc<dyn PhysicalExpr>;

pub fn type_of(n: u8) -> Option<DataType> {
    Some(match n {
        1 => DataType::Boolean,
        2 => DataType::Int32,
        3 => DataType::Int64,
        4 => DataType::Float64,
        5 => DataType::Utf8,
        _ => return None,
    })
}

pub fn number_of(t: &DataType) -> u8 {
    match t {
        DataType::Boolean => 1,
        DataType::Int32 => 2,
        DataType::Int64 => 3,
        DataType::Float64 => 4,
        DataType::Utf8 => 5,
        _ => 0,
    }
}

pub struct Rule {
    pub case: CaseExpr,
    /// index to type and nullable mark
    pub columns: BTreeMap<usize, (u8, bool)>,
}

impl Rule {
    /// A schema from the rule's marks alone; an index that it doesn't name
    /// stands for a Boolean.
    pub fn schema(&self) -> Schema {
        let n = self.columns.last_key_value().map_or(0, |(i, _)| i + 1);
        Schema::new(
            (0..n)
                .map(|i| {
                    let (t, null) = self.columns.get(&i).copied().unwrap_or((1, true));
                    Field::new(format!("c{i}"), type_of(t).unwrap(), null)
                })
                .collect::<Vec<_>>(),
        )
    }
}

/// Which ELSEs of another type than the result are put under a try-cast.
#[derive(Clone, Copy)]
pub enum CastElse {
    None,
    /// those that `expr_or_expr` (strategy 5) may leave as they are
    LeftUncast,
    /// those whose cast can fail to fit
    CanFail,
}

struct Reader {
    columns: BTreeMap<usize, (u8, bool)>,
    cast_else: CastElse,
}

/// A field's tag, content and what follows it.
fn field(b: &[u8]) -> Option<(u8, &[u8], &[u8])> {
    let (head, rest) = b.split_at_checked(3)?;
    let n = u16::from_le_bytes([head[1], head[2]]) as usize;
    let (content, after) = rest.split_at_checked(n)?;
    Some((head[0], content, after))
}

fn flag(b: u8) -> Option<bool> {
    match b {
        0 => Some(false),
        1 => Some(true),
        _ => None,
    }
}

/// Each type to itself, any pair among 1, 2, 3, and any among 2, 3, 4.
fn castable(from: u8, to: u8) -> bool {
    let both = |kinds: RangeInclusive<u8>| kinds.contains(&from) && kinds.contains(&to);
    from == to || both(1..=3) || both(2..=4)
}

/// Int64 to Int32, and Float64 to an integer.
fn can_fail(from: u8, to: u8) -> bool {
    matches!((from, to), (3, 2) | (4, 2) | (4, 3))
}

pub fn read(bytes: &[u8]) -> Option<Rule> {
    read_as(bytes, CastElse::None)
}

pub fn read_as(bytes: &[u8], cast_else: CastElse) -> Option<Rule> {
    if bytes.is_empty() || bytes.len() > 4096 {
        return None;
    }
    let (tag, content, after) = field(bytes)?;
    if tag != 25 || !after.is_empty() {
        return None;
    }
    let mut r = Reader {
        columns: BTreeMap::new(),
        cast_else,
    };
    let (case, _) = r.case(content, 1, 1)?;
    Some(Rule {
        case,
        columns: r.columns,
    })
}

impl Reader {
    fn case(&mut self, b: &[u8], depth: usize, cases: usize) -> Option<(CaseExpr, u8)> {
        if depth > 8 || cases > 3 {
            return None;
        }
        let (head, mut b) = b.split_at_checked(2)?;
        let (flags, count) = (head[0], head[1] as usize);
        if flags > 3 || count == 0 || count > 32 {
            return None;
        }
        let mut child = |s: &mut Self| -> Option<(Expr, u8, bool)> {
            let (tag, content, after) = field(b)?;
            b = after;
            let null = tag == 17 && content.get(1) == Some(&1);
            let (e, t) = s.expr(tag, content, depth + 1, cases)?;
            Some((e, t, null))
        };
        let base = if flags & 1 != 0 {
            Some(child(self)?)
        } else {
            None
        };
        let when_type = base.as_ref().map_or(1, |b| b.1);
        let mut branches = Vec::with_capacity(count);
        let mut result = None;
        for _ in 0..count {
            let (when, wt, _) = child(self)?;
            let (then, tt, _) = child(self)?;
            if wt != when_type || *result.get_or_insert(tt) != tt {
                return None;
            }
            branches.push((when, then));
        }
        let result = result?;
        let other = if flags & 2 != 0 {
            let (e, t, null) = child(self)?;
            if !null && !castable(t, result) {
                return None;
            }
            let both_literal = e.is::<Literal>() && branches[0].1.is::<Literal>();
            let try_cast = match self.cast_else {
                CastElse::None => false,
                CastElse::LeftUncast => {
                    t != result && base.is_none() && count == 1 && !both_literal
                }
                CastElse::CanFail => can_fail(t, result),
            };
            if try_cast && !null {
                Some(Arc::new(TryCastExpr::new(e, type_of(result)?)) as Expr)
            } else {
                Some(e)
            }
        } else {
            None
        };
        if !b.is_empty() {
            return None;
        }
        let case = CaseExpr::try_new(base.map(|b| b.0), branches, other).ok()?;
        Some((case, result))
    }

    fn only(&mut self, b: &[u8], depth: usize, cases: usize) -> Option<(Expr, u8)> {
        let (tag, content, after) = field(b)?;
        if !after.is_empty() {
            return None;
        }
        self.expr(tag, content, depth, cases)
    }

    fn expr(&mut self, tag: u8, b: &[u8], depth: usize, cases: usize) -> Option<(Expr, u8)> {
        if depth > 8 {
            return None;
        }
        Some(match tag {
            16 => {
                let &[i, t, null] = b else { return None };
                type_of(t)?;
                let mark = (t, flag(null)?);
                if *self.columns.entry(i as usize).or_insert(mark) != mark {
                    return None;
                }
                (Arc::new(Column::new(&format!("c{i}"), i as usize)), t)
            }
            17 => {
                let (head, v) = b.split_at_checked(2)?;
                let (t, null) = (head[0], flag(head[1])?);
                if null && !v.is_empty() {
                    return None;
                }
                let v = (!null).then_some(v);
                let s = match t {
                    1 => ScalarValue::Boolean(match v {
                        None => None,
                        Some(&[x]) => Some(flag(x)?),
                        Some(_) => return None,
                    }),
                    2 => ScalarValue::Int32(match v {
                        None => None,
                        Some(v) => Some(i32::from_le_bytes(v.try_into().ok()?)),
                    }),
                    3 => ScalarValue::Int64(match v {
                        None => None,
                        Some(v) => Some(i64::from_le_bytes(v.try_into().ok()?)),
                    }),
                    4 => ScalarValue::Float64(match v {
                        None => None,
                        Some(v) => Some(f64::from_le_bytes(v.try_into().ok()?)),
                    }),
                    5 => ScalarValue::Utf8(v.map(text::to_str)),
                    _ => return None,
                };
                (Arc::new(Literal::new(s)), t)
            }
            18..=20 => {
                let (e, t) = self.only(b, depth + 1, cases)?;
                match tag {
                    18 if t == 1 => (Arc::new(NotExpr::new(e)), 1),
                    19 if (2..=4).contains(&t) => (Arc::new(NegativeExpr::new(e)), t),
                    20 => (Arc::new(IsNotNullExpr::new(e)), 1),
                    _ => return None,
                }
            }
            21 | 22 => {
                let (to, b) = b.split_first()?;
                let to_type = type_of(*to)?;
                let (e, t) = self.only(b, depth + 1, cases)?;
                if !castable(t, *to) {
                    return None;
                }
                if tag == 21 {
                    (Arc::new(CastExpr::new(e, to_type, None)), *to)
                } else {
                    (Arc::new(TryCastExpr::new(e, to_type)), *to)
                }
            }
            23 | 24 => {
                let (tag_l, l, rest) = field(b)?;
                let (l, lt) = self.expr(tag_l, l, depth + 1, cases)?;
                let (r, rt) = self.only(rest, depth + 1, cases)?;
                if lt != rt {
                    return None;
                }
                (Arc::new(CmpExpr::new(tag == 24, l, r)), 1)
            }
            25 => {
                let (c, t) = self.case(b, depth, cases + 1)?;
                (Arc::new(c), t)
            }
            _ => return None,
        })
    }
}
