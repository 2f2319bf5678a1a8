//! The bytes of a table as a RecordBatch, and an answer as a listing or bytes.

use crate::rule::{Rule, number_of, type_of};
use crate::text;
use arrow::array::*;
use arrow::buffer::{BooleanBuffer, NullBuffer};
use arrow::datatypes::*;
use std::fmt::Write;
use std::sync::Arc;

struct Cursor<'a>(&'a [u8]);

impl<'a> Cursor<'a> {
    fn field(&mut self, tag: u8) -> Option<&'a [u8]> {
        let (head, rest) = self.0.split_at_checked(3)?;
        if head[0] != tag {
            return None;
        }
        let n = u16::from_le_bytes([head[1], head[2]]) as usize;
        let (content, after) = rest.split_at_checked(n)?;
        self.0 = after;
        Some(content)
    }
}

fn bits(b: &[u8], rows: usize) -> BooleanBuffer {
    let words = b
        .chunks(8)
        .map(|c| {
            let mut w = [0u8; 8];
            w[..c.len()].copy_from_slice(c);
            u64::from_le_bytes(w)
        })
        .collect();
    BooleanBuffer::new(words, rows)
}

/// Validity of a column; `Some(None)` if nothing is null.
fn validity(b: &[u8], rows: usize) -> Option<Option<NullBuffer>> {
    if b.is_empty() {
        return Some(None);
    }
    if b.len() != rows.div_ceil(8) {
        return None;
    }
    let n = NullBuffer::new(bits(b, rows));
    Some((n.null_count() > 0).then_some(n))
}

fn texts(o: &[u8], v: &[u8], rows: usize, nulls: Option<NullBuffer>) -> Option<ArrayRef> {
    if o.len() != 4 * (rows + 1) {
        return None;
    }
    let o: Vec<u32> = o
        .chunks(4)
        .map(|c| u32::from_le_bytes(c.try_into().unwrap()))
        .collect();
    if o[0] != 0 || o.windows(2).any(|w| w[0] > w[1]) || o[rows] as usize != v.len() {
        return None;
    }
    if v.is_ascii() {
        let o: Vec<i32> = o.iter().map(|x| *x as i32).collect();
        return Some(Arc::new(StringArray::new(o.into(), v.to_vec().into(), nulls)));
    }
    let mut data = Vec::new();
    let mut offsets = vec![0i32];
    for w in o.windows(2) {
        let s = text::to_str(&v[w[0] as usize..w[1] as usize]);
        data.extend_from_slice(s.as_bytes());
        offsets.push(data.len() as i32);
    }
    Some(Arc::new(StringArray::new(offsets.into(), data.into(), nulls)))
}

/// An array of Booleans or numbers.
fn plain(t: u8, v: &[u8], rows: usize, nulls: Option<NullBuffer>) -> Option<ArrayRef> {
    macro_rules! numbers {
        ($array:ident, $n:ty) => {{
            let v: Vec<$n> = v
                .chunks_exact(size_of::<$n>())
                .map(|c| <$n>::from_le_bytes(c.try_into().unwrap()))
                .collect();
            Arc::new($array::new(v.into(), nulls))
        }};
    }
    let width = if t == 2 { 4 } else { 8 };
    if v.len() != if t == 1 { rows.div_ceil(8) } else { rows * width } {
        return None;
    }
    Some(match t {
        1 => Arc::new(BooleanArray::new(bits(v, rows), nulls)),
        2 => numbers!(Int32Array, i32),
        3 => numbers!(Int64Array, i64),
        _ => numbers!(Float64Array, f64),
    })
}

/// The null count as tag 6 has it (02, Change 3).
fn count(nulls: Option<&NullBuffer>) -> [u8; 2] {
    (nulls.map_or(0, |n| n.null_count()) as u16).to_le_bytes()
}

/// The next column: type, nullable mark and entries.
fn column(c: &mut Cursor, rows: usize) -> Option<(u8, bool, ArrayRef)> {
    let &[t, nullable] = c.field(2)? else {
        return None;
    };
    type_of(t)?;
    let written = match c.0.first() {
        Some(6) => Some(c.field(6)?),
        _ => None,
    };
    let nulls = validity(c.field(3)?, rows)?;
    if nullable > 1 || nullable == 0 && nulls.is_some() {
        return None;
    }
    if written.is_some_and(|w| w != count(nulls.as_ref())) {
        return None;
    }
    let array = if t == 5 {
        let offsets = c.field(5)?;
        texts(offsets, c.field(4)?, rows, nulls)?
    } else {
        plain(t, c.field(4)?, rows, nulls)?
    };
    Some((t, nullable == 1, array))
}

/// The table as a batch, with the rule's nullable marks on the columns that it
/// names; `None` if the bytes aren't a table or the table doesn't fit.
pub fn read(bytes: &[u8], rule: &Rule) -> Option<RecordBatch> {
    if bytes.is_empty() || bytes.len() > 65536 {
        return None;
    }
    let mut c = Cursor(bytes);
    let rows = u16::from_le_bytes(c.field(1)?.try_into().ok()?) as usize;
    if rows > 512 {
        return None;
    }
    let mut fields = Vec::new();
    let mut columns: Vec<ArrayRef> = Vec::new();
    while !c.0.is_empty() {
        let i = columns.len();
        if i == 16 {
            return None;
        }
        let (t, mut nullable, array) = column(&mut c, rows)?;
        if let Some((rule_type, mark)) = rule.columns.get(&i) {
            if *rule_type != t || nullable && !mark {
                return None;
            }
            nullable = *mark;
        }
        fields.push(Field::new(format!("c{i}"), type_of(t)?, nullable));
        columns.push(array);
    }
    if rule.columns.keys().any(|i| *i >= columns.len()) {
        return None;
    }
    RecordBatch::try_new_with_options(
        Arc::new(Schema::new(fields)),
        columns,
        &RecordBatchOptions::new().with_row_count(Some(rows)),
    )
    .ok()
}

/// The listing; its type is the array's own.
pub fn list(a: &dyn Array, nullable: &str) -> String {
    let t = a.data_type();
    let mut s = format!("rows {} type {} nullable {nullable}\n", a.len(), number_of(t));
    for i in 0..a.len() {
        let _ = write!(s, "{i} ");
        let _ = if a.is_null(i) {
            writeln!(s, "null")
        } else {
            match t {
                DataType::Boolean => writeln!(s, "{}", a.as_boolean().value(i)),
                DataType::Int32 => {
                    writeln!(s, "{}", a.as_primitive::<Int32Type>().value(i))
                }
                DataType::Int64 => {
                    writeln!(s, "{}", a.as_primitive::<Int64Type>().value(i))
                }
                DataType::Float64 => writeln!(
                    s,
                    "{:016x}",
                    a.as_primitive::<Float64Type>().value(i).to_bits()
                ),
                _ => {
                    s.push('t');
                    for b in text::to_bytes(a.as_string::<i32>().value(i)) {
                        let _ = write!(s, "{b:02x}");
                    }
                    writeln!(s)
                }
            }
        };
    }
    s
}

fn put(out: &mut Vec<u8>, tag: u8, content: &[u8]) {
    out.push(tag);
    out.extend_from_slice(&(content.len() as u16).to_le_bytes());
    out.extend_from_slice(content);
}

fn bytes_of(b: &BooleanBuffer) -> Vec<u8> {
    let mut v: Vec<u8> = b.words().iter().flat_map(|w| w.to_le_bytes()).collect();
    v.truncate(b.len().div_ceil(8));
    v
}

/// The answer as documents 01 and 02 write it: its null count, and zero, or empty text, under nulls.
pub fn write(a: &dyn Array, nullable: bool) -> Vec<u8> {
    let mut out = Vec::new();
    put(&mut out, 2, &[number_of(a.data_type()), nullable as u8]);
    let nulls = a.nulls().filter(|n| n.null_count() > 0);
    put(&mut out, 6, &count(nulls));
    put(&mut out, 3, &nulls.map_or(Vec::new(), |n| bytes_of(n.inner())));
    macro_rules! numbers {
        ($t:ty, $zero:expr) => {{
            let v: &[_] = a.as_primitive::<$t>().values();
            let mut all = Vec::with_capacity(v.len() * 8);
            for (i, x) in v.iter().enumerate() {
                let x = if nulls.is_some_and(|n| n.is_null(i)) { $zero } else { *x };
                all.extend_from_slice(&x.to_le_bytes());
            }
            put(&mut out, 4, &all);
        }};
    }
    match a.data_type() {
        DataType::Boolean => {
            let v = a.as_boolean().values();
            put(&mut out, 4, &match nulls {
                None => bytes_of(v),
                Some(n) => bytes_of(&v.and(n.inner())),
            });
        }
        DataType::Int32 => numbers!(Int32Type, 0),
        DataType::Int64 => numbers!(Int64Type, 0),
        DataType::Float64 => numbers!(Float64Type, 0.0),
        _ => {
            let s = a.as_string::<i32>();
            let mut offsets = vec![0u8; 4];
            let mut data = Vec::new();
            for i in 0..a.len() {
                if !a.is_null(i) {
                    if s.bytes(i).is_ascii() {
                        data.extend_from_slice(s.bytes(i));
                    } else {
                        data.extend(text::to_bytes(s.value(i)));
                    }
                }
                offsets.extend_from_slice(&(data.len() as u32).to_le_bytes());
            }
            put(&mut out, 5, &offsets);
            put(&mut out, 4, &data);
        }
    }
    out
}
