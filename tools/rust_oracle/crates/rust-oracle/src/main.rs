//! rust-oracle RULE.bin BATCH.bin             the listing of document 01, or
//!                                            `failed`, `panicked`, `unreadable`
//! rust-oracle --answers RULE.bin             strategy, nullability, projection
//! rust-oracle --bench RULE.bin BATCH.bin     median nanoseconds: `evaluate`, with
//!                                            into_array; `whole`, from bytes to bytes
//! rust-oracle [--cast-else] [--wrap-negation] [--try-else] --stream < FRAMES
//!     many cases: a frame is a four-byte little-endian length and a rule, then
//!     the same for a table. Each gives its answers, its listing and a line with
//!     a dot. --cast-else puts a try-cast above the ELSE that `expr_or_expr` may
//!     leave uncast, --wrap-negation makes the negation of a scalar wrap, and
//!     --try-else asks the nullability of the rule with a try-cast above each ELSE
//!     whose cast can fail to fit: a known difference is then gone.
//! rust-oracle --builder < TEXT               `ResultBuilder` on Int32:
//!     a line with the row count, then a line a part (`0 4 = 7 null`: rows, then
//!     their values), then an empty line; gives a listing, `failed` or `panicked`,
//!     and a line with a dot. A part for no row is `=`.
//!
//! ORACLE_ERRORS=1 shows the text of errors and panics.

mod cmp;
mod rule;
mod table;
mod text;

use arrow::array::{ArrayRef, RecordBatch};
use arrow::datatypes::{DataType, Schema};
use datafusion_common::ScalarValue;
use datafusion_physical_expr::PhysicalExpr;
use datafusion_physical_expr::expressions::case::probe;
use rule::CastElse;
use std::fmt::Write as _;
use std::hint::black_box;
use std::io::{Read, Write};
use std::panic::{AssertUnwindSafe, catch_unwind};
use std::sync::atomic::Ordering;
use std::time::{Duration, Instant};

/// `f`'s answer, or what went wrong.
fn guarded<T>(f: impl FnOnce() -> datafusion_common::Result<T>) -> Result<T, String> {
    match catch_unwind(AssertUnwindSafe(f)) {
        Ok(Ok(v)) => Ok(v),
        Ok(Err(e)) => {
            if std::env::var_os("ORACLE_ERRORS").is_some() {
                eprintln!("{e}");
            }
            Err("failed".into())
        }
        Err(_) => Err("panicked".into()),
    }
}

fn nullable(rule: &rule::Rule, schema: &Schema) -> String {
    match guarded(|| rule.case.nullable(schema)) {
        Ok(b) => (b as u8).to_string(),
        Err(e) => e,
    }
}

fn evaluate(rule: &rule::Rule, batch: &RecordBatch) -> Result<ArrayRef, String> {
    guarded(|| rule.case.evaluate(batch)?.into_array(batch.num_rows()))
}

fn listing(r: &[u8], t: &[u8], cast_else: CastElse) -> String {
    let Some(rule) = rule::read_as(r, cast_else) else {
        return "unreadable\n".into();
    };
    let Some(batch) = table::read(t, &rule) else {
        return "unreadable\n".into();
    };
    match evaluate(&rule, &batch) {
        // the nullability answer is that of the rule as it is
        Ok(a) => match rule::read(r) {
            Some(rule) => table::list(&a, &nullable(&rule, batch.schema_ref())),
            None => "unreadable\n".into(),
        },
        Err(e) => format!("{e}\n"),
    }
}

fn numbers(v: &[usize]) -> String {
    v.iter().fold(String::new(), |mut s, i| {
        let _ = write!(s, " {i}");
        s
    })
}

/// The nullability answer is that of the rule with its ELSEs cast so.
fn answers(r: &[u8], cast_else: CastElse) -> String {
    let (Some(rule), Some(asked)) = (rule::read(r), rule::read_as(r, cast_else)) else {
        return "unreadable\n".into();
    };
    let case = &rule.case;
    format!(
        "strategy {}\nnullable {}\nprojection{}\n",
        probe::strategy(case),
        nullable(&asked, &asked.schema()),
        match guarded(|| probe::projection(case)) {
            Ok(p) => numbers(&p),
            Err(e) => format!(" {e}"),
        },
    )
}

/// Median nanoseconds of one call, from samples of many calls.
fn time(mut f: impl FnMut()) -> f64 {
    let warm = Instant::now();
    let mut n = 0u32;
    while warm.elapsed() < Duration::from_millis(200) {
        f();
        n += 1;
    }
    let per_sample = (n / 4000).max(1); // about 50 microseconds a sample
    let mut samples = Vec::new();
    let begin = Instant::now();
    while samples.len() < 501
        || samples.len() < 20_001 && begin.elapsed() < Duration::from_secs(1)
    {
        let t = Instant::now();
        for _ in 0..per_sample {
            f();
        }
        samples.push(t.elapsed().as_nanos() as f64 / per_sample as f64);
    }
    samples.sort_by(f64::total_cmp);
    samples[samples.len() / 2]
}

/// From bytes to bytes.
fn whole(r: &[u8], t: &[u8]) -> Option<Vec<u8>> {
    let rule = rule::read(r)?;
    let batch = table::read(t, &rule)?;
    let null = rule.case.nullable(batch.schema_ref()).unwrap_or(true);
    let value = rule.case.evaluate(&batch).ok()?;
    Some(table::write(&value.into_array(batch.num_rows()).ok()?, null))
}

fn bench(r: &[u8], t: &[u8]) -> String {
    let Some(rule) = rule::read(r) else {
        return "unreadable\n".into();
    };
    let Some(batch) = table::read(t, &rule) else {
        return "unreadable\n".into();
    };
    let evaluate = time(|| {
        let value = rule.case.evaluate(black_box(&batch));
        let _ = black_box(value.and_then(|v| v.into_array(batch.num_rows())));
    });
    let all = time(|| {
        black_box(whole(black_box(r), black_box(t)));
    });
    format!("evaluate {evaluate:.0}\nwhole {all:.0}\n")
}

fn stream(listed: CastElse, wrap: bool, asked: CastElse) -> std::io::Result<()> {
    datafusion_common::WRAP_SCALAR_NEGATION.store(wrap, Ordering::Relaxed);
    let mut all = Vec::new();
    std::io::stdin().lock().read_to_end(&mut all)?;
    let mut out = std::io::BufWriter::new(std::io::stdout().lock());
    let mut b = &all[..];
    fn frame<'a>(b: &mut &'a [u8]) -> Option<&'a [u8]> {
        let (n, rest) = b.split_at_checked(4)?;
        let n = u32::from_le_bytes(n.try_into().unwrap()) as usize;
        let (x, rest) = rest.split_at_checked(n)?;
        *b = rest;
        Some(x)
    }
    while let (Some(r), Some(t)) = (frame(&mut b), frame(&mut b)) {
        write!(out, "{}{}.\n", answers(r, asked), listing(r, t, listed))?;
    }
    out.flush()
}

fn builder(text: &str) -> Option<String> {
    let mut out = String::new();
    for block in text.split("\n\n").filter(|b| !b.trim().is_empty()) {
        let mut lines = block.trim().lines();
        let count: usize = lines.next()?.trim().parse().ok()?;
        let mut parts = Vec::new();
        for line in lines {
            let (rows, values) = line.split_once('=')?;
            let rows = rows
                .split_whitespace()
                .map(|r| r.parse().ok())
                .collect::<Option<Vec<u32>>>()?;
            let values = values
                .split_whitespace()
                .map(|v| match v {
                    "null" => Some(ScalarValue::Int32(None)),
                    v => Some(ScalarValue::Int32(Some(v.parse().ok()?))),
                })
                .collect::<Option<Vec<_>>>()?;
            let values = match values.is_empty() {
                true => ScalarValue::Int32(None).to_array_of_size(0).ok()?,
                false => ScalarValue::iter_to_array(values).ok()?,
            };
            parts.push((rows, values));
        }
        out += &match guarded(|| probe::build(&DataType::Int32, count, parts)) {
            Ok(a) => table::list(&a, "1"),
            Err(e) => format!("{e}\n"),
        };
        out += ".\n";
    }
    Some(out)
}

fn main() -> std::process::ExitCode {
    if std::env::var_os("ORACLE_ERRORS").is_none() {
        std::panic::set_hook(Box::new(|_| {}));
    }
    let args: Vec<String> = std::env::args().skip(1).collect();
    let args: Vec<&str> = args.iter().map(|s| s.as_str()).collect();
    let read = |p: &str| std::fs::read(p).unwrap_or_default();
    let s = match args.as_slice() {
        [flags @ .., "--stream"] => {
            let on = |flag| flags.contains(&flag);
            let cast = |flag, how| if on(flag) { how } else { CastElse::None };
            let listed = cast("--cast-else", CastElse::LeftUncast);
            let asked = cast("--try-else", CastElse::CanFail);
            return match stream(listed, on("--wrap-negation"), asked) {
                Ok(()) => 0.into(),
                Err(_) => 1.into(),
            };
        }
        ["--builder"] => {
            let mut text = String::new();
            let _ = std::io::stdin().lock().read_to_string(&mut text);
            builder(&text).unwrap_or("unreadable\n".into())
        }
        ["--answers", r] => answers(&read(r), CastElse::None),
        ["--bench", r, t] => bench(&read(r), &read(t)),
        [r, t] => listing(&read(r), &read(t), CastElse::None),
        _ => {
            eprintln!("usage: see the head of main.rs, or tools/rust_oracle/README.md");
            return 2.into();
        }
    };
    print!("{s}");
    0.into()
}
