//! Evaluates a rule over a table, both held in memory, and prints the answer's entries. Their bytes: docs/FORMAT.md.

/// The functions of include/tembalku.h that are used here.
mod library {
    extern "C" {
        pub fn tembalku_table_read(table: *const u8, table_len: usize) -> u32;
        pub fn tembalku_table_null_count(table: *const u8, table_len: usize, column: usize) -> usize;
        pub fn tembalku_evaluate(
            rule: *const u8, rule_len: usize,
            table: *const u8, table_len: usize,
            work: *mut u8, work_len: usize,
            output: *mut u8, output_len: usize,
        ) -> usize;
    }
}

const WORK_BYTES: usize = 65536;
const OUTPUT_MOST: usize = 67670;

/// CASE WHEN c0 THEN 1 ELSE 0 END
const RULE: [u8; 29] = [
    0x19, 0x1A, 0x00, 0x02, 0x01, 0x10, 0x03, 0x00, 0x00, 0x01, 0x01, 0x11, 0x06, 0x00, 0x02,
    0x00, 0x01, 0x00, 0x00, 0x00, 0x11, 0x06, 0x00, 0x02, 0x00, 0x00, 0x00, 0x00, 0x00,
];
/// Four rows, one Boolean column, of which one row is null: true, null, false, true.
const TABLE: [u8; 23] = [
    0x01, 0x02, 0x00, 0x04, 0x00, 0x02, 0x02, 0x00, 0x01, 0x01, 0x06, 0x02,
    0x00, 0x01, 0x00, 0x03, 0x01, 0x00, 0x0D, 0x04, 0x01, 0x00, 0x09,
];

/// The answer's length, or the refusal.
fn evaluate(rule: &[u8], table: &[u8], work: &mut [u8], output: &mut [u8]) -> Result<usize, usize> {
    // The lengths are the slices' own, and slices that are written overlap no others.
    let said = unsafe {
        library::tembalku_evaluate(
            rule.as_ptr(), rule.len(), table.as_ptr(), table.len(), work.as_mut_ptr(), work.len(), output.as_mut_ptr(), output.len(),
        )
    };
    if said < 256 { Err(said) } else { Ok(said - 65536) }
}

/// The number of a table's rows, or the refusal.
fn table_rows(table: &[u8]) -> Result<usize, usize> {
    let said = unsafe { library::tembalku_table_read(table.as_ptr(), table.len()) };
    if said < 256 { Err(said as usize) } else { Ok((said - 65536) as usize) }
}

/// How many rows of a table's column are null; none if there is no such column, or the refusal.
fn table_nulls(table: &[u8], column: usize) -> Result<Option<usize>, usize> {
    let said = unsafe { library::tembalku_table_null_count(table.as_ptr(), table.len(), column) };
    if said < 256 { Err(said) } else { Ok(said.checked_sub(65536)) }
}

/// A little-endian number.
fn number(bytes: &[u8]) -> u64 {
    bytes.iter().rev().fold(0, |n, b| n << 8 | *b as u64)
}

/// The first field's content, and what follows the field.
fn field(bytes: &[u8]) -> (&[u8], &[u8]) {
    bytes[3..].split_at(number(&bytes[1..3]) as usize)
}

fn bit(map: &[u8], row: usize) -> bool {
    map[row >> 3] >> (row & 7) & 1 == 1
}

/// How many entries of an answer are null.
fn answer_nulls(answer: &[u8]) -> u64 {
    number(&answer[8..10])
}

/// Prints an answer as the program caserun lists it.
fn list(answer: &[u8], rows: usize) {
    let (head, rest) = field(answer);
    let (_, rest) = field(rest);
    let (valid, rest) = field(rest);
    let (offsets, rest) = if head[0] == 5 { field(rest) } else { (&[][..], rest) };
    let (values, _) = field(rest);
    println!("rows {} type {} nullable {}", rows, head[0], head[1]);
    let wide = |row: usize, width: usize| number(&values[width * row..width * (row + 1)]);
    let offset = |row: usize| number(&offsets[4 * row..4 * row + 4]) as usize;
    for row in 0..rows {
        let entry = if !valid.is_empty() && !bit(valid, row) {
            "null".to_string()
        } else {
            match head[0] {
                1 => bit(values, row).to_string(),
                2 => (wide(row, 4) as i32).to_string(),
                3 => (wide(row, 8) as i64).to_string(),
                4 => format!("{:016x}", wide(row, 8)),
                _ => values[offset(row)..offset(row + 1)].iter().fold("t".to_string(), |text, b| text + &format!("{:02x}", b)),
            }
        };
        println!("{} {}", row, entry);
    }
}

/// The listing of the answer, and the null counts of the table's column and of the answer; or the refusal.
fn run(work: &mut [u8], output: &mut [u8]) -> Result<(), usize> {
    let size = evaluate(&RULE, &TABLE, work, output)?;
    let answer = &output[..size];
    list(answer, table_rows(&TABLE)?);
    if let Some(nulls) = table_nulls(&TABLE, 0)? {
        println!("nulls: {} in column 0, {} in the answer", nulls, answer_nulls(answer));
    }
    Ok(())
}

fn main() {
    if let Err(number) = run(&mut vec![0; WORK_BYTES], &mut vec![0; OUTPUT_MOST]) {
        println!("refused {}", number);
        std::process::exit(1);
    }
}
