//! utf8_rust compare [four]    compares the library's test of a text with the standard library's `from_utf8`, place by place
//! utf8_rust bench             nanoseconds of both on the same texts
//!
//! Built and called by compare_utf8.py and bench_utf8.py, with the static library linked in.
//!
//! compare prints a line for each kind of texts: how many were compared, how many differ, and the first that does. `four` takes all strings
//! of four bytes, which is minutes, in place of those of some third and fourth bytes.
//! bench prints a line for each text: its length, the nanoseconds of the library and of Rust, tab between, and its name.

use std::hint::black_box;
use std::time::Instant;

extern "C" {
    fn tembalku_text_validate(text: *const u8, text_len: usize) -> usize;
}

/// The library's place.
fn ours(text: &[u8]) -> usize {
    unsafe { tembalku_text_validate(text.as_ptr(), text.len()) }
}

/// The standard library's.
fn theirs(text: &[u8]) -> usize {
    match std::str::from_utf8(text) {
        Ok(_) => text.len(),
        Err(e) => e.valid_up_to(),
    }
}

// ---- compare ----

struct Tally {
    compared: u64,
    differ: u64,
    first: String,
}

impl Tally {
    fn new() -> Self {
        Tally { compared: 0, differ: 0, first: String::new() }
    }

    fn add(&mut self, text: &[u8]) {
        self.compared += 1;
        let (a, b) = (ours(text), theirs(text));
        if a != b {
            self.differ += 1;
            if self.first.is_empty() {
                self.first = format!(": {text:02x?}, {a} where Rust says {b}");
            }
        }
    }

    fn print(&self, name: &str) {
        println!("{name}: {} compared, {} differ{}", self.compared, self.differ, self.first);
    }
}

/// Both ends of the ranges of the Unicode Standard's table, and what lies beside them.
const BORDERS: [u8; 25] = [
    0x00, 0x41, 0x7F, 0x80, 0x81, 0x8F, 0x90, 0x9F, 0xA0, 0xBF, 0xC0, 0xC1, 0xC2, 0xDF, 0xE0, 0xE1, 0xEC, 0xED, 0xEE, 0xEF, 0xF0, 0xF3, 0xF4, 0xF5,
    0xFF,
];

/// All strings of up to three bytes.
fn short() {
    let mut t = Tally::new();
    t.add(&[]);
    for a in 0..=255 {
        t.add(&[a]);
        for b in 0..=255 {
            t.add(&[a, b]);
            for c in 0..=255 {
                t.add(&[a, b, c]);
            }
        }
    }
    t.print("all strings of up to three bytes");
}

/// Strings of four bytes.
fn four(all: bool) {
    let mut t = Tally::new();
    let every: Vec<u8> = (0..=255).collect();
    let last: &[u8] = if all { &every } else { &BORDERS };
    for a in 0..=255 {
        for b in 0..=255 {
            for c in last {
                for d in last {
                    t.add(&[a, b, *c, *d]);
                }
            }
        }
    }
    t.print(if all { "all strings of four bytes" } else { "strings of four bytes, some third and fourth bytes" });
}

/// Characters of some lengths one behind another, from each of sixteen places on, up to 72 bytes, with each border byte put at each place.
fn long() {
    let mut t = Tally::new();
    let letters: [&str; 8] = ["a", "å", "漢", "🚢", "aå", "abcdefgh漢", "Blåne ", "abcdefg🚢å"];
    for pattern in letters {
        let whole: Vec<u8> = pattern.bytes().cycle().take(96).collect();
        for shift in 0..16 {
            for len in 0..=72 {
                // the text stands at this place of the memory, whatever its own bytes
                let mut room = vec![0u8; shift];
                room.extend_from_slice(&whole[..len]);
                t.add(&room[shift..]);
                for place in 0..len {
                    let kept = room[shift + place];
                    for b in BORDERS {
                        room[shift + place] = b;
                        t.add(&room[shift..]);
                    }
                    room[shift + place] = kept;
                }
            }
        }
    }
    t.print("texts of up to 72 bytes from 16 places on, with a byte put at each place");
}

/// xorshift64*
struct Random(u64);

impl Random {
    fn next(&mut self) -> u64 {
        self.0 ^= self.0 >> 12;
        self.0 ^= self.0 << 25;
        self.0 ^= self.0 >> 27;
        self.0.wrapping_mul(0x2545F4914F6CDD1D) >> 11
    }

    fn below(&mut self, n: u64) -> u64 {
        self.next() % n
    }

    fn character(&mut self) -> char {
        let (low, high) = [(0, 0x80), (0x80, 0x800), (0x800, 0x10000), (0x10000, 0x110000)][self.below(4) as usize];
        char::from_u32((low + self.below(high - low)) as u32).unwrap_or('a')
    }
}

/// Random characters of one to four bytes and runs of letters, some with a byte changed, put in or left out.
fn random() {
    let mut t = Tally::new();
    let mut r = Random(1);
    for _ in 0..3_000_000 {
        let mut s = String::new();
        for _ in 0..r.below(20) {
            if r.below(3) == 0 {
                s.extend(std::iter::repeat_n('x', r.below(24) as usize));
            } else {
                s.push(r.character());
            }
        }
        let mut bytes = s.into_bytes();
        t.add(&bytes);
        if !bytes.is_empty() {
            let at = r.below(bytes.len() as u64) as usize;
            match r.below(3) {
                0 => bytes[at] = r.below(256) as u8,
                1 => bytes.insert(at, r.below(256) as u8),
                _ => drop(bytes.remove(at)),
            }
            t.add(&bytes);
        }
    }
    t.print("random texts, as they are and with a byte changed");
}

// ---- bench ----

/// The least nanoseconds of a call, the two in turns.
fn times(text: &[u8]) -> (f64, f64) {
    let mut least = [f64::INFINITY; 2];
    let calls = 2_000_000 / (text.len() + 40) + 1;
    for _ in 0..40 {
        for (i, call) in [ours as fn(&[u8]) -> usize, theirs].into_iter().enumerate() {
            let start = Instant::now();
            for _ in 0..calls {
                black_box(call(black_box(text)));
            }
            least[i] = least[i].min(start.elapsed().as_nanos() as f64 / calls as f64);
        }
    }
    (least[0], least[1])
}

fn bench() {
    let names = [
        ("letters", "SEA EAGLE"),
        ("Norwegian", "Blåskjær"),
        ("Greek", "Θαλασσοπόρος"),
        ("Cyrillic", "Северное сияние"),
        ("Chinese", "海上和平"),
        ("four bytes", "🚢⚓🐟"),
    ];
    for (kind, name) in names {
        for size in [name.len(), 64, 4096] {
            // whole characters of the name, again and again
            let text: String = name.chars().chain(Some(' ')).cycle().scan(0, |n, c| {
                *n += c.len_utf8();
                (*n <= size).then_some(c)
            }).collect();
            let (a, b) = times(text.as_bytes());
            println!("{}\t{a:.1}\t{b:.1}\t{kind}", text.len());
        }
    }
}

fn main() {
    let args: Vec<String> = std::env::args().skip(1).collect();
    match args.iter().map(|s| s.as_str()).collect::<Vec<_>>()[..] {
        ["bench"] => bench(),
        ["compare"] | ["compare", "four"] => {
            short();
            four(args.len() == 2);
            long();
            random();
        }
        _ => {
            eprintln!("usage: utf8_rust compare [four] | bench");
            std::process::exit(2);
        }
    }
}
