// The small program in Rust: reads a filter book and a day file, runs them and prints what the day program prints.
//   rustc --edition 2021 -O small.rs -C link-arg=libexported.a -o small
//   small BOOK DAY

use std::io::{self, Write};
use std::{env, fs, process};

// As include/esquirmell.h has them.
const SLOT_NUMBERS: usize = 17;
const ROW_NUMBERS: usize = 3;
const WORKSPACE_NUMBERS: usize = 650;

// As the day program has them: the longest files, and what is lent.
const BOOK_BYTES: usize = 4610;
const DAY_BYTES: usize = 32768;
const SLOTS: usize = 64;
const MESSAGES: usize = 1024;

#[repr(C)]
struct Total {
    refusal: u64,
    asked: u64,
    anew: u64,
    filled: usize,
}

extern "C" {
    // A slice is a pointer and then a count; include/esquirmell.h says the rest.
    fn esquirmell_run(
        book: *const u8,
        book_bytes: usize,
        day: *const u8,
        day_bytes: usize,
        memory: *mut u64,
        memory_numbers: usize,
        answers: *mut u64,
        answers_numbers: usize,
        workspace: *mut u64,
        workspace_numbers: usize,
    ) -> Total;
}

// Borrowed slices have true counts, and those that are written overlap nothing, so this is safe to call.
fn run(book: &[u8], day: &[u8], memory: &mut [u64], answers: &mut [u64], workspace: &mut [u64]) -> Total {
    unsafe {
        esquirmell_run(
            book.as_ptr(),
            book.len(),
            day.as_ptr(),
            day.len(),
            memory.as_mut_ptr(),
            memory.len(),
            answers.as_mut_ptr(),
            answers.len(),
            workspace.as_mut_ptr(),
            workspace.len(),
        )
    }
}

fn ids(book: &[u8], filters: u64) -> Vec<u32> {
    (0..64)
        .filter(|k| filters >> k & 1 == 1)
        .map(|k| 2 + 8 * k)
        .map(|at| u32::from_le_bytes([book[at], book[at + 1], book[at + 2], book[at + 3]]))
        .collect()
}

fn print_lines(book: &[u8], messages: usize, answers: &[u64], total: &Total) -> io::Result<()> {
    let mut out = io::stdout().lock();
    for (k, row) in answers.chunks_exact(ROW_NUMBERS).take(messages).enumerate() {
        write!(out, "{} {} {}", k + 1, row[0], row[1])?;
        for id in ids(book, row[2]) {
            write!(out, " {id}")?;
        }
        writeln!(out)?;
    }
    let Total { refusal, asked, anew, filled } = total;
    writeln!(out, "total {refusal} {messages} {asked} {anew} {filled}")
}

fn main() -> io::Result<()> {
    let words: Vec<String> = env::args().collect();
    if words.len() != 3 {
        eprintln!("small BOOK DAY");
        process::exit(2);
    }
    // A missing file counts as empty.
    let book = fs::read(&words[1]).unwrap_or_default();
    let day = fs::read(&words[2]).unwrap_or_default();
    if book.len() > BOOK_BYTES || day.len() > DAY_BYTES {
        println!("too long");
        process::exit(1);
    }
    let mut memory = vec![0u64; SLOT_NUMBERS * SLOTS];
    let mut answers = vec![0u64; ROW_NUMBERS * MESSAGES];
    let mut workspace = vec![0u64; WORKSPACE_NUMBERS];
    let total = run(&book, &day, &mut memory, &mut answers, &mut workspace);
    // A run that is not refused has a day file of 2 bytes or more.
    let messages = if total.refusal == 0 { usize::from(day[0]) | usize::from(day[1]) << 8 } else { 0 };
    print_lines(&book, messages, &answers, &total)?;
    process::exit(i32::from(total.refusal != 0))
}
