//! Words and bytes in hexadecimal, as a case is told that is replayed.

use std::fmt::Write;

pub fn print_words(name: &str, words: &[u32]) {
    println!("{name}, {} words:", words.len());
    print_rows(words.chunks(16).map(|row| hex(row, 8, " ")));
}

pub fn print_bytes(name: &str, bytes: &[u8]) {
    println!("{name}, {} bytes:", bytes.len());
    print_rows(bytes.chunks(64).map(|row| hex(row, 2, "")));
}

fn print_rows(rows: impl Iterator<Item = String>) {
    for row in rows {
        println!("  {row}");
    }
}

pub fn hex<T: std::fmt::LowerHex>(row: &[T], digits: usize, between: &str) -> String {
    let mut text = String::new();
    for (index, item) in row.iter().enumerate() {
        if index > 0 {
            text.push_str(between);
        }
        write!(text, "{item:0digits$x}").expect("a string takes all that is written");
    }
    text
}
