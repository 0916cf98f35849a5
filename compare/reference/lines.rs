// Reads words from standard input, one a line, each a list of hexadecimal code points parted by spaces, and writes a line for each.

use std::io::{self, BufRead, Write};

pub fn hex(text: &str) -> String {
    text.chars().map(|c| format!("{:X}", c as u32)).collect::<Vec<_>>().join(" ")
}

pub fn answer_each<F: Fn(&str) -> String>(answer: F) {
    let input = io::stdin();
    let mut output = io::BufWriter::new(io::stdout());
    for line in input.lock().lines() {
        let line = line.expect("a line of text");
        let word: String = line
            .split_whitespace()
            .map(|h| std::char::from_u32(u32::from_str_radix(h, 16).expect("a hexadecimal number")).expect("a scalar value"))
            .collect();
        writeln!(output, "{}", answer(&word)).expect("standard output");
    }
}
